# Completes the commands in bash. bash-completion's _longopt reads the options from a command's --help.
_shb()
{
    local command=${COMP_WORDS[1]} word=${COMP_WORDS[COMP_CWORD]}
    COMPREPLY=()
    if ((COMP_CWORD == 1)) || [[ $command == help ]]; then
        COMPREPLY=($(compgen -W 'races places check help --help' -- "$word"))
    elif [[ $word == -* ]]; then
        COMPREPLY=($(compgen -W "$("$1" "$command" --help | sed -nE 's/^ +(-., )?(--[a-z]+).*/\2/p')" -- "$word"))
    fi
}
complete -o default -F _shb shb
complete -F _longopt shb-farm shb-fix shb-record shb-std shb-view
