#compdef shb shb-farm shb-fix shb-record shb-std shb-view
# Completes the commands in zsh: _arguments reads the options from a command's --help.
if [[ $service == shb ]] && (( CURRENT == 2 )); then
    _arguments '1:command:(races places check help)' --
elif [[ $service == shb ]]; then
    words=("$words[1] $words[2]" $words[3,-1])
    (( CURRENT -= 1 ))
    _gnu_generic
else
    _gnu_generic
fi
