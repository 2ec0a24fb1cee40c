"""The manual pages and completions of an installation: each command has both, and they are of use."""

import os
import re
import shutil
import sys

import installing
from installing import TOP, call
from shb_install.tree import BASH, MANUAL, PAGES, ZSH

FISH = "/usr/share/fish/tools/create_manpage_completions.py"
WITHOUT_HELP2MAN = """\
import shutil, sys
sys.path[:0] = sys.argv[1:3]
which = shutil.which
shutil.which = lambda program: None if program == "help2man" else which(program)
from shb_install.command import main
sys.exit(main(sys.argv[3:]))
"""


def options_of(help_):
    """The long options that a help lists."""
    return set(re.findall(r"^ {2,6}(?:-\w(?: \w+)?, )?(--[a-z-]+)", help_, re.M))


class Installed(installing.Case):
    def setUp(self):
        super().setUp()
        self.need("help2man")
        self.prefix = installing.installed()

    def help(self, command):
        name, *more = command.split()
        return call(self.prefix / "bin" / name, *more, "--help", env={"PATH": os.environ["PATH"]})


class Pages(Installed):
    def test_each_command_has_a_page(self):
        """With all that its help says, without a warning and in 80 columns, but for the line of a path."""
        self.need("man")
        commands = {path.name for path in (self.prefix / "bin").iterdir()}
        inner = re.findall(r"^  ([a-z]+) ", self.help("shb").partition("Commands:")[2], re.M)
        self.assertEqual(set(PAGES), commands | {f"shb {name}" for name in inner if name != "help"})
        for command in PAGES:
            page, shown = self.prefix / MANUAL / f"{command.replace(' ', '-')}.1", {}
            for width in "80", "500":
                environment = {**os.environ, "MANWIDTH": width, "LC_ALL": "C.UTF-8", "MANROFFOPT": "-c"}
                ran = installing.subprocess.run(["man", "--warnings=w", "-P", "cat", "-l", page],
                                                env=environment, capture_output=True)
                self.assertEqual((ran.returncode, ran.stderr), (0, b""), command)
                shown[width] = re.sub(".\b", "", ran.stdout.decode())
            self.assertEqual([line for line in shown["80"].splitlines() if len(line) > 80
                              and str(self.prefix) not in line], [], command)
            missing = [word for word in self.help(command).split() if word not in shown["500"]]
            # these are headings of their own there
            self.assertLessEqual(set(missing), {"Usage:", "Options:", "Environment:", "or:"}, command)

    def test_a_help_is_80_columns_wide(self):
        for command in PAGES:
            self.assertEqual([line for line in self.help(command).splitlines() if len(line) > 80
                              and str(self.prefix) not in line], [], command)

    def test_its_name_is_found(self):
        self.need("lexgrog")
        for command, gist in PAGES.items():
            name = command.replace(" ", "-")
            self.assertIn(f': "{name} - {gist}"', call("lexgrog", self.prefix / MANUAL / f"{name}.1"))

    def without_help2man(self, top, *words):
        ran = installing.subprocess.run([sys.executable, "-B", "-c", WITHOUT_HELP2MAN, top / "packaging",
                                         top / "python", "--shb", installing.SHB, *words],
                                        env=installing.environment(), capture_output=True)
        return ran.returncode, ran.stderr.decode()

    def test_without_help2man_there_are_no_pages(self):
        prefix = self.folder / "prefix"
        self.assertEqual(self.without_help2man(TOP, "--prefix", prefix, "install"),
                         (0, "install: help2man isn't installed, so there are no manual pages\n"))
        self.assertEqual(((prefix / MANUAL).exists(), (prefix / BASH / "shb").exists()), (False, True))

    def test_without_help2man_there_is_no_package(self):
        copy = installing.copy_of_repository(self.folder / "copy")
        for what in "dist", "deb":
            self.assertEqual(self.without_help2man(copy, what), (
                1, "install: help2man isn't installed; no package can be made without it\n"))


class Completions(Installed):
    """Each shell is asked for what it offers after some words, with the commands on its PATH."""

    def setUp(self):
        super().setUp()
        (self.folder / "in").mkdir()
        (self.folder / "in" / "app.std").touch()
        self.environment = {**os.environ, "PATH": f"{self.prefix}/bin:{os.environ['PATH']}"}

    def bash(self, *words):
        script = """\
. /usr/share/bash-completion/bash_completion
. "$1"; shift
COMP_WORDS=("$@"); COMP_CWORD=$(($# - 1)); COMP_LINE="$*"; COMP_POINT=${#COMP_LINE}
[[ $(complete -p "$1") =~ -F\ ([^ ]+) ]] && "${BASH_REMATCH[1]}" "$1" "${@: -1}"
printf '%s\\n' "${COMPREPLY[@]}"
"""
        path = self.prefix / BASH / words[0]
        return set(call("bash", "-c", script, "bash", path, *words, cwd=self.folder / "in",
                        env=self.environment).split())

    def zsh(self, *words):
        """Types the words and a tab into a zsh on a terminal of its own, which notes the matches
        in a file."""
        room = self.folder / "zsh"
        shutil.rmtree(room, ignore_errors=True)
        shutil.copytree(self.prefix / ZSH, room)
        (room / "first").write_text(ZSH_INNER)
        call("zsh", "-f", "-c", ZSH_OUTER, "zsh", " ".join(words),
             env={**self.environment, "ROOM": str(room), "IN": str(self.folder / "in")})
        return set((room / "matches").read_text().split())

    def expect_all(self, ask):
        self.assertLessEqual({"races", "places", "check", "help"}, ask("shb", ""))
        self.assertEqual(ask("shb", "ra"), {"races"})
        for command in sorted(PAGES)[1:]:
            wanted = options_of(self.help(command))
            self.assertIn("--help", wanted)
            self.assertLessEqual(wanted, ask(*command.split(), "--"), command)
        self.assertEqual(ask("shb-view", "ap"), {"app.std"})

    def test_bash(self):
        if not os.path.exists("/usr/share/bash-completion/bash_completion"):
            self.skipTest("bash-completion isn't installed")
        self.expect_all(self.bash)

    def test_zsh(self):
        self.need("zsh")
        self.expect_all(self.zsh)

    def test_fish(self):
        """It makes completions of manual pages."""
        if not os.path.exists(FISH):
            self.skipTest("fish isn't installed")
        for command in PAGES:
            name = command.replace(" ", "-")
            said = call(sys.executable, FISH, "--stdout", self.prefix / MANUAL / f"{name}.1")
            self.assertLessEqual(options_of(self.help(command)),
                                 {f"--{option}" for option in re.findall(" -l ([a-z-]+)", said)}, command)


# What the zsh reads first. Matches are offered by `compadd`: this one notes them, too.
ZSH_INNER = r"""
PROMPT=
fpath=($ROOM $fpath)
autoload -Uz compinit
compinit -u -d $ROOM/dump
bindkey '^I' complete-word
compadd() {
    if [[ ${@[1,(i)(-|--)]} == *-(O|A|D)\ * ]]; then builtin compadd "$@"; return $?; fi
    typeset -a matches
    builtin compadd -A matches "$@"
    print -rl -- $matches >> $ROOM/matches
    builtin compadd "$@"
}
finish() { : >> $ROOM/matches; : > $ROOM/done; exit }
comppostfuncs=(finish)
cd $IN
: > $ROOM/ready
"""
ZSH_OUTER = r"""
zmodload zsh/zpty
wait_for() { repeat 600; do [[ -e $ROOM/$1 ]] && return; sleep 0.05; done; exit 9; }
zpty inner zsh -f -i
zpty -w inner "source $ROOM/first"
wait_for ready
zpty -w -n inner "$1"$'\t'
wait_for done
"""
