"""What the command lines of the commands have in common."""

import argparse

from shb_common.parts import installed, version
from shb_common.standard import tell
from shb_common.words import printable

COLUMNS = 80
SHORT = 58      # of these those of an option's first words
# What other tools call an option.
OF_OTHERS = {"--suppressions": "--known", "--baseline": "--known", "--repeat": "--runs",
             "--threads": "--jobs"}


def filled(text):
    """A text with its paragraphs filled to 80 columns, but those with a line that begins with a blank."""
    import textwrap  # is slow to import, and is for help alone
    return "\n\n".join(part if "\n " in f"\n{part}"
                       else textwrap.fill(part, COLUMNS, break_long_words=False, break_on_hyphens=False)
                       for part in text.strip("\n").split("\n\n"))


class Version(argparse.Action):
    def __call__(self, parser, *_):
        print(parser.prog, version())
        parser.exit()


class Help(argparse.Action):
    """What --help says on one screen: of each option the first words."""

    def __call__(self, parser, *_):
        import re  # takes its time
        print(parser.format_usage().replace("usage:", "Usage:", 1))
        for action in parser._actions:
            names = ", ".join(action.option_strings) + f" {action.metavar or ''}"
            first = re.split(r" [(]|[;:.](?: |$)", action.help)[0]
            print(f"  {names.strip():18}  {first if len(first) <= SHORT else first.partition(', ')[0]}")
        print(f"\n{parser.prog} --help says all.")
        parser.exit()


class Parser(argparse.ArgumentParser):
    """The words of a command: what it is about, its options, and notes. Wrong words end it with `status`."""

    def __init__(self, command, about, notes, status=3, usage=None):
        super().__init__(prog=command, formatter_class=argparse.RawDescriptionHelpFormatter, usage=usage,
                         # what is short for one option today may be for another tomorrow
                         allow_abbrev=False, add_help=False)
        self.about, self.notes, self.status = about, notes, status
        # as clap has them in the help of `shb`, and as help2man reads them
        self._positionals.title, self._optionals.title = "Arguments", "Options"
        self.add_argument("-h", action=Help, nargs=0, help="print the options in short and exit")
        self.add_argument("--help", action="help", help="print this text and exit")

    def add(self, options, exclusive=(), **more):
        """Adds the options and arguments of a text: of each the name, that of its value if it has one, a
        colon and what --help says. At most one of the exclusive ones may be given; `more` is what else
        `add_argument` is told, by the names of values."""
        import re  # as argparse has already
        group = exclusive and self.add_mutually_exclusive_group()
        for name, value, said in re.findall(r"^(\S+?)(?: (\S+))?: (.*(?:\n  .*)*)", options, re.M):
            place = name.strip("-").replace("-", "_").lower()
            how = {"metavar": value or name} if value or name.isupper() else {"action": "store_true"}
            how.update(more.get(place, {}), help=" ".join(said.split()))
            (group if place in exclusive else self).add_argument(place if name.isupper() else name, **how)

    def format_help(self):
        notes = f"{self.notes.rstrip()}\n\nshb {installed()}\n" if installed() else self.notes
        self.description, self.epilog = filled(self.about), filled(notes)
        return super().format_help().replace("usage:", "Usage:", 1)

    def error(self, message):
        tell(f"{self.format_usage()}{self.prog}: {printable(message)}")
        self.exit(self.status)

    def nearest(self, word):
        """The option that a word may stand for, by its letters or by what other tools call it."""
        import difflib  # is slow to import, and is for wrong words alone
        mine = [name for action in self._actions for name in action.option_strings if name.startswith("--")]
        bare = word.partition("=")[0]
        others = OF_OTHERS.get(bare)
        return others if others in mine else next(iter(difflib.get_close_matches(bare, mine, 1)), None)

    def parsed(self, words):
        self.add_argument("--version", action=Version, nargs=0, help="print the version and exit")
        if any("\0" in word for word in words):
            self.error("a word has a NUL")
        found, unknown = self.parse_known_args(words)
        if unknown:
            near = self.nearest(unknown[0]) if unknown[0].startswith("--") else None
            self.error(f"unrecognized arguments: {' '.join(unknown)}"
                       + f" (did you mean {near}?)" * bool(near))
        return found


def number(least):
    def read(text):
        if not text.isdecimal() or len(text) > 18 or int(text) < least:
            raise argparse.ArgumentTypeError(f"it takes a number from {least}")
        return int(text)
    return read
