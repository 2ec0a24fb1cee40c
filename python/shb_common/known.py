"""Places as they are written in tables, and the file of known places.

A line of the file has three fields with a tab between them: two sides of a place, in either order, and the
variable. A side is a location, or the function that it lies in, `FILE:FUNCTION()`, which an edit above
doesn't change. `*` stands for any text, and `\\*` for the sign itself. Empty lines, and lines that begin with
`#`, are skipped; `\\#` begins a field with that sign. A location that itself ends with `()` has a backslash
before these, so it is never taken for a function. Lines end with LF or CR LF. A line with two fields, as
earlier versions wrote it, is of every variable.
"""

import collections
import itertools
import re

from shb_common.files import read_at_most
from shb_common.refused import LONGEST, MARK, other_kind
from shb_common.words import Refused, printable

MOST_BYTES = 64 << 20       # of a file of known places
MOST_OFFSETS = 4            # of one block or object, that are written one by one
MOST_STALE = 20             # lines that are said to match nothing
CALL = b"()"
FORM = "a place is two locations or functions and a variable, with tabs between them"
HELP = """\
Known places:
  On a line two locations, or functions as FILE:FUNCTION(), in either order,
  and the variable, with tabs between; * stands for any text, and \\* for the
  sign itself. A line with two fields applies to every variable. Empty lines,
  and lines that begin with #, are skipped; \\# begins a field with this sign.
"""
# What other files have instead, and what helps.
FOREIGN = {
    rb"(race|race_top|called_from_lib|thread|mutex|signal|deadlock):":
        "ThreadSanitizer's `race:NAME` is written `*:NAME()`, `*`, `*` if NAME is a function, and `*NAME:*`, "
        "`*`, `*` if it is a file",
    rb"[^\t]* [^\t]*": "it has blanks",
}
# What differs by run in the name of a variable: line and number of a block, a stack, an index, an address.
BLOCK = rb"(?s)(.+):[0-9]+#[0-9]+((?:\+[0-9]+)?)"
STACK = rb"(?s)stack\..+-0x[0-9a-f]+"
INDEX = rb"\[[0-9]+\]"
ADDRESS = rb"(?s)(.+)~(?:0x)?[0-9a-f]+((?:[.+\[].*)?)"
RAW = rb"0x[0-9a-f]+(\+[0-9]+)?"    # memory without a name
OFFSET = rb"\+[0-9]+$"

# A line of the file. `sides` has of each side whether it is a function, and its pieces; `variable` the pieces
# of the third field, None where there is none.
class Line(collections.namedtuple("Line", "number text sides variable")):
    def is_of_all(self):
        """Whether it matches any two locations with any variable."""
        fields = [pieces for _, pieces in self.sides] + [self.variable] * (self.variable is not None)
        return all(len(pieces) > 1 and not any(pieces) for pieces in fields)


class BadLine(Refused):
    """A line of the file of known places that is none."""


class Side(collections.namedtuple("Side", "names functions")):
    """What a location may be called in the file: its names, and those of each function that it lies in. The
    first of several names is the one that is written."""

    def keys(self):
        return [*((False, name) for name in self.names),
                *((True, name) for names in self.functions for name in names)]

    def field(self):
        name = self.names[0]
        return (name[:-2] + b"\\()" if name.endswith(CALL) else name).replace(b"*", b"\\*")

    def function(self):
        """The function as a field; None where it isn't known, is one of several, or ends with a backslash."""
        if len(self.functions) != 1 or self.functions[0][0].endswith(b"\\" + CALL):
            return None
        return self.functions[0][0].replace(b"*", b"\\*")


def written(name):
    """A name as one field of a table: a tab and line ends are written as two characters."""
    return name.replace(b"\t", b"\\t").replace(b"\n", b"\\n").replace(b"\r", b"\\r")


def table(head, rows):
    """A table: the names of its columns with tabs between them, and rows of fields."""
    return b"".join(b"\t".join(fields) + b"\n" for fields in [(head,), *rows])


def line_of_fields(first, second, variable):
    line = b"\t".join([*sorted((first, second)), variable])
    return (b"\\" if line.lstrip(b"\\").startswith(b"#") else b"") + line + b"\n"


def lasting(variable):
    """The name of a variable as a field, with stars for what differs from run to run."""
    name = written(variable).replace(b"*", b"\\*")
    block = re.fullmatch(BLOCK, name) if b"#" in name else None
    if block:
        return block[1] + b":*#*" + block[2]
    if name.startswith(b"stack.") and re.fullmatch(STACK, name):
        return b"stack.*"
    if name.startswith(b"0x") and re.fullmatch(RAW, name):
        return b"0x*"
    address = re.fullmatch(ADDRESS, name) if b"~" in name else None
    if address:
        name = address[1] + b"~*" + address[2]
    return re.sub(INDEX, b"[*]", name) if b"[" in name else name


def lasting_names(variables):
    """The same of several variables, each once; of one object with many offsets a single name."""
    found = {}
    for name in sorted(set(map(lasting, variables))):
        found.setdefault(re.sub(OFFSET, b"", name), []).append(name)
    return [one for base, names in sorted(found.items())
            for one in ([base + b"*"] if len(names) > MOST_OFFSETS else names)]


def fields_of(sides):
    """Two sides as sorted fields of the file: as functions if each lies in one; and as two locations."""
    by_location = tuple(sorted(side.field() for side in sides))
    functions = [side.function() for side in sides]
    return (tuple(sorted(functions)) if all(functions) else by_location), by_location


def lines_of(places):
    """The lines of a file of known places with these: each has its two sides, the names of its variables, and
    whether there are more. By functions if these are known, with the locations in a comment above."""
    found, more = {}, set()
    for sides, variables, has_more in places:
        fields, by_location = fields_of(sides)
        names, comments = found.setdefault(fields, (set(), set()))
        names.update(variables)
        comments.update([by_location] if by_location != fields else [])
        more.update([fields] if has_more else [])
    for fields, (names, comments) in found.items():
        yield from (b"# " + b"\t".join(pair) + b"\n" for pair in sorted(comments))
        if fields in more:
            yield b"# it has more variables than are listed; a line with * as its third field matches all:\n"
            yield b"# " + line_of_fields(*fields, b"*")
        yield from (line_of_fields(*fields, name) for name in lasting_names(names))


def pieces_of(text):
    """What stands before, between and after the stars of a field."""
    return tuple(piece.replace(b"\\*", b"*") for piece in re.split(rb"(?<!\\)\*", text))


def matches(pieces, text):
    """Whether a text has these pieces, in this order and without overlap, from its beginning to its end. Of
    several occurrences of a piece the first one will do, so no search is done twice."""
    first, *inner, last = pieces if len(pieces) > 1 else (pieces[0], b"")
    if len(pieces) == 1:
        return text == first
    if not text.startswith(first) or not text.endswith(last):
        return False
    at, end = len(first), len(text) - len(last)
    for piece in inner:
        at = text.find(piece, at, end)
        if at < 0:
            return False
        at += len(piece)
    return at <= end


def side_in(field):
    """Whether a field of the file is a function, and its pieces."""
    if field.endswith(b"\\()"):
        return False, pieces_of(field[:-3] + CALL)
    return field.endswith(CALL), pieces_of(field)


def words_of_stale(lines, names):
    """What is said of lines that matched nothing. `names` are the source files' (`programs.Names`)."""
    for line in lines[:MOST_STALE]:
        files = (names.several(pieces[0].rpartition(b":")[0]) for _, pieces in line.sides)
        end, several = next(filter(None, files), (None, ()))
        why = f"; {printable(end)} is the end of {len(several)} source files' paths: " if several else ""
        yield (f"line {line.number}: no race matched `{printable(line.text)}`{why}"
               + ", ".join(map(printable, several[:3])))
    if len(lines) > MOST_STALE:
        yield f"{len(lines) - MOST_STALE:,} more lines: no race matched"


def read(path):
    """The places of the file that a user named. BadLine has its path."""
    try:
        return Known(read_at_most(path, MOST_BYTES))
    except BadLine as fault:
        raise BadLine(f"{printable(path)}, {fault}") from None


def given(path, say):
    """The places of the file that a user named, if any; `say` is told of lines without a variable."""
    found = read(path) if path else Known()
    old = [line for line in found.lines if line.variable is None]
    if old:
        more = f" and {len(old) - 1:,} more" if len(old) > 1 else ""
        say(f"{path}, line {old[0].number}{more}: no variable is named, so every variable there is known; a "
            "third field names one")
    every = [line.number for line in found.lines if line.is_of_all()]
    if every:
        say(f"{path}, line {every[0]}: it makes every race known")
    return found


class Known:
    """The places of a file, and which of its lines were needed."""

    def __init__(self, text=b""):
        self.lines, self.exact, self.patterns, self.found, self.used = [], {}, [], {}, set()
        other = other_kind(text)
        if other and not text.startswith(MARK):
            raise BadLine(f"line 1: {other}")
        for number, line in enumerate(text[len(MARK) if text.startswith(MARK) else 0:].split(b"\n"), 1):
            line = line[:-1] if line.endswith(b"\r") else line
            if line and not line.startswith(b"#"):
                self.add(line, number)

    def add(self, line, number):
        fields = (line[1:] if line.lstrip(b"\\").startswith(b"#") else line).split(b"\t")
        if len(fields) not in (2, 3):
            hint = next((f": {hint}" for pattern, hint in FOREIGN.items() if re.match(pattern, line)), "")
            raise BadLine(f"line {number}: {FORM}; this is `{printable(line, LONGEST)}`{hint}")
        sides = tuple(map(side_in, fields[:2]))
        self.lines.append(Line(number, line, sides, pieces_of(fields[2]) if len(fields) == 3 else None))
        if all(len(pieces) == 1 for _, pieces in sides):
            key = tuple(sorted((kind, pieces[0]) for kind, pieces in sides))
            self.exact.setdefault(key, []).append(len(self.lines) - 1)
        else:
            self.patterns.append(len(self.lines) - 1)

    def has(self, sides, variable):
        """Whether a variable is known at a place with these sides; None stands for those without a name."""
        lines = self.lines_at(sides) if self.lines else ()
        found = [line for line in lines if self.is_of(self.lines[line], variable)]
        self.used.update(found)
        return bool(found)

    def has_all(self, sides, variables, has_more=False):
        """Whether all variables of a place are known. `has_more` says that it has more than these."""
        names = [*variables, None] if has_more or not variables else variables
        return all([self.has(sides, variable) for variable in names])   # of each it is noted what it used

    @staticmethod
    def is_of(line, variable):
        if line.variable is None:
            return True
        return line.variable == (b"", b"") if variable is None else matches(line.variable, written(variable))

    def lines_at(self, sides):
        """The numbers of the lines whose first two fields name these sides."""
        one, other = (side.keys() for side in sides)
        found = {line for both in itertools.product(one, other)
                 for line in self.exact.get(tuple(sorted(both)), ())}
        if self.patterns:
            (first, second), (other_first, other_second) = map(self.patterns_of_any, (one, other))
            found |= first & other_second | second & other_first
        return found

    def patterns_of_any(self, keys):
        """The lines with stars whose first field is one of these, and those whose second."""
        return [set().union(*numbers) for numbers in zip(*map(self.patterns_of, keys))]

    def patterns_of(self, key):
        """The lines with stars whose first field this one matches, and those whose second."""
        if key not in self.found:
            kind, name = key
            self.found[key] = tuple({number for number in self.patterns
                                     for is_function, pieces in [self.lines[number].sides[side]]
                                     if is_function == kind and matches(pieces, name)} for side in (0, 1))
        return self.found[key]

    def stale(self):
        return [line for number, line in enumerate(self.lines) if number not in self.used]
