"""Functions and locations (FILE:LINE, FILE:LINE:COLUMN or MODULE+OFFSET), as a trace has them."""

import functools
import re

LOCATION = re.compile(rb"(.*?)((?::([0-9]+)(?::[0-9]+)?|\+0x[0-9a-f]+)?)", re.S)
MOST_DIGITS = 9     # of a line's number
QUALIFIERS = rb"(?: const| volatile)+$"


def parts_of(location):
    """The file or module of a location, and the rest."""
    return LOCATION.fullmatch(location).groups()[:2]


def line_of(location):
    """The file of a location and the number of its line; None where it has none."""
    file, _, line = LOCATION.fullmatch(location).groups()
    return (file, int(line)) if file and line and len(line) <= MOST_DIGITS else None


@functools.lru_cache(maxsize=1024)
def bare(function):
    """A function's name without its parameters, and without arguments of templates."""
    name = re.sub(QUALIFIERS, b"", function) if function.endswith((b" const", b" volatile")) else function
    if name.endswith(b")") and not name.endswith(b"operator()"):
        name = name[:opening(name)]
    if b"operator" in name or b"->" in name:
        return name
    found, depth = bytearray(), 0
    for byte in name:
        depth -= byte == ord(">")
        if not depth:
            found.append(byte)
        depth += byte == ord("<")
    return bytes(found) if not depth else name


def opening(name):
    """Where the parenthesis opens that the name ends with, or its end."""
    depth = 0
    for at in range(len(name) - 1, -1, -1):
        depth += (name[at] == ord(")")) - (name[at] == ord("("))
        if not depth:
            return at
    return len(name)
