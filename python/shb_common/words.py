"""What commands say: how many, names as a reader sees them, and why something can't be done."""

import os

SIGNS = str.maketrans({"&": "&amp;", "<": "&lt;", ">": "&gt;", '"': "&quot;", "'": "&#x27;"})


class Refused(Exception):
    """What every part of a command raises: the words say why, and what to do about it where that is known."""


def counted(count, word):
    """`1 place`, `2 places`, `1,000 accesses`."""
    ending = "es" if word.endswith(("s", "ch")) else "s"
    return f"{count:,} {word}{ending * (count != 1)}"


def in_html(text):
    """As `html.escape`, whose module is slow to import."""
    return text.translate(SIGNS)


def printable(text, most=None):
    """The text on a terminal, or a path: what doesn't print is escaped. Of more than `most` columns the first
    ones."""
    found = os.fsencode(text).decode(errors="backslashreplace")
    found = "".join(sign if sign.isprintable() else sign.encode("unicode_escape").decode() for sign in found)
    return found if most is None or len(found) <= most else found[:most - 2] + ".."
