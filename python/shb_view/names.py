"""Names as they are shown. A name is any bytes. What is shown of it is safe in a terminal, and two names look
the same only where they are the same: what doesn't print, what can't be seen and what isn't UTF-8 is written
as an escape, and so is a backslash."""

import functools
import os
import re
import unicodedata

MOST_MARKS = 3  # combining marks that stay with one character
MOST_BYTES = 4 * (MOST_MARKS + 1)  # of what takes a column
# Letters and marks that print as nothing: Unicode's Default_Ignorable_Code_Point, the empty Braille pattern.
UNSEEN = frozenset(map(chr, (0x34f, 0x115f, 0x1160, 0x17b4, 0x17b5, *range(0x180b, 0x1810), 0x2800, 0x3164,
                             *range(0xfe00, 0xfe10), 0xffa0, *range(0xe0100, 0xe01f0))))
ISOLATE, END = "\u2068", "\u2069"  # around a name with letters that are read from right to left


@functools.lru_cache(maxsize=1024)
def readable(name):
    """The whole name, or a path, as text."""
    return isolated(characters(os.fsencode(name)))


@functools.lru_cache(maxsize=4096)
def short(name, most):
    """The name as text of at most so many columns: of a longer one the middle is left out."""
    return fitted(characters(name), most)


def code_line(line, most):
    """A line of code, short in the same way. Its tabs are blanks, and its backslashes stay as they are."""
    room = most * MOST_BYTES
    ends = line if len(line) <= 2 * room else line[:room] + line[-room:]
    return fitted([part if part != "\\\\" else "\\" for part in characters(ends.expandtabs(8))], most)


def fitted(found, most):
    """The characters as one text of at most so many columns."""
    if columns(found) <= most:
        return isolated(found)
    head = fitting(found, (most - 1) // 2)
    tail = fitting(found[::-1], most - 1 - columns(head))[::-1]
    return isolated([*head, "…", *tail])


def isolated(found):
    """The characters as one text, kept apart from the text around it where it is read from right to left."""
    text = "".join(found)
    if text.isascii():
        return text
    is_right_to_left = any(unicodedata.bidirectional(character) in ("R", "AL", "AN") for character in text)
    return f"{ISOLATE}{text}{END}" if is_right_to_left else text


def by_numbers(location):
    """What locations are sorted by: by the numbers in them where they differ in these."""
    return [part.rjust(20, b"0") if part.isdigit() else part for part in re.split(rb"([0-9]+)", location)]


def columns(text):
    """How many columns a text takes in a terminal."""
    text = "".join(text)
    return len(text) if text.isascii() else sum(map(character_columns, text))


def padded(text, width):
    """The text with blanks after it up to this many columns."""
    return text + " " * (width - columns(text))


def characters(name):
    """The characters that a reader sees, each as a text that isn't cut. Combining marks go with the character
    before them, but where another character looks like both together: so only one of the two ways to write it
    is shown without escapes."""
    text, found = name.decode(errors="surrogateescape"), []
    if text.isascii() and text.isprintable() and "\\" not in text:
        return list(text)
    for character in text:
        if not is_seen(character):
            found.append(escape(character))
        elif not is_mark(character):
            found.append(character)
        elif (found and len(found[-1]) <= MOST_MARKS
              and unicodedata.is_normalized("NFC", found[-1] + character)):
            found[-1] += character
        else:
            found.append(escape(character))
    return found


def is_seen(character):
    """Whether the character is shown as it is. Marks print where there is a character before them."""
    if character == "\\" or character in UNSEEN:
        return False
    return is_mark(character) or character.isprintable() and unicodedata.is_normalized("NFC", character)


def is_mark(character):
    return unicodedata.category(character).startswith("M")


def escape(character):
    """A byte that isn't UTF-8 and an ASCII character as `\\xff`, other characters as
    `\\u200b` or `\\U000e0001`."""
    if character == "\\":
        return "\\\\"
    code = ord(character)
    if 0xDC80 <= code <= 0xDCFF:
        return f"\\x{code - 0xDC00:02x}"
    if code < 0x80:
        return f"\\x{code:02x}"
    return f"\\u{code:04x}" if code < 0x10000 else f"\\U{code:08x}"


def character_columns(character):
    if character in (ISOLATE, END) or is_mark(character):
        return 0
    return 2 if unicodedata.east_asian_width(character) in "WF" else 1


def fitting(found, most):
    """The longest front of the characters that takes at most so many columns."""
    taken = 0
    for count, character in enumerate(found):
        taken += columns(character)
        if taken > most:
            return found[:count]
    return found
