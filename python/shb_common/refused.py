"""What stands in the line for which a trace was refused, and what may be wrong with it."""

import re

from shb_common.limits import LINE_ROOM, MOST_EVENTS, MOST_TEXT, MOST_THREADS
from shb_common.words import printable

NUMBER = r"(?:.*: )?line ([1-9][0-9]{0,18}): "
LONGEST = 60        # columns of the line that are shown
WORDS = set(b"r w acq rel fork join begin end".split())
SEPARATORS = {b"\t": "tabs", b",": "commas", b";": "semicolons"}
MARK = b"\xef\xbb\xbf"
# as `shb` says it of any trace
NOTE = b"the trace begins with a byte order mark, which is a part of the first thread's name\n"
PACKED = "is packed by {}: unpack it first".format
UTF_16 = "is UTF-16: save it as UTF-8"
BEGINNINGS = {beginning: f"the file {hint}" for beginning, hint in {      # of files that are something else
    b"\x1f\x8b": PACKED("gzip"), b"\xfd7zXZ": PACKED("xz"), b"\x28\xb5\x2f\xfd": PACKED("zstd"),
    b"BZh": PACKED("bzip2"), b"PK\x03\x04": "is a zip archive: unpack it first",
    b"\xff\xfe": UTF_16, b"\xfe\xff": UTF_16, MARK: "begins with a byte order mark: save it without one",
    b"shb-report": "is a report of `shb`, not a trace",
    b"shb-record": "is a record: `shb-std` makes a trace of it"}.items()}
REPAIRS = {         # of faults between lines
    "the lock is not held by this thread": "the log may begin while the lock is held, or miss an acquire",
    "the lock is held by another thread": "the log may miss a release",
    "the thread was joined before": "a join may have timed out, or the thread's name is used again",
    "the forked thread has started already": "the fork may be logged late",
    "the thread was forked before": "the thread's name may be used again",
    "the forked thread was joined before": "the thread's name may be used again",
}
LIMITS = (f"there are more than {MOST_EVENTS} events", f"there are more than {MOST_THREADS} threads",
          f"the text is longer than {MOST_TEXT} bytes")
LONGER = "`shb places --list` lists the places of a longer trace"
CARRIAGE_RETURNS = "a carriage return without a line feed: lines end with a line feed, or with both"


def paired(text):
    """A table of words: pairs with a sign in between."""
    return dict(pair.split(b"=") for pair in text.split())


KIN = paired(b"read=r write=w lock=acq acquire=acq unlock=rel release=rel start=fork")


def without_note(said):
    """What `shb` said, but for its notes on how the trace begins, which the commands print by themselves."""
    notes = {NOTE, *(f"{hint}\n".encode() for hint in BEGINNINGS.values())}
    return b"".join(line for line in said.splitlines(keepends=True) if line not in notes)


def explained(words, file):
    """The words of a refusal, `line N: REASON`, with that line of the open trace, and a hint if any."""
    found = line_and_hint(words, file)
    if not found:
        return words
    line, hint = found
    return f"{words}; it is `{printable(line, LONGEST)}`" + (f": {hint}" if hint else "")


def line_and_hint(words, file):
    """The line of an open file that the words of a refusal name, without its end, and what may be wrong with
    it, nothing where there is no guess; None where they name no line. Of a long line the front."""
    found = re.match(NUMBER, words)
    if not found:
        return None
    file.seek(0)
    other = other_kind(file.read(LONGEST))
    line = line_in(file, int(found[1])).rstrip(b"\r\n")
    return line, other or hint_of(line) or repair_of(words)


def other_kind(start):
    """What a file is that begins with these bytes and is no trace; nothing where they don't show it."""
    return next((hint for beginning, hint in BEGINNINGS.items() if start.startswith(beginning)), "")


def repair_of(words):
    """What helps where a trace is too long, and what `shb-fix` may repair of a fault between lines."""
    if words.endswith(LIMITS):
        return LONGER
    repair = next((repair for fault, repair in REPAIRS.items() if words.endswith(fault)), None)
    return f"{repair}; `shb-fix` repairs such logs" if repair else ""


def line_in(file, number):
    """The beginning of a line of an open file, with its end if it is short."""
    file.seek(0)
    for _ in range(number - 1):
        part = file.readline(LINE_ROOM)
        while part and not part.endswith(b"\n"):
            part = file.readline(LINE_ROOM)
    return file.readline(LINE_ROOM)


def hint_of(line):
    """What may be wrong with a line, the likeliest alone."""
    fields = line.split(b"|")
    word, _, rest = fields[1].partition(b"(") if len(fields) > 1 else (b"", b"", b"")
    bare = word.strip()
    if b"\0" in line:
        return "the file is UTF-16, or no text: save it as UTF-8"
    if b"\r" in line:
        return CARRIAGE_RETURNS
    if len(fields) == 1:
        other = next((f", not {name}" for separator, name in SEPARATORS.items() if separator in line), "")
        return f"a line is THREAD|OPERATION|LOCATION, with bars between{other}; there are no comments"
    if bare in WORDS and (bare != word or rest.rstrip() != rest):
        return "there are blanks around the bar: write THREAD|OPERATION|LOCATION without them"
    if bare.lower() in WORDS and bare != bare.lower():
        return f"operations are written in small letters, as `{bare.lower().decode()}`"
    return f"this operation is written `{KIN[bare.lower()].decode()}`" if bare.lower() in KIN else ""
