"""From lines to events: marks, blanks, comments and other spellings."""

from shb_common.refused import KIN, MARK, WORDS, hint_of, other_kind, paired
from shb_common.words import printable
from shb_fix.events import Event

MARKS = {b"begin", b"end", b"branch"}
NAMED = WORDS - MARKS
FOREIGN = set(b"vr vw rdlock wrlock rdunlock wrunlock wait notify notifyall".split())
SPELLINGS = {**KIN, **paired(b"rd=r wr=w enterbegin=begin enter=acq exit=rel volatile_read=vr "
                             b"volatile_write=vw")}
COLUMNS = 60        # of a line that is quoted
FORM = "a line is THREAD|OPERATION|LOCATION, such as T1|w(x)|a.c:3"


def event_of(number, text, repairs):
    """The event of a line, with known spellings of its operation; None where it has none."""
    fields = [field.strip(b" \t") for field in text.split(b"|", 2)]
    if len(fields) < 2 or not fields[0]:
        return None
    said, bracket, rest = fields[1].partition(b"(")
    said = said.strip(b" \t")
    name = rest[:-1].strip(b" \t") if bracket and rest.endswith(b")") else None
    word = SPELLINGS.get(said.lower(), said.lower())
    if word not in MARKS and (word not in NAMED | FOREIGN or not name):
        return None
    event = Event(number, fields[0], word, name, fields[2] if len(fields) > 2 else None)
    if word != said:
        repairs.translate("other spelling")
    if event._replace(word=said).text().rstrip(b"\n") != text:
        repairs.note(number, "blanks were dropped")
    if word == b"branch":   # of RAPID's: it orders nothing
        repairs.translate("branch")
        return event.like(b"begin", b"branch")
    return event


def events_of(file, repairs):
    """The events of a file from its beginning. A line that is no event is dropped, and noted."""
    file.seek(0)
    for number, line in enumerate(file, 1):
        text = line.rstrip(b"\r\n")
        if number == 1 and text.startswith(MARK):
            text = text[len(MARK):]
            repairs.note(number, "the byte order mark was dropped")
        if not text:
            continue
        event = event_of(number, text, repairs)
        if event:
            yield event
        else:
            repairs.note(number, f"`{printable(text, COLUMNS)}` is no event: dropped",
                         kind="is no event: dropped")


def kind_of(file):
    """What a file is that is no trace, if its beginning shows it."""
    file.seek(0)
    start = file.read(COLUMNS)
    return "" if start.startswith(MARK) else other_kind(start)


def no_event(file):
    """What is printed for a file without an event: its first line, and what may be wrong with that."""
    file.seek(0)
    line = next(filter(None, (line.rstrip(b"\r\n") for line in file)), b"")
    return f"no line is an event; the first is `{printable(line, COLUMNS)}`: {hint_of(line) or FORM}"
