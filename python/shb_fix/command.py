"""The words of the command, its files and its statuses."""

import contextlib
import itertools
import shutil
import sys
import tempfile

from shb_common.commands import Parser
from shb_common.standard import leave_standard_output, open_standard_files, tell, words_of
from shb_fix import lines, locks, threads
from shb_fix.events import Repairs

ABOUT = """\
Writes a trace of another tool to standard output so that `shb` reads it.

What is only written in another form is translated, and counted in one line: r, w, acq, rel,
fork and join in other spellings, and vr, vw (volatile or atomic accesses), rdlock, rdunlock,
wrlock, wrunlock, wait and notify, of which it makes locks.

What `shb` refuses otherwise is repaired, and each repair is listed on standard error. A
repair is a guess about the program: read the list. It says which ones add order (a lock that
is released, a fork that is moved), since that can hide a race. A dropped line can lose one.

A trace may have any length: it is read line by line, several times. A pipe is copied to a
file first."""
STATUS = """\
Exit status: 0 nothing was repaired; 1 the trace was repaired; 2 it is no trace: no line is an
event, or it is a report, or packed; nothing was written; 3 wrong command line; 4 a file can't
be read or written."""
OPTIONS = """\
--quiet: don't list the repairs, only how many there are
TRACE: a trace; standard input if none is named
"""


def arguments(words):
    parser = Parser("shb-fix", ABOUT, STATUS)
    parser.add(OPTIONS, trace={"nargs": "?"})
    return parser.parsed(words)


@contextlib.contextmanager
def opened(path):
    """The trace as a file that can be read several times."""
    with open(path, "rb") if path else open(0, "rb", closefd=False) as file:
        if file.seekable():
            yield file
            return
        with tempfile.TemporaryFile() as copy:
            shutil.copyfileobj(file, copy)
            yield copy


class Trace:
    """A trace that is read several times: first for what the repairs have to know of the whole."""

    def __init__(self, file, repairs):
        self.file, self.lives, self.uses, self.count = file, threads.Lives(), locks.Uses(), 0
        for event in threads.named_apart(lines.events_of(file, repairs), repairs):
            self.lives.note(event)
            self.uses.note(event)
            self.count = event.line
        self.plan = threads.Plan(self.lives, repairs)

    def read(self, repairs):
        """The repaired events, and the state of the locks after them."""
        unnoted = Repairs()
        events = lines.events_of(self.file, unnoted)
        events = itertools.takewhile(lambda event: event.line <= self.count, events)
        events = self.plan.followed(threads.named_apart(events, unnoted))
        events = locks.with_reader_locks(locks.with_waits(events, repairs), self.uses, repairs)
        sections = locks.Sections(self.plan.forked, repairs)
        return locks.with_volatiles(sections.whole(events), self.uses, repairs), sections


def repaired(trace, repairs):
    """The events of a trace, repaired. They are made twice: at the end it is known what comes first."""
    events, sections = trace.read(Repairs())
    for _ in events:
        pass
    return itertools.chain(sections.begun, trace.read(repairs)[0])


def fix(file, options, repairs):
    other = lines.kind_of(file)
    trace = None if other else Trace(file, repairs)
    if other or repairs.counts and not trace.count:
        tell(f"shb-fix: {other or lines.no_event(file)}")
        return 2
    try:
        sys.stdout.buffer.writelines(event.text() for event in repaired(trace, repairs))
        sys.stdout.buffer.flush()
    except OSError as fault:
        leave_standard_output()
        tell(f"shb-fix: cannot write: {words_of(fault)}")
        return 4
    tell("\n".join([*([] if options.quiet else repairs.lines()), f"shb-fix: {repairs.summary()}"]))
    return 1 if repairs.counts else 0


def main(words):
    is_open = open_standard_files()
    options = arguments(words)
    if not is_open:
        tell("shb-fix: cannot write: standard output is closed")
        return 4
    try:
        with opened(options.trace) as file:
            return fix(file, options, Repairs())
    except OSError as fault:
        tell(f"shb-fix: {words_of(fault)}")
        return 4
