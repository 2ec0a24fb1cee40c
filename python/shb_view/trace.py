"""The lines of a trace that `shb` has read without a fault, and the fields of one."""

import bisect
import collections
import itertools
import os
import re

from shb_common.refused import CARRIAGE_RETURNS, MARK
from shb_common.variables import without_end

BATCH = 65_536  # bytes of lines that are read at once
OPENS = ord("(")  # the second byte of `r(X)` and `w(X)` alone
CHANGED = "the trace isn't the one that `shb` read: it was changed in between"

# A line that was looked up, without its end; `row` is its number in the text, counted from 1.
Found = collections.namedtuple("Found", "row line")


def line_of(event):
    """The line of an event with an operand."""
    return (event.thread + b"|" + event.word + b"(" + event.name + b")"
            + (b"|" + event.location if event.location else b""))


def warnings(path):
    """What a trace that isn't refused begins with, where that isn't what it looks like."""
    with open(path, "rb") as file:
        start = file.read(BATCH)
    if start.startswith(MARK):
        yield "The trace begins with a byte order mark, which is a part of the first thread's name."
    if re.search(rb"\r[^\n]", start):
        yield f"In the trace {CARRIAGE_RETURNS}."


class Trace:
    """A trace's file, read as often as is asked for. Before the events of `parts` some may be missing: with
    each of them, as with the first event, a part begins, in which no lock is held before."""

    def __init__(self, file, progress, parts=()):
        self.file, self.progress, self.parts = file, progress, frozenset(parts)
        self.begins = sorted({1, *parts})
        self.size = os.fstat(file.fileno()).st_size
        self.marks = [(0, 0, 0)]  # of each batch that was read: the events, lines and bytes before it

    def parts_of(self, events):
        """The parts with some of these events: by where each begins the last of them."""
        return {self.begins[bisect.bisect(self.begins, event) - 1]: event for event in sorted(events)}

    def mark_of(self, event):
        return self.marks[bisect.bisect_left(self.marks, (event, 0, 0)) - 1]

    def batches(self, doing, first):
        """The lines of events from one on that was read before, or the first, some thousand at a time; each
        batch with the number of its first event."""
        events, rows, place = self.mark_of(first)
        self.file.seek(place)
        while True:
            lines = self.file.readlines(BATCH)
            if self.marks[-1][2] < place:
                self.marks.append((events, rows, place))
            if not lines:
                break
            rows, place = rows + len(lines), self.file.tell()
            if min(map(len, lines)) <= 2:
                lines = [line for line in lines if without_end(line)]
            before = max(first - 1 - events, 0)
            yield events + before + 1, lines[before:]
            events += len(lines)
            self.progress.step(doing, place, self.size)

    def events(self, doing, first=1):
        """The number of each event from this one on, its thread, its operation, and its line with its end."""
        for start, lines in self.batches(doing, first):
            for number, line in enumerate(lines, start):
                fields = line.split(b"|", 2)
                operation = fields[1] if len(fields) == 3 else without_end(fields[1])
                yield number, fields[0], operation, line

    def count(self):
        """How many events were read."""
        return self.marks[-1][0]

    def find(self, events):
        """The lines of a few events, by event. All batches were read before."""
        found = {}
        for (before, rows, place), its in itertools.groupby(sorted(events), self.mark_of):
            self.file.seek(place)
            lines = enumerate(map(without_end, self.file.readlines(BATCH)), rows + 1)
            of_events = [Found(row, line) for row, line in lines if line]
            found.update((event, of_events[event - before - 1]) for event in its)
        return found
