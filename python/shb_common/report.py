"""A report of races, read line by line, with schedules or without. docs/FORMATS.md has the form.

A report is accepted only whole: its numbers count up, its places are those of its races, and it
ends with `end`.
"""

import collections
import functools
import re

from shb_common.limits import LINE_ROOM, MOST_LINE
from shb_common.words import printable

NUMBER = rb"(0|[1-9][0-9]{0,19})"
ACCESS = rb"[^\n|]+\|[rw]\([^\n|]+\)(?:\|[^\n]*)?"
SCHEDULE = b"schedule %b:" % NUMBER
MOST_EVENTS = 1_000     # of a schedule that is given as a list
LONGEST = 60        # columns of a line that a refusal shows
Counts = collections.namedtuple("Counts", "events threads locks variables")  # what a trace has

# The fields of an event's line. `name` is in the parentheses; nothing for a mark.
Access = collections.namedtuple("Access", "thread word name location")

# How many events a schedule has, and which; None of more than MOST_EVENTS.
Schedule = collections.namedtuple("Schedule", "length events")


class BadReport(Exception):
    """The words say what is wrong with a report."""


class Race(collections.namedtuple("Race", "number events accesses schedule")):
    """A race of a report: its two events, the earlier first, and their accesses. `schedule` is where its
    schedule begins in the file, or None."""

    __slots__ = ()

    @property
    def place(self):
        one, other = self.accesses
        return one.location, other.location

    def sides(self):
        """Each event with its access."""
        return zip(self.events, self.accesses)

    @property
    def threads(self):
        one, other = self.accesses
        return one.thread, other.thread


@functools.lru_cache(maxsize=10_000)  # most accesses of a report come again
def event_of(line):
    """The event of a line without its end."""
    thread, operation, *location = line.split(b"|", 2)
    word, _, name = operation.partition(b"(")
    return Access(thread, word, b"" if word in (b"begin", b"end") else name[:-1], b"".join(location))


class Form:
    """The form of some lines that follow each other: of each a pattern, and how it is told."""

    def __init__(self, *lines):
        self.lines, self.further = lines, range(len(lines) - 1)

    @functools.cached_property  # a report without races does without most of them
    def match(self):
        return re.compile(b"".join(pattern for pattern, _ in self.lines)).fullmatch


HEAD = Form((rb"shb-report 2\n", "shb-report 2"),
            (rb"events N threads N locks N variables N\n".replace(b"N", NUMBER),
             "events E threads T locks L variables V"),
            (rb"races %b\n" % NUMBER, "races R"), (rb"places %b\n" % NUMBER, "places P"))
PLACE = Form((rb"place N: N\n".replace(b"N", NUMBER), "place {}: C"),
             (rb"at ([^\n]{0,%d})\n" % MOST_LINE, "at LOCATION"),
             (rb"and ([^\n]{0,%d})\n" % MOST_LINE, "and LOCATION"))
RACE = Form((rb"race N: N N\n".replace(b"N", NUMBER), "race {}: I J"),
            (rb"first (%b)\n" % ACCESS, "first ACCESS"), (rb"second (%b)\n" % ACCESS, "second ACCESS"))
END = Form((rb"end\n", "end"))


class Lines:
    """The lines of a report, one after the other, from where the file stands."""

    def __init__(self, file):
        self.file, self.number = file, 0    # of the lines taken
        self.start = 0      # where the next line begins, counted from the report's first byte
        self.line = file.readline(LINE_ROOM)

    def take(self, form, number=None):
        """Goes beyond the next lines, which have this form and this number, if one is given. Returns what the
        form's patterns take out of them. These lines may be very many."""
        lines, read = [self.line], self.file.readline
        for _ in form.further:
            lines.append(read(LINE_ROOM))
        text = b"".join(lines)
        match = form.match(text)
        if not match or number is not None and int(match[1]) != number:
            self.refuse(lines, form, number)
        self.number += len(lines)
        self.start += len(text)
        self.line = read(LINE_ROOM)
        return match.groups()

    def refuse(self, lines, form, number):
        """Says which of these lines is the first one that isn't right."""
        for line, (pattern, told) in zip(lines, form.lines):
            self.number += 1
            match = re.fullmatch(pattern, line)
            if not match or number is not None and line is lines[0] and int(match[1]) != number:
                raise BadReport(f"line {self.number} of the report is {said(line)}; it should be "
                                f"`{told.format(number)}`")

    def end(self):
        """Takes the last line, after which nothing stands."""
        self.take(END)
        if self.line:
            raise BadReport(f"line {self.number + 1} of the report comes after `end`")

    def pass_schedule(self):
        """Where the schedule of the next line begins. It may be long, and isn't kept: `check` judges it."""
        start = self.start
        self.number += 1
        if re.match(SCHEDULE, self.line) is None:
            raise BadReport(f"line {self.number} of the report is {said(self.line)}; it should be `schedule "
                            "N: N EVENTS`")
        while self.line:
            is_ended = self.line.endswith(b"\n")
            self.start += len(self.line)
            self.line = self.file.readline(LINE_ROOM)
            if is_ended:
                return start
        raise BadReport(f"line {self.number} of the report is cut off: a schedule")


def said(line):
    if not line:
        return "missing"
    if line.endswith(b"\n"):
        return f"`{printable(line[:-1], LONGEST)}`"
    return f"{'too long' if len(line) == LINE_ROOM else 'cut off'}: `{printable(line, LONGEST)}`"


class Report:
    """A report in an open file. Its head is read at once: `counts` of the trace, the number of races, and
    `places`, how many races each pair of locations has."""

    def __init__(self, file):
        self.lines = Lines(file)
        *counts, self.count, places = map(int, self.lines.take(HEAD))
        self.counts = Counts(*counts)
        # the latter is known when the first race is read
        self.places, self.has_schedules = self.read_places(places), False

    def read_places(self, count):
        found, locations = {}, {}
        for number in range(1, count + 1):
            _, races, first, second = self.lines.take(PLACE, number)
            found[locations.setdefault(first, first), locations.setdefault(second, second)] = int(races)
        return found

    def races(self):
        """The races, one after the other; with the last the rest is read."""
        places, left, are_same = iter(self.places.items()), {}, True
        for number in range(1, self.count + 1):
            race = self.read_race(number)
            place = race.place
            if place not in left:   # the first race of the next one
                following, left[place] = next(places, (None, 0))
                are_same = are_same and following == place
            left[place] -= 1
            if not left[place]:
                del left[place]
            yield race
        self.lines.end()
        if left or not are_same or next(places, None):
            raise BadReport("the places that the report begins with aren't those of its races")

    def read_race(self, number):
        _, first, second, *texts = self.lines.take(RACE, number)
        first, second, (one, other) = int(first), int(second), map(event_of, texts)
        if not 0 < first < second <= self.counts.events:
            raise BadReport(f"race {number} of the report: {first} and {second} aren't two events of the "
                            "trace, the earlier first")
        if one.name != other.name or one.thread == other.thread or b"w" not in (one.word, other.word):
            raise BadReport(f"race {number} of the report: the events {first} and {second} don't conflict")
        if number == 1:
            self.has_schedules = self.lines.line.startswith(b"schedule ")
        schedule = self.lines.pass_schedule() if self.has_schedules else None
        return Race(number, (first, second), (one, other), schedule)


def in_order(file, race, events):
    """Some events in the order of the race's schedule, which `shb check` found good, and that schedule."""
    file.seek(race.schedule)
    line = file.readline().replace(b"\n", b" ")
    places, head = {event: line.rfind(b" %d " % event) for event in events}, re.match(SCHEDULE, line)
    length = int(head[1])
    has_few = length <= MOST_EVENTS
    schedule = Schedule(length, list(map(int, line[head.end():].split())) if has_few else None)
    return sorted(events, key=places.get), schedule
