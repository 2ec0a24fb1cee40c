"""What `shb-std --uses` writes beside a page's trace: how often each racing variable was used in the run, and
which events of that trace those of the races are. The form is in recorder/converter/page.c."""

import bisect
import collections

from shb_common.files import open_regular
from shb_common.stacks import whole
from shb_common.words import printable

BEGIN = b"shb-uses 3\n"
OTHER = "is of another version of shb: its first line isn't `shb-uses 3`"
WORDS = b"r w l a f R W".split()
SUMS = "by under reading bare held many"  # by thread, by lock, and by the number of a stack
NUMBERED = "bare", "held", "many"


class Use(collections.namedtuple("Use", f"word variable local location is_wide {SUMS}")):
    """The accesses of a variable at a location in one way: `word` is r, w, l (loaded atomically), a (written
    atomically) or f (freed); `local` the local that a variable on a stack was then, or nothing. `is_wide`:
    whether they are of more than eight bytes, or None if that isn't known. Then how many there are: by each
    thread, under each lock, under it for reading, and of each stack without a lock, with one, or with too
    many to be counted."""

    __slots__ = ()

    def count(self):
        return sum(self.by.values())


class BadUses(Exception):
    """The words say what is wrong with a file of uses."""


class Uses:
    """Nothing without a path. `events` has for an event of the run that of the page's trace, and `in_run` the
    other way; `count` is how many that trace has. `parts` are those of its events before which some of the
    run may be missing; `repeated` are those that stand for repeats before them, `once` those of these behind
    the first release of their thread at its place; `sights` are a variable, and where it was written and then
    read by another thread, in the run. `are_sets_apart`: whether the recorder told all sets of held locks
    apart."""

    def __init__(self, path=None):
        self.uses, self.events, self.in_run, self.parts, self.count = [], {}, {}, [], None
        self.repeated, self.once, self.sights = set(), set(), set()
        self.are_sets_apart = True
        if path:
            self.read(path)

    def read(self, path):
        with open_regular(path) as file:
            if file.readline(len(BEGIN)) != BEGIN:
                raise BadUses(OTHER)
            for number, line in enumerate(file, 2):
                try:
                    self.take(*line[:-1].split(b"\t") if line.endswith(b"\n") else ())
                except (ValueError, LookupError, TypeError):
                    raise BadUses(f"is damaged in line {number}: `{printable(line[:80].rstrip())}`") from None
        if self.count is None:
            raise BadUses("is cut off")

    def take(self, kind, *fields):
        if kind == b"use":
            word, variable, local, location, *sums = fields
            counts = sums[1::3]
            if word not in WORDS or len(sums) % 3 or counts and not b"".join(counts).isdigit():
                raise ValueError
            its = {kind: {} for kind in SUMS.split()}
            for kind, count, of in zip(sums[::3], map(int, counts), sums[2::3]):
                kind = kind.decode()
                its[kind][int(of) if kind in NUMBERED else of] = count
            self.uses.append(Use(word.lower(), variable, local, location, word.isupper(), **its))
        elif kind == b"event":
            in_page, in_run = map(whole, fields)
            self.events[in_run], self.in_run[in_page] = in_page, in_run
        elif kind == b"repeated":
            self.repeated.add(whole(fields[0]))
            self.once.update(map(whole, fields[:1] * (fields[1:] == (b"once",))))
        elif kind == b"seen":
            self.sights.add(fields)
        elif kind == b"part":
            self.parts.extend(map(whole, fields))
        elif (kind, *fields) == (b"sets",):
            self.are_sets_apart = False
        elif kind == b"events":
            [self.count] = map(whole, fields)
        else:
            raise ValueError

    def pair(self, first, second):
        """Two events of the run in the page's trace, or None where it hasn't both."""
        found = self.events.get(first), self.events.get(second)
        return found if all(found) else None

    def are_apart(self, first, second):
        """Whether the page's trace lacks something between two events of it."""
        return bisect.bisect(self.parts, first) != bisect.bisect(self.parts, second)
