"""Call stacks, as `shb-std --stacks` writes them; the form is in recorder/converter/stacks.c."""

import array
import bisect
import collections
import functools
import os
import re

from shb_common.files import open_regular
from shb_common.locations import bare, line_of, parts_of
from shb_common.words import printable

BEGIN = rb"shb-stacks 1 ([0-9]{20})\n"
BEGIN_BYTES = 34
NUMBER_BYTES = 4    # of an event's stack
BLOCK = rb"(?s).*#([0-9]{1,18})(?:\+[0-9]+)?"  # a variable in a block, as the recorder names it
ORDERS, USES = b"relaxed acquire release both".split(), b"load store exchange update fence".split()
NUMBERED = b"stack", b"block", b"free"
NAMED = b"frame system-frame thread source line local use again type".split()
OTHER = "doesn't have the stacks of this trace"
MOST_DEEP = 200  # calls of a stack that are looked at
MOST_FRAMES = 2_000  # of these calls, of which inlined code has several each
MOST_LINE = 1 << 20  # bytes of a line
MOST_DIGITS = 18    # of a number
SUM_DIGITS = 16  # of a line's text

# A function and the place in it. The location is empty if it called code without hooks, which called on.
Frame = collections.namedtuple("Frame", "function location in_system")


# Before which event which thread allocated a block, and where the one that had been there was freed.
Again = collections.namedtuple("Again", "event thread freed")


class BadStacks(Exception):
    """The words say what is wrong with a file of stacks."""


class AtomicUse(collections.namedtuple("AtomicUse", "event name thread location kind order is_again")):
    """A use of an atomic before an event: `kind` is load, store, exchange (that changed the value), update
    or, without a name, fence; `order` relaxed, acquire, release or both; `is_again` says that it represents
    omitted ones before it too."""

    def gives(self):
        """Whether it releases: what comes before it is ordered before an acquire of its value."""
        return self.order in (b"release", b"both")

    def takes(self):
        return self.order in (b"acquire", b"both")

    def words(self):
        """What it does, as parts."""
        does = {b"load": "reads", b"store": "writes", b"exchange": "exchanges",
                b"update": "updates"}[self.kind]
        order = self.order.decode().replace("both", "acquire and release")
        return [f"{does} it", " relaxed" if order == "relaxed" else f" with {order}"]

    def said(self):
        """The same for programs."""
        return {"event": self.event, "thread": printable(self.thread), "location": printable(self.location),
                "kind": self.kind.decode(), "order": self.order.decode()}


class Stacks:
    """What a file of stacks has, with the stacks of so many events; nothing without a path."""

    def __init__(self, path=None, events=0):
        # by location those that it lies in, without parameters and arguments of templates
        self.functions = {}
        self.files = set()  # those of locations: files of source, and modules with code that has no lines
        # by the name in a location: the file's path; by location: a sum of its line's text
        self.sources, self.sums = {}, {}
        # by variable on a stack: events, each with the name of the local that it is from there on
        self.locals = {}
        self.numbers, self.frames, self.calls, self.threads, self.blocks = (), [None], {}, {}, {}
        self.uses = []  # of atomics, as they happened
        self.others = set()  # variables of another type than an integer, bool, enum or pointer
        self.again = {}  # by the number of a block that came again, as `Again`
        self.free_starts, self.free_ends = array.array("Q"), array.array("Q")
        if path:
            with open_regular(path) as file:
                count = events_in(file)
                if count < events:
                    raise BadStacks(OTHER)
                self.numbers = array.array("I")  # of 4 bytes, as an x86-64 has them
                self.numbers.fromfile(file, events)
                self.read(file, count)

    def read(self, file, count):
        """Takes the lines of an open file with so many events."""
        file.seek(BEGIN_BYTES + NUMBER_BYTES * count)
        for number, line in enumerate(iter(lambda: file.readline(MOST_LINE), b""), 2):
            kind, _, rest = line.rstrip(b"\n").partition(b" ")
            try:
                if not line.endswith(b"\n"):
                    raise ValueError
                if kind in NUMBERED:
                    self.take_numbers(kind, *map(whole, rest.split()))
                elif kind in NAMED:
                    self.take(kind, *rest.split(b"\t"))
            except (ValueError, TypeError, IndexError):
                raise BadStacks(f"is damaged in line {number}: `{printable(line[:80].rstrip())}`") from None
        for names in self.locals.values():
            names.sort(key=lambda it: it[0])  # of several at one event the last one holds

    def take_numbers(self, kind, first, second, *frames):
        """Takes a stack, its caller's and its frames; a block and its stack; or the first and last event of a
        free."""
        if not all(frames) or frames and kind != b"stack":
            raise ValueError
        if kind == b"stack":
            self.calls[first] = second, tuple(self.frames[frame] for frame in frames)
        elif kind == b"block":
            self.blocks[first] = second
        else:
            self.free_starts.append(first)
            self.free_ends.append(second)

    def take(self, kind, first, second, *more):
        """Takes a line of another kind, whose fields have tabs between them."""
        if kind == b"local":
            [name] = more
            self.locals.setdefault(second, []).append((whole(first), name))
        elif kind == b"use":
            self.uses.append(AtomicUse(whole(first), second, *more[:2], *use_of(*more[2:])))
        elif kind == b"again":
            self.again[whole(first)] = Again(whole(second), *more)
        elif more:
            raise ValueError
        elif kind == b"type":
            self.others.add(first)
        elif kind == b"thread":
            self.threads[first] = whole(second)
        elif kind == b"source":
            self.sources[first] = second
        elif kind == b"line":
            self.sums[first] = sum_of(second)
        else:
            self.frames.append(Frame(first, second, kind == b"system-frame"))
            if first and line_of(second):
                self.functions.setdefault(second, set()).add(bare(first))
            self.files.add(parts_of(second)[0])

    def local_of(self, variable, event):
        """The local that a variable on a stack is at an event, or the member that one in a block is."""
        names = self.locals.get(variable, ())
        number = bisect.bisect(names, (event + 1,))
        return names[number - 1][1] if number else b""

    def stack(self, number):
        """The frames of a stack, the innermost first."""
        found = []
        for _ in range(MOST_DEEP):
            if number not in self.calls or len(found) > MOST_FRAMES:
                break
            number, frames = self.calls[number]
            found.extend(frames)
        return tuple(found[:MOST_FRAMES])

    @functools.cached_property
    def lasting_locals(self):
        """By variable, lock or atomic on a stack: the local that it is, if that is always the same."""
        names = {variable: {name for _, name in found} for variable, found in self.locals.items()}
        return {variable: found.pop() for variable, found in names.items() if len(found) == 1
                and b"" not in found}

    @functools.cached_property
    def atomics(self):
        """The names of atomics that have a use."""
        return {use.name for use in self.uses}

    @functools.cached_property
    def exchanges(self):
        """The names of atomics that are exchanged, each with where."""
        return {(use.name, use.location) for use in self.uses if use.kind == b"exchange"}

    def of_event(self, event):
        return self.stack(self.numbers[event - 1]) if 0 < event <= len(self.numbers) else ()

    def free_of(self, event):
        """The number of the free that an event is of, or None."""
        number = bisect.bisect(self.free_starts, event) - 1
        return number if number >= 0 and event <= self.free_ends[number] else None

    def of_thread(self, name):
        """Where a thread was created."""
        return self.stack(self.threads.get(name, 0))

    def of_variable(self, name):
        """Where the block of a variable was allocated."""
        return self.stack(self.blocks.get(block_of(name), 0))


def block_of(name):
    """The number of the block that a variable is in, or None."""
    found = re.fullmatch(BLOCK, name) if b"#" in name else None
    return found and int(found[1])


def events_in(file):
    """The number of events of an open file of stacks; the next read begins after its first line."""
    begin = re.fullmatch(BEGIN, file.read(BEGIN_BYTES))
    if not begin or BEGIN_BYTES + NUMBER_BYTES * int(begin[1]) > os.fstat(file.fileno()).st_size:
        raise BadStacks(OTHER)
    return int(begin[1])


def whole(text):
    if not text.isdigit() or len(text) > MOST_DIGITS:
        raise ValueError
    return int(text)


def sum_of(text):
    if len(text) != SUM_DIGITS or text.strip(b"0123456789abcdef"):
        raise ValueError
    return text


def use_of(text):
    """How an atomic is used, with which order, and whether it is used again."""
    use, order, *again = text.split(b" ")
    if order not in ORDERS or use not in USES or again not in ([], [b"again"]):
        raise ValueError
    return use, order, bool(again)
