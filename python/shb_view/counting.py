"""The first pass over a trace: how often each line accesses the racing variables, in which threads and under
which locks; and for the accesses that may be shown, the events right before them."""

import array
import bisect
import collections
import re

from shb_common.variables import without_end
from shb_common.words import Refused
from shb_view.facts import READS, Used, renamed, used_in
from shb_view.groups import name_parts
from shb_view.held import GIVEN, Held, called, operations
from shb_view.trace import CHANGED, OPENS

BEFORE = 6  # events of a thread right before its access
MOST_KINDS = 200_000  # accesses that are told apart: by group, line, thread, word and locks held

# What is known of an access: the events of its thread right before it, and the newest locks held, each with
# its acquire.
Noted = collections.namedtuple("Noted", "before locks")

# The event of a thread in which it creates or joins another one.
Step = collections.namedtuple("Step", "thread event line")

# What a thread gave at once: the first and last event of its releases, of what, where, and whether it is no
# lock.
Release = collections.namedtuple("Release", "begin end thread lock location is_post")

# An event that stands for repeats between the last one alike (`since`, or 0) and itself.
Repeated = collections.namedtuple("Repeated", "thread word since event")


class Counting:
    def __init__(self, groups, wanted, gathered, uses):
        """`groups` has a number for each racing variable; `wanted` are the accesses to be noted, `gathered`
        says what an access is; `uses` has those of the whole run if the trace is a part of it."""
        self.uses, self.is_of_run = uses, uses.count is not None
        self.groups, self.wanted, self.gathered = groups, wanted, gathered
        self.racing = gathered.accesses
        # By group, how many accesses there are of each kind: its location (None where lines aren't told apart
        # any more), thread, word of `words.KINDS`, the names of the locks held (None where they aren't
        # counted), and the variable (not of a free).
        self.counts = collections.defaultdict(dict)
        self.used = collections.defaultdict(Used)  # by group, of the trace or the run
        self.kinds = self.found = 0
        self.noted = {}  # by event
        self.held, self.lock_of = collections.defaultdict(Held), operations(gathered.locks)  # by thread
        # by thread: its last events
        self.recent = collections.defaultdict(lambda: collections.deque(maxlen=BEFORE))
        self.before = {}  # by group and thread: its last access that was counted
        self.writes = {}  # by variable: its last write
        self.sources = {}  # by a racing read: the write that it saw, or None
        # By variable and location: the stacks of the accesses, each with whether no lock is held.
        self.callers = collections.defaultdict(collections.Counter)
        self.callers_threads = collections.defaultdict(set)  # by stack: threads with an access there
        self.seen = set()  # where races write and then read that, as pairs
        self.last, self.joined = {}, {}  # by thread its last event of this part; by a join its thread's
        self.ended = collections.defaultdict(lambda: array.array("Q"))  # by thread: its last ones of parts
        self.lockers = collections.defaultdict(set)  # by lock: the threads that use it
        self.begins, self.ends = {}, {}  # by thread: where it is created and joined, as `Step`
        self.alike = {}  # by kind of access its last event
        self.again = collections.defaultdict(list)  # by variable: its events that stand for repeats
        self.releases = {}  # by thread: its last one in this part
        # by word, variable and location: by a release the events of the access after it; None if two are
        self.follows = {}

    def read(self, trace, events):
        """Takes all events of the trace; there have to be so many."""
        self.take_all(trace)
        if self.is_of_run:
            self.take_uses()
        self.used.update((group, used_in(counts)) for group, counts in self.counts.items())
        if trace.count() != events or self.found != len(self.racing):
            raise Refused(CHANGED)
        self.see()

    def take_all(self, trace):
        groups = {word + name + b")": group for name, group in self.groups.items() for word in (b"r(", b"w(")}
        held, recent, last, lock_of = self.held, self.recent, self.last, self.lock_of
        parts, near = trace.parts, trace.parts_of(self.wanted)  # those with an access that is noted
        is_near = 1 in near
        for number, thread, operation, line in trace.events("counting accesses"):
            if number in parts:
                is_near = number in near
                self.begin_part()
            if operation[1] != OPENS:
                lock = lock_of(operation)
                if lock:
                    if is_near:
                        held[thread].take(*lock, number)
                    self.lockers[lock[1]].add(thread)
                word, _, name = operation[:-1].partition(b"(")
                if word == b"rel":
                    self.release(number, thread, name, without_end(line))
                elif word == b"fork":
                    self.begins[name] = Step(thread, number, line)
                elif word == b"join" and name in last:
                    self.joined[number] = last[name]
                    self.ends[name] = Step(thread, number, line)
            elif operation in groups:
                self.access(number, thread, operation, without_end(line), groups[operation])
            if is_near:
                recent[thread].append(number)
            last[thread] = number

    def begin_part(self):
        """What came right before isn't known."""
        for thread, event in self.last.items():
            self.ended[thread].append(event)
        for of_part in (self.held, self.recent, self.last, self.before, self.writes, self.releases):
            of_part.clear()

    def release(self, number, thread, lock, line):
        """Takes a release, if its thread gives by it: not where it takes, or leaves a barrier. One of an
        atomic, or of a lock with readers, has a lock for each other thread."""
        own = re.fullmatch(GIVEN, lock) if b"@" in lock else None
        base, sign, to = own.groups() if own else (lock.partition(b"@")[0], None, None)
        is_barrier = own and base not in self.gathered.stacks.atomics
        takes = (sign == b">") == (to == thread) if sign else is_barrier
        if not takes:
            last, what = self.releases.get(thread), (thread, base, line[len(thread) + len(lock) + 7:])
            is_more = last and number - last.end <= 1 + bool(own) and last[2:5] == what
            begin = last.begin if is_more else number - bool(own)
            self.releases[thread] = Release(begin, number, *what, b"@" in lock)

    def last_before(self, part, thread):
        """The last event of a thread before a part, or 0."""
        ended = self.ended[thread]
        at = bisect.bisect_left(ended, part)
        return ended[at - 1] if at else 0

    def access(self, number, thread, operation, line, group):
        word, variable, location = operation[:1], operation[2:-1], line[len(thread) + len(operation) + 2:]
        if number in self.racing:
            self.found += 1
            if self.racing[number] != (thread, word, variable, location):
                raise Refused(CHANGED)
            if word == b"r":
                self.sources[number] = self.writes.get(variable)
        if word == b"w":
            self.writes[variable] = number
        if number in self.uses.repeated:
            since = self.alike.get((thread, operation, location), 0)
            self.again[variable].append(Repeated(thread, word, since, number))
        self.alike[thread, operation, location] = number
        gathered, stacks = self.gathered, self.gathered.stacks
        if stacks.numbers:
            self.callers_threads[stacks.numbers[number - 1]].add(thread)
        release, its = self.releases.get(thread), self.follows.setdefault((word, variable, location), {})
        if release and its is not None:
            before = its.get(release, ())  # the same access again, as it may be recorded twice
            is_one = not before or self.last[thread] == before[-1] and number not in self.uses.repeated
            its[release] = *before, number
            self.follows[word, variable, location] = its if is_one else None
        if self.is_of_run and number not in self.wanted or not gathered.is_in_life(number, variable):
            return
        held = self.held[thread]
        if number in self.wanted:
            self.noted[number] = Noted(tuple(self.recent[thread]), held.newest()[0])
        if not self.is_of_run:
            word, of = gathered.of(number, word, variable), gathered.in_trace(variable)
            if stacks.numbers:
                self.callers[of, location][stacks.numbers[number - 1], not held.locks] += 1
            free, of = (stacks.free_of(number), b"") if word == b"f" else (None, of)
            self.count(group, number, variable, (location, thread, word, held.names(), of), free)

    def count(self, group, number, variable, kind, free):
        """Counts an access, but for what is of the same one as the event before it: a free writes each
        variable of the block, and a plain read of an atomic reads what each thread wrote. An atomic write
        reads what plain accesses write. `free` is the number of the free that it is of, or None."""
        counts, (_, thread, word, *_) = self.counts[group], kind
        last, last_variable, last_kind, last_free = self.before.get((group, thread), [None] * 4)
        self.before[group, thread] = number, variable, kind, free
        is_next = last is not None and self.recent[thread][-1] == last
        if word == b"f" and free == last_free:
            return
        if (is_next and word == b"r" and kind == last_kind and variable in self.gathered.atomics
            and variable != last_variable):
            return
        if is_next and word == b"a" and last_kind == (*kind[:2], b"r", *kind[3:]):
            counts[last_kind] -= 1
        if kind not in counts and self.kinds == MOST_KINDS:
            kind = (None, b"", word, None, b"")
        elif kind not in counts:
            self.kinds += 1
        counts[kind] = counts.get(kind, 0) + 1

    def see(self):
        """Notes the races that read what they wrote, here or, as the uses say, elsewhere in the run."""
        for name in self.groups:
            for race in self.gathered.races([name]):
                (first, second), (one, other) = race.events, race.accesses
                lines = race.place if one.word == b"w" else race.place[::-1]
                if (self.sources.get(second) == first
                    or b"r" in (one.word, other.word) and (name, *lines) in self.uses.sights):
                    self.seen.add(lines)

    def take_uses(self):
        """Takes the uses of the whole run. A free is one of all variables of its block: those of one
        of them count."""
        gathered, freed = self.gathered, {}
        loads, reads = ({(use.variable, use.location) for use in self.uses.uses if use.word == word}
                        for word in READS)
        gathered.loads = loads - reads
        groups = {gathered.in_trace(variable): group for variable, group in self.groups.items()}
        for use in self.uses.uses:
            word, variable, local, location, *_ = use
            group = groups.get(variable)
            if (group is None
                or gathered.locals.get(variable, local) != local and variable.startswith(b"stack.")):
                continue
            for sums, is_bare in ((use.bare, True), (use.held, False), (use.many, False)):
                for stack, count in sums.items():
                    self.callers[variable, location][stack, is_bare] += count
            use = use._replace(under=renamed(use.under, gathered.locks),
                               reading=renamed(use.reading, gathered.locks))
            if word != b"f":
                self.used[group].add(use)
            elif freed.setdefault((group, location, name_parts(variable)["block"]), variable) == variable:
                self.used[group].add(use._replace(variable=b""))
