"""The races of a record, by a slow analysis of what its entries are, apart from the converter and from `shb`.

README.md has what each entry means. Memory is looked at byte by byte, each with the block that it is in; an
access's bytes come one after the other. A race is between two accesses of which neither need come first: the
order is that of each thread, of what is passed on by locks, atomics, semaphores, forks and joins, and from
the last write of a byte to whoever reads it.
"""

import collections
import typing

GRAIN = 16  # what an allocation covers begins and ends at multiples of it
MOST_FREED = 1024
RELAXED, RELEASE = 0, 3  # memory orders; from RELEASE on each releases, and all others than these two acquire
# read the first byte
USES = {"LOCK", "UNLOCK", "READ_LOCK", "WRITE_LOCK", "RW_UNLOCK", "POST", "WAIT", "ARRIVE", "USE"}


class Step(typing.NamedTuple):
    """An entry of a record. `thread` is the number of a thread, which may be used again."""

    thread: int
    operation: str
    address: int
    place: int
    size: int = 0


class Block(typing.NamedTuple):
    number: int
    at: int
    size: int

    def covers(self, at):
        return self.at // GRAIN <= at // GRAIN <= (self.at + self.size - 1) // GRAIN


def take(clock, other):
    for thread, time in other.items():
        clock[thread] = max(clock.get(thread, 0), time)


class Atomic:
    """What the value of an atomic gives: clocks, each with the thread that gave it."""

    def __init__(self):
        self.gifts = []


class Barrier:
    """`rounds` are the clocks of its rounds, and `round_of` has those that threads are in. A barrier with
    more users than its count, or with several counts, has one round."""

    def __init__(self):
        self.counts, self.users, self.arrivals, self.round_of = set(), set(), 0, {}
        self.rounds = collections.defaultdict(dict)

    def arrive(self, t):
        has_rounds = len(self.counts) == 1 and len(self.users) <= min(self.counts)
        self.round_of[t] = self.arrivals // min(self.counts) if has_rounds else 0
        self.arrivals += 1


class Analysis:
    """`races` has for each two places, that of the first access first, the bytes that race there, as (number
    of the block, address)."""

    def __init__(self, steps):
        self.threads, self.count = {0: 0}, 1  # by number: the thread that has it now
        self.clocks = collections.defaultdict(dict)
        self.blocks, self.accesses, self.writes, self.atomic_writes = (
            [], collections.defaultdict(dict), {}, collections.defaultdict(dict))
        self.locks, self.atomics, self.posts = (collections.defaultdict(dict),
                                                collections.defaultdict(Atomic),
                                                collections.defaultdict(list))
        self.writers, self.writer_gave, self.readers_gave = (
            {}, collections.defaultdict(dict), collections.defaultdict(dict))
        self.noted, self.fenced = collections.defaultdict(list), set()
        self.races = collections.defaultdict(set)
        self.barriers = collections.defaultdict(Barrier)
        self.foreign = set()  # locks that another thread once releases than took them
        self.meet_barriers(steps)
        self.meet_locks(steps)
        for step in steps:
            self.take_step(step, self.threads[step.thread])

    def take_step(self, step, t):
        name = step.operation.lower()
        if step.operation in USES:
            self.access(t, step, "r", 1)
        getattr(self, name, lambda *_: None)(step, t)

    # ---- memory ----
    def block_at(self, at):
        return next((block for block in reversed(self.blocks) if block.covers(at)), Block(0, 0, 0))

    def access(self, t, step, kind, size):
        first, behind = step.address, step.address + size
        while first < behind:  # the bytes of a grain are in one block
            block, end = self.block_at(first).number, min(behind, (first // GRAIN + 1) * GRAIN)
            for at in range(first, end):
                self.access_byte(t, step.place, kind, (block, at))
            first = end

    def access_byte(self, t, place, kind, byte):
        """A read sees the last plain write; a plain one also the last atomic write of each thread. An atomic
        access races with plain writes, and an atomic write with plain reads. `kind` is r, w, or of an atomic
        access l (load) or a (store or update). Of accesses of one thread, kind and place the last is kept:
        who comes after it comes after them all."""
        clock = self.clocks[t]
        self.look(t, place, byte, {"r": "w", "w": "rwla", "l": "w", "a": "w"}[kind])
        if kind != "w":
            take(clock, self.writes.get(byte, {}))
        if kind == "a":
            self.look(t, place, byte, "r")
        for writer, gave in reversed(self.atomic_writes[byte].items()) if kind == "r" else ():
            if writer != t:
                self.look(t, place, byte, "a", writer)
                take(clock, gave)
        clock[t] = clock.get(t, 0) + 1
        self.accesses[byte][t, kind, place] = clock[t]
        if kind == "w":
            self.writes[byte] = dict(clock)
        if kind == "a":
            self.atomic_writes[byte][t] = dict(clock)

    def look(self, t, place, byte, kinds, writer=None):
        clock = self.clocks[t]
        for (thread, kind, other), time in self.accesses[byte].items():
            if kind in kinds and thread != t and writer in (None, thread) and clock.get(thread, 0) < time:
                self.races[other, place].add(byte)

    def read(self, step, t):
        self.access(t, step, "r", step.size)

    def write(self, step, t):
        self.access(t, step, "w", step.size)

    def alloc(self, step, t):
        self.blocks.append(Block(len(self.blocks) + 1, step.address, step.size))

    def free(self, step, t):
        block = self.block_at(step.address)
        if block.number and block.at == step.address:
            self.access(t, step, "w", min(block.size, MOST_FREED))

    def destroy(self, step, t):
        self.access(t, step, "w", 1)

    # ---- threads ----
    def fork(self, step, t):
        self.threads[step.address], child = self.count, self.count
        self.count += 1
        take(self.clocks[child], self.clocks[t])

    def join(self, step, t):
        take(self.clocks[t], self.clocks[self.threads[step.address]])

    # ---- locks and semaphores ----
    def meet_locks(self, steps):
        holders = {}
        for step in steps:
            if step.operation == "LOCK":
                holders[step.address] = step.thread
            elif step.operation == "UNLOCK" and holders[step.address] != step.thread:
                self.foreign.add(step.address)

    def lock(self, step, t):
        take(self.clocks[t], self.locks[step.address])
        if step.address in self.foreign:
            take(self.locks[step.address], self.clocks[t])

    def unlock(self, step, t):
        if step.address in self.foreign:
            take(self.clocks[t], self.locks[step.address])
        take(self.locks[step.address], self.clocks[t])

    def read_lock(self, step, t):
        take(self.clocks[t], self.writer_gave[step.address])

    def write_lock(self, step, t):
        self.writers[step.address] = t
        take(self.clocks[t], self.writer_gave[step.address])
        take(self.clocks[t], self.readers_gave.pop(step.address, {}))

    def rw_unlock(self, step, t):
        if self.writers.get(step.address) == t:
            del self.writers[step.address]
            take(self.writer_gave[step.address], self.clocks[t])
        else:
            take(self.readers_gave[step.address], self.clocks[t])

    def post(self, step, t):
        self.posts[step.address].append(dict(self.clocks[t]))

    def wait(self, step, t):
        for gave in self.posts[step.address]:
            take(self.clocks[t], gave)

    # ---- barriers: who uses them is known before ----
    def meet_barriers(self, steps):
        begun = collections.Counter()  # by number: how many threads had it
        for step in steps:
            if step.operation == "FORK":
                begun[step.address] += 1
            elif step.operation == "BARRIER_INIT":
                self.barriers[step.address].counts.add(step.size)
            elif step.operation == "ARRIVE":
                self.barriers[step.address].users.add((step.thread, begun[step.thread]))

    def arrive(self, step, t):
        self.barriers[step.address].arrive(t)
        self.depart(step, t)

    def depart(self, step, t):
        barrier = self.barriers[step.address]
        clock = barrier.rounds[barrier.round_of[t]]
        take(self.clocks[t], clock)
        take(clock, self.clocks[t])

    # ---- atomics ----
    def takes_value(self, step, t):
        gifts = self.atomics[step.address].gifts
        if step.size >> 5 & 7 not in (RELAXED, RELEASE):
            for _, gave in gifts:
                take(self.clocks[t], gave)
        else:
            self.noted[t] += [gave for _, gave in gifts]

    def gives_value(self, step, t):
        """A store begins a release sequence, or goes on with that of its own thread."""
        atomic = self.atomics[step.address]
        releases = step.size >> 5 & 7 >= RELEASE or t in self.fenced
        if step.operation == "ATOMIC_STORE":
            atomic.gifts = [] if releases else [gift for gift in atomic.gifts if gift[0] == t]
        if releases:
            atomic.gifts.append((t, dict(self.clocks[t])))

    def atomic_load(self, step, t):
        self.takes_value(step, t)
        self.access(t, step, "l", step.size & 31)

    def atomic_store(self, step, t):
        self.access(t, step, "a", step.size & 31)
        self.gives_value(step, t)

    def atomic_update(self, step, t):
        self.takes_value(step, t)
        self.access(t, step, "a", step.size & 31)
        self.gives_value(step, t)

    def fence(self, step, t):
        if step.size not in (RELAXED, RELEASE):
            for gave in self.noted.pop(t, ()):
                take(self.clocks[t], gave)
        if step.size >= RELEASE:
            self.fenced.add(t)
