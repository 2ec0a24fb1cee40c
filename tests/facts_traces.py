"""Made traces for the facts: objects with a lock each, reader locks, atomics that hand something on, plain
uses of atomics, and frees. Each has its file of stacks, as the recorder writes both."""

import collections
import itertools
import random



class Made:
    def __init__(self, pick):
        self.pick, self.lines, self.uses, self.frees = pick, [], [], []
        self.threads = [b"T%d" % k for k in range(pick.randint(2, 4))]
        self.held = {thread: [] for thread in self.threads}     # (lock, is shared)
        self.stores, self.chains = collections.Counter(), {}
        self.style, self.objects = pick.randrange(3), list(range(1, pick.randint(1, 3) + 1))
        self.dead = set()
        self.code = {thread: [] for thread in self.threads}
        # how often a line uses a field, a global variable, an atomic in a way, all that is handed on,
        # and frees
        self.weights = pick.choice(((8, 3, 2, 2, 1, 1, 1, 1, 1), (1, 0, 1, 1, 3, 0, 1, 6, 6),
                                    (1, 0, 1, 1, 3, 0, 1, 6, 6), (8, 0, 0, 0, 0, 0, 1, 0, 0),
                                    (2, 0, 1, 1, 2, 3, 0, 1, 1), (4, 0, 0, 0, 3, 0, 2, 2, 2)))
        self.guards = pick.choice(((6, 2, 2, 1, 3, 1), (1, 0, 0, 0, 9, 0), (9, 0, 0, 0, 2, 1),
                                   (1, 0, 5, 3, 1, 0)))
        # long traces have few atomics that are handed on in each race
        self.is_short = self.weights[-1] >= 6
        if self.is_short:
            self.threads, self.objects = [b"T0", b"T1", b"T2"][:pick.choice((2, 3))], [1]
            self.held = {thread: [] for thread in self.threads}
            self.code = {thread: [] for thread in self.threads}
        self.stands_in = not self.is_short and pick.random() < 0.1
        self.ways = [self.way(number) for number in range(1, pick.randint(2, 4 if self.is_short else 6) + 1)]

    def field(self, thing, name):
        return (b"o[%d].%c" % (thing, name), b"N.%c of f.c:3#%d" % (name, thing),
                b"f.c:3#%d+%d" % (thing, name))[self.style]

    def lock_of(self, thing):
        return (b"o[%d].l" % thing, b"N.l of f.c:3#%d" % thing, b"f.c:3#%d" % thing)[self.style]

    def way(self, number):
        """A line of code: what it does, and under which lock."""
        pick = self.pick
        kind = pick.choices(("use", "global", "store", "load", "update", "plain", "free", "hand", "taken"),
                            self.weights)[0]
        if self.is_short and number <= 2:
            kind = ("hand", "taken")[number - 1]
        elif self.is_short and number == 3 and pick.random() < 0.6:
            kind = "update"
        guards = (1, 1, 0, 0, 12, 0) if self.is_short else self.guards
        lock = pick.choices(("own", "global", "read", "write", "none", "both"), guards)[0]
        return (b"f.c:%d" % (10 * number), kind, lock, pick.choice((b"r", b"w", b"rw")),
                97 if self.is_short else pick.choice((97, 98)),
                pick.choice((b"relaxed", b"release", b"acquire", b"both")),
                pick.choice((b"B",) * 9 + (b"A",) if self.is_short else (b"A", b"B")),
                pick.random() < 0.15)

    def event(self, thread, word, name, line):
        self.lines.append(b"%s|%s(%s)|%s" % (thread, word, name, line))

    def steps(self, thread):
        """What the thread does at one line, as calls."""
        ways = self.ways
        if self.is_short and self.pick.random() < 0.9:
            has_given = any(giver == self.threads[0] for giver, _ in self.stores)
            number = self.threads.index(thread)
            ways = [ways[number]] if number < 2 and (number or not has_given) else ways[2:] or ways[1:]
        line, kind, lock, words, name, order, atomic, sloppy = self.pick.choice(ways)
        thing = self.pick.choice(self.objects)
        locks = {"own": [(self.lock_of(thing), 0)], "global": [(b"m", 0)], "read": [(b"rw", 1)],
                 "write": [(b"rw", 0)], "none": [],
                 "both": [(b"m", 0), (self.lock_of(thing), 0)]}[lock]
        if sloppy and self.pick.random() < 0.4:
            locks = []
        found = [("take", one) for one in locks]
        if kind in ("use", "global"):
            variable = self.field(thing, name) if kind == "use" else b"g"
            found += [("access", word, variable, line)
                      for word in ((b"r", b"w") if words == b"rw" else (words,))]
        elif kind == "free":
            found.append(("free", thing, line))
        elif kind == "hand":
            found += [("access", b"w", self.field(thing, name), line),
                      ("store", atomic, order if order in (b"relaxed", b"release") else b"relaxed",
                       line + b"1")]
        elif kind == "taken":
            found += [("load", atomic, order if order in (b"relaxed", b"acquire") else b"relaxed",
                       line + b"1"), ("if-handed", atomic, self.field(thing, name), line)]
        elif kind == "plain":
            found.append(("plain", words[:1], line))
        else:
            order = {"store": order if order in (b"relaxed", b"release") else b"release",
                     "load": b"acquire" if order == b"release" else
                     b"relaxed" if order == b"both" else order, "update": order}[kind]
            found.append((kind, atomic, order, line))
        return found + [("drop", one) for one in reversed(locks)]

    def can(self, thread, step):
        if step[0] != "take":
            return True
        lock, shared = step[1]
        return not any(other == lock and not (shared and its) for one in self.threads if one != thread
                       for other, its in self.held[one]) \
            and not any(other == lock for other, _ in self.held[thread])

    def do(self, thread, step):
        kind, *more = step
        if kind in ("take", "drop"):
            lock, shared = more[0]
            name = b"%s@reader.%s" % (lock, thread) if shared else lock
            if kind == "take":
                if shared:
                    self.event(thread, b"acq", lock + b"@1>" + thread, b"f.c:1")
                    self.event(thread, b"rel", lock + b"@1>" + thread, b"f.c:1")
                self.event(thread, b"acq", name, b"f.c:1")
                self.held[thread].append(more[0])
            else:
                self.held[thread].remove(more[0])
                if shared:  # what a later writer gets
                    self.event(thread, b"rel", name, b"f.c:2")
                    self.event(thread, b"acq", lock + b"@1<" + thread, b"f.c:2")
                    self.event(thread, b"rel", lock + b"@1<" + thread, b"f.c:2")
                else:
                    if lock == b"rw":   # what later readers get
                        for other in self.threads:
                            if other != thread:
                                self.event(thread, b"acq", lock + b"@1>" + other, b"f.c:2")
                                self.event(thread, b"rel", lock + b"@1>" + other, b"f.c:2")
                    self.event(thread, b"rel", name, b"f.c:2")
            if kind == "take" and lock == b"rw" and not shared:
                for other in self.threads:
                    if other != thread:
                        self.event(thread, b"acq", b"rw@1<" + other, b"f.c:1")
                        self.event(thread, b"rel", b"rw@1<" + other, b"f.c:1")
        elif kind == "access":
            word, variable, line = more
            # as the recorder has locks that tell an atomic's order, each of two threads and one moment
            if self.stands_in:
                stand_in = b"A@%d>%s" % (len(self.lines), thread)
                self.event(thread, b"acq", stand_in, line)
                self.event(thread, word, variable, line)
                self.event(thread, b"rel", stand_in, line)
            else:
                self.event(thread, word, variable, line)
        elif kind == "if-handed":
            atomic, variable, line = more
            if any(giver != thread for giver, _, _ in self.chains.get(atomic, ())):
                self.event(thread, b"r", variable, line)
        elif kind == "free":
            thing, line = more
            if thing in self.dead or len(self.objects) < 2 and self.pick.random() < 0.5:
                return
            self.dead.add(thing)
            first = len(self.lines) + 1
            for name in (97, 98):
                self.event(thread, b"w", self.field(thing, name), line)
            self.frees.append((first, len(self.lines)))
        elif kind == "plain":
            word, line = more
            if word == b"w":
                self.event(thread, b"w", b"A", line)
            else:
                self.event(thread, b"r", b"A", line)
                for other in self.threads:
                    if other != thread and self.stores[b"A", other]:
                        self.event(thread, b"r", b"A!" + other, line)
        else:
            self.atomic(thread, kind, *more)

    def atomic(self, thread, kind, name, order, line):
        chain = self.chains.get(name, [])       # (thread, gives, number)
        kind = "exchange" if kind == "update" and self.pick.random() < 0.3 else kind
        position = len(self.lines) + 1
        self.uses.append(b"use %d\t%s\t%s\t%s\t%s %s" % (position, name, thread, line, kind.encode(), order))
        if kind != "store" and order in (b"acquire", b"both"):
            for giver, gives, number in chain:
                if gives and giver != thread:
                    self.event(thread, b"acq", b"%s@%d>%s" % (name, number, thread), line)
                    self.event(thread, b"rel", b"%s@%d>%s" % (name, number, thread), line)
        self.event(thread, b"r", name, line)
        if kind == "load":
            return
        if self.pick.random() < 0.7 or name == b"A":
            self.event(thread, b"w", name + b"!" + thread, line)
        self.stores[name, thread] += 1
        number, gives = len(self.uses), order in (b"release", b"both")
        if gives:
            for other in self.threads:
                if other != thread:
                    self.event(thread, b"acq", b"%s@%d>%s" % (name, number, other), line)
                    self.event(thread, b"rel", b"%s@%d>%s" % (name, number, other), line)
        goes_on = [] if gives else [it for it in chain if it[0] == thread]
        kept = goes_on if kind == "store" else chain
        self.chains[name] = [*kept, (thread, gives, number)]

    def alone(self, word, line):
        """What a thread does while it is alone, without locks."""
        if self.pick.random() < 0.4:
            for thing in self.objects:
                self.event(b"T0", word, self.field(thing, 97), line)

    def make(self):
        has_forks = self.pick.random() < 0.5
        if has_forks:
            self.alone(b"w", b"f.c:5")
            self.alone(b"r", b"f.c:6")
            for thread in self.threads[1:]:
                self.event(b"T0", b"fork", thread, b"f.c:7")
        self.run()
        if has_forks and not any(self.held.values()):
            for thread in self.threads[1:]:
                self.event(b"T0", b"join", thread, b"f.c:8")
            self.alone(b"r", b"f.c:9")
        tables = [*self.uses, *(b"free %d %d" % free for free in self.frees)]
        head = b"shb-stacks 1 %020d\n" % len(self.lines) + bytes(4 * len(self.lines))
        return b"\n".join(self.lines) + b"\n", head + b"".join(line + b"\n" for line in tables)

    def run(self):
        length = len(self.lines) + self.pick.randint(4, 16 if self.is_short else 40)
        for _ in range(1_000):
            if len(self.lines) >= length and not any(self.code.values()):
                break
            ready = [thread for thread in self.threads if self.code[thread]
                     and self.can(thread, self.code[thread][0])]
            idle = ([thread for thread in self.threads if not self.code[thread]] if len(self.lines) < length
                    else [])
            if not ready and not idle:
                break
            thread = self.pick.choice(ready + idle)
            if not self.code[thread]:
                self.code[thread] = self.steps(thread)
            elif self.can(thread, self.code[thread][0]):
                self.do(thread, self.code[thread].pop(0))


def whole(lines):
    """A trace, and a file of stacks that has none."""
    return b"\n".join(lines) + b"\n", b"shb-stacks 1 %020d\n" % len(lines) + bytes(4 * len(lines))


def handed_on(second):
    """Between two accesses an atomic is stored, used by a third thread in a way, and loaded."""
    trace = b"T0|w(x)|f.c:1\nT0|r(B)|f.c:2\nT2|r(B)|f.c:3\nT1|r(B)|f.c:4\nT1|r(x)|f.c:5\n"
    uses = (b"use 2\tB\tT0\tf.c:2\tstore relaxed\nuse 3\tB\tT2\tf.c:3\t%s relaxed\nuse 4\tB\tT1\tf.c:4\tload "
            b"relaxed\n" % second)
    return trace, b"shb-stacks 1 %020d\n" % 5 + bytes(20) + uses


def freed_and_handed_on():
    """A block is freed, then an atomic is handed on, and then the block is used."""
    trace = b"T0|w(x)|f.c:1\nT0|r(B)|f.c:2\nT1|r(B)|f.c:3\nT1|r(x)|f.c:4\n"
    uses = b"free 1 1\nuse 2\tB\tT0\tf.c:2\tstore relaxed\nuse 3\tB\tT1\tf.c:3\tload relaxed\n"
    return trace, b"shb-stacks 1 %020d\n" % 4 + bytes(16) + uses


def fenced(store, before):
    """An atomic is stored in an order, and loaded relaxed; a fence with acquire comes before this event."""
    trace = b"T0|w(x)|f.c:1\nT0|r(B)|f.c:2\nT1|r(B)|f.c:4\nT1|r(x)|f.c:5\nT1|r(y)|f.c:6\n"
    uses = (b"use 2\tB\tT0\tf.c:2\tstore %b\nuse 3\tB\tT1\tf.c:4\tload relaxed\nuse %d\t\tT1\tf.c:7\tfence "
            b"acquire\n" % (store, before))
    return trace, b"shb-stacks 1 %020d\n" % 5 + bytes(20) + uses


def handed_itself():
    """An atomic is initialized plainly, then stored, then loaded, then read plainly."""
    trace = b"T0|w(B)|f.c:1\nT0|r(y)|f.c:2\nT1|r(y)|f.c:3\nT1|r(B)|f.c:4\n"
    uses = b"use 2\tB\tT0\tf.c:2\tstore relaxed\nuse 3\tB\tT1\tf.c:3\tload relaxed\n"
    return trace, b"shb-stacks 1 %020d\n" % 4 + bytes(16) + uses


def counted(first, second):
    """An atomic that two threads use between their accesses, each in a way, in a trace with a free."""
    trace = b"T0|w(x)|f.c:1\nT0|r(B)|f.c:2\nT1|r(B)|f.c:2\nT1|r(x)|f.c:3\nT1|w(y)|f.c:4\n"
    uses = b"".join(b"use %d\tB\tT%d\tf.c:2\t%b relaxed\n" % use for use in ((2, 0, first), (3, 1, second)))
    return trace, b"shb-stacks 1 %020d\n" % 5 + bytes(20) + uses + b"free 5 5\n"


def counted_beside(kind):
    """An atomic that one thread updates and the other loads between their accesses, the first of which
    holds a lock."""
    trace = b"T0|acq(m)|f.c:1\nT0|w(x)|f.c:2\nT0|rel(m)|f.c:3\nT0|r(B)|f.c:4\nT1|r(B)|f.c:5\nT1|r(x)|f.c:6\n"
    uses = b"use 4\tB\tT0\tf.c:4\t%b relaxed\nuse 5\tB\tT1\tf.c:5\tload relaxed\n" % kind
    return trace, b"shb-stacks 1 %020d\n" % 6 + bytes(24) + uses


def handed_by_others():
    """Two races of one place, between the accesses of each of which another atomic is handed on."""
    trace = (b"T0|w(x)|f.c:1\nT0|r(B)|f.c:2\nT1|r(B)|f.c:3\nT1|r(x)|f.c:4\n"
             b"T1|acq(l)|f.c:5\nT1|rel(l)|f.c:5\nT0|acq(l)|f.c:6\nT0|rel(l)|f.c:6\n"
             b"T0|w(x)|f.c:1\nT0|r(C)|f.c:7\nT1|r(C)|f.c:8\nT1|r(x)|f.c:4\n")
    uses = b"".join(b"use %d\t%b\tT%d\tf.c:%d\t%b relaxed\n" % use for use in (
        (2, b"B", 0, 2, b"store"), (3, b"B", 1, 3, b"load"), (10, b"C", 0, 7, b"store"),
        (11, b"C", 1, 8, b"load")))
    return trace, b"shb-stacks 1 %020d\n" % 12 + bytes(48) + uses


def both_locks():
    """Two objects with a lock each; one thread uses each under its own lock and, once, under both,
    another one without."""
    lines = []
    for one, other in ((1, 2), (2, 1)):
        for locks in ([one], [one, other]):
            lines += [b"T0|acq(o[%d].l)|f.c:1" % lock for lock in locks] + [b"T0|w(o[%d].a)|f.c:2" % one]
            lines += [b"T0|rel(o[%d].l)|f.c:3" % lock for lock in locks]
    lines += [b"T1|r(o[1].a)|f.c:4", b"T1|r(o[2].a)|f.c:4"]
    return whole(lines)


def crossed_locks():
    """Two objects with a lock each; one thread uses each at three lines under its own lock, another one under
    the other's, and under none."""
    lines = []
    for one, other in ((1, 2), (2, 1)):
        lines += [b"T0|acq(o[%d].l)|f.c:1" % one, *[b"T0|w(o[%d].a)|f.c:%d" % (one, line)
                                                    for line in (7, 8, 9)], b"T0|rel(o[%d].l)|f.c:3" % one]
        lines += [b"T1|acq(o[%d].l)|f.c:4" % other, b"T1|w(o[%d].a)|f.c:5" % one,
                  b"T1|rel(o[%d].l)|f.c:6" % other, b"T1|r(o[%d].a)|f.c:2" % one]
    return whole(lines)


def at_times():
    """A line that writes and one that reads hold a lock at times."""
    lines = []
    for thread, word, line in ((0, b"w", 2), (1, b"r", 4)):
        lines += [b"T%d|%b(x)|f.c:%d" % (thread, word, line), b"T%d|acq(m)|f.c:1" % thread,
                  b"T%d|%b(x)|f.c:%d" % (thread, word, line), b"T%d|rel(m)|f.c:3" % thread]
    return whole(lines)


def freed_after():
    """A line writes under a lock, another one reads without it, and at last the block is freed without it,
    in no race."""
    trace = (b"T0|fork(T1)|f.c:1\nT0|acq(m)|f.c:2\nT0|w(x)|f.c:3\nT0|rel(m)|f.c:4\nT1|r(x)|f.c:5\n"
             b"T0|join(T1)|f.c:6\nT0|w(x)|f.c:7\n")
    return trace, b"shb-stacks 1 %020d\n" % 7 + bytes(28) + b"free 7 7\n"


def nested():
    """A lock that is taken twice."""
    lines = [b"T0|%s|f.c:%d" % (word, line)
             for line, word in enumerate((b"acq(l)", b"acq(l)", b"w(x)", b"rel(l)", b"w(x)", b"rel(l)"), 1)]
    lines.append(b"T1|w(x)|f.c:7")
    return whole(lines)


def two_variables(lock):
    """A line uses two variables without a lock; at three others one of them is used under a lock, and the
    other under some lock, or nowhere."""
    lines = [b"T%d|w(%b)|f.c:1" % (thread, name) for name in (b"x", b"y") for thread in (0, 1)]
    for number, (name, its) in enumerate(((b"x", b"m"), (b"x", b"m"), (b"x", b"m"), (b"y", lock)), 2):
        lines += ([b"T2|acq(%b)|f.c:9" % its, b"T2|w(%b)|f.c:%d" % (name, number), b"T2|rel(%b)|f.c:9" % its]
                  if its else [])
    return whole(lines)


def read_locked():
    """A line that races with none writes under a read lock; another one writes under the write lock, and a
    third reads without it."""
    lines = [b"T0|acq(l@reader.T0)|f.c:1", b"T0|w(x)|f.c:2", b"T0|rel(l@reader.T0)|f.c:3",
             b"T0|fork(T1)|f.c:4", b"T0|acq(l)|f.c:5", b"T0|w(x)|f.c:6",
             b"T0|rel(l)|f.c:7", b"T1|r(x)|f.c:8"]
    return whole(lines)


def made(how_many, seed):
    """What is rare in made traces comes first."""
    yield from map(handed_on, (b"update", b"store", b"load", b"exchange"))
    yield from (fenced(b"relaxed", 4), fenced(b"relaxed", 5), fenced(b"release", 5))
    yield from (freed_and_handed_on(), handed_itself())
    yield from itertools.starmap(counted, itertools.product((b"update", b"exchange"), repeat=2))
    yield from (*map(counted_beside, (b"update", b"exchange")), handed_by_others())
    yield from (both_locks(), crossed_locks(), at_times(), freed_after(), nested())
    yield from map(two_variables, (b"", b"m", b"n"))
    yield read_locked()
    pick = random.Random(seed)
    for _ in range(how_many):
        yield Made(pick).make()
