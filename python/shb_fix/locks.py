"""Locks: volatile accesses, reader locks, waits, and locks whose acquire or release wasn't logged."""

import collections

from shb_fix.events import Event, OWN

RELEASED = ", and its release wasn't logged: it is released right before"
VOLATILE, READER = OWN.encode() + b"volatile.", OWN.encode() + b"reader."


class Uses:
    """What has to be known of a whole trace: for each volatile write the threads that read the variable
    before its thread writes it again, since what a thread wrote earlier comes with its newest write; and for
    each reader-writer lock its readers, in the order in which they come."""

    def __init__(self):
        self.takers, self.readers = collections.defaultdict(list), collections.defaultdict(dict)
        # by variable: the line of each thread's newest write, the oldest first
        self.newest, self.last_reads = collections.defaultdict(dict), {}

    def note(self, event):
        if event.word == b"vw":
            self.newest[event.name].pop(event.thread, None)
            self.newest[event.name][event.thread] = event.line
        elif event.word == b"vr":
            self.note_read(event)
        elif event.word == b"rdlock":
            self.readers[event.name][event.thread] = None

    def note_read(self, event):
        """A read takes each other thread's newest write that its own thread hasn't taken before."""
        before = self.last_reads.get((event.name, event.thread), 0)
        self.last_reads[event.name, event.thread] = event.line
        for writer, line in reversed(self.newest[event.name].items()):
            if line < before:
                break
            if writer != event.thread:
                self.takers[line].append(event.thread)


def with_volatiles(events, uses, repairs):
    """What a thread did before a volatile write comes before what another one does after a later read of the
    variable, and nothing else is ordered: a write acquires and releases a lock of its own for each thread
    that reads it, which does the same at its next read."""
    given, writes = collections.defaultdict(list), 0
    for event in events:
        if event.word == b"vr":
            locks = given.pop((event.name, event.thread), [])
        elif event.word == b"vw":
            readers = sorted(uses.takers.get(event.line, ()))
            locks = [b"%s%s%d.%s" % (event.name, VOLATILE, writes, reader) for reader in readers]
            writes += 1
            for reader, lock in zip(readers, locks):
                given[event.name, reader].append(lock)
        else:
            yield event
            continue
        repairs.translate("volatile access")
        for lock in locks:
            yield event.like(b"acq", lock)
            yield event.like(b"rel", lock)


def with_waits(events, repairs):
    """A wait releases its lock, and acquires it before its thread's next event. A notification orders
    nothing."""
    waiting = {}
    for event in events:
        if event.thread in waiting:
            yield waiting.pop(event.thread)
        if event.word == b"wait":
            repairs.translate("wait")
            waiting[event.thread] = event.like(b"acq", event.name)
            yield event.like(b"rel", event.name)
        elif event.word in (b"notify", b"notifyall"):
            repairs.translate("notification")
        else:
            yield event


def with_reader_locks(events, uses, repairs):
    """Each reader of a reader-writer lock has a lock of its own, and a writer takes all of these too."""
    reading = collections.Counter()
    for event in events:
        held = (event.thread, event.name)
        if event.word == b"rdlock":
            repairs.translate("reader lock")
            reading[held] += 1
            yield event.like(b"acq", event.name + READER + event.thread)
        elif event.word == b"rdunlock" or event.word == b"rel" and reading[held]:
            reading[held] -= 1
            yield event.like(b"rel", event.name + READER + event.thread)
        elif event.word in (b"wrlock", b"acq", b"wrunlock", b"rel"):
            if event.word == b"wrlock":
                repairs.translate("writer lock")
            readers = uses.readers.get(event.name, ())
            names = [event.name, *(event.name + READER + reader for reader in readers)]
            if event.word in (b"wrlock", b"acq"):
                yield from (event.like(b"acq", name) for name in names)
            else:
                yield from (event.like(b"rel", name) for name in reversed(names))
        else:
            yield event


class Sections:
    """Which locks are held. `begun` has the acquires that have to come before the first line."""

    def __init__(self, forked, repairs):
        self.forked, self.repairs = forked, repairs
        self.holder, self.depth, self.known = {}, {}, set()
        self.begun = []

    def released(self, lock, location):
        thread, count = self.holder.pop(lock), self.depth.pop(lock)
        return [Event(0, thread, b"rel", lock, location)] * count

    def allows_release(self, event):
        """Whether a release by who doesn't hold the lock stays: the log may have begun after its acquire."""
        if event.name in self.known or event.thread in self.forked:
            self.repairs.note(event.line, "the thread doesn't hold this lock: dropped")
            return False
        self.repairs.note(event.line, "the lock was held when the log began: its holder takes it before the "
                          "first line", True)
        self.begun.append(Event(0, event.thread, b"acq", event.name, event.location))
        self.holder[event.name], self.depth[event.name] = event.thread, 1
        return True

    def missing(self, event):
        """The releases that have to come before an event, since they weren't logged."""
        if event.word == b"join":
            held = [lock for lock, holder in self.holder.items() if holder == event.name]
            for _ in held:
                self.repairs.note(event.line, f"the thread holds a lock{RELEASED}", True)
            return [it for lock in held for it in self.released(lock, event.location)]
        if event.word == b"acq" and self.holder.get(event.name) not in (None, event.thread):
            self.repairs.note(event.line, f"another thread holds this lock{RELEASED}", True)
            return self.released(event.name, event.location)
        return []

    def note(self, event):
        lock = event.name
        self.known.add(lock)
        self.holder[lock] = event.thread
        self.depth[lock] = self.depth.get(lock, 0) + (1 if event.word == b"acq" else -1)
        if not self.depth[lock]:
            del self.holder[lock], self.depth[lock]

    def whole(self, events):
        """A lock that is released before anybody acquired it was held when the log began: its holder acquires
        it first. One that is acquired while another thread holds it, or whose holder is joined, was released
        before. Any other release by a thread that doesn't hold the lock is dropped."""
        for event in events:
            yield from self.missing(event)
            if (event.word == b"rel" and self.holder.get(event.name) != event.thread
                and not self.allows_release(event)):
                continue
            if event.word in (b"acq", b"rel"):
                self.note(event)
            yield event
