"""Threads: numbers that are used again, joins after which the thread goes on, forks that are logged late."""

import collections

from shb_common.words import printable
from shb_fix.events import OWN

USED = "the name was used before"


def named_apart(events, repairs):
    """A thread that is forked again after it was joined is another thread: it gets a name of its own."""
    turn, joined = collections.Counter(), set()

    def own(name):
        return name if not turn[name] else b"%s%s%d" % (name, OWN.encode(), turn[name] + 1)

    for event in events:
        if event.word == b"fork" and event.name in joined:
            joined.discard(event.name)
            turn[event.name] += 1
            repairs.note(event.line, f"{USED}: this thread is called {printable(own(event.name))}", kind=USED)
        if event.word == b"join":
            joined.add(event.name)
        name = own(event.name) if event.word in (b"fork", b"join") else event.name
        yield event._replace(thread=own(event.thread), name=name)


class Lives:
    """What the repairs of threads have to know of a whole trace: the last line of each thread, all forks and
    joins, and of each thread the first event that is neither. So `turns` has the first event of each thread,
    whichever forks and joins are dropped."""

    def __init__(self):
        self.last, self.turns, self.begun = {}, [], set()

    def note(self, event):
        self.last[event.thread] = event.line
        if event.word in (b"fork", b"join"):
            self.turns.append(event)
        elif event.thread not in self.begun:
            self.begun.add(event.thread)
            self.turns.append(event)


def without_timed_joins(lives, repairs):
    """A join after which the thread goes on did not wait for its end, and orders nothing: it is dropped. So
    is what a thread says of itself, and a second fork."""
    forked = set()
    for event in lives.turns:
        if event.word in (b"fork", b"join") and event.name == event.thread:
            repairs.note(event.line, f"a thread can't {event.word.decode()} itself: dropped")
        elif event.word == b"join" and lives.last.get(event.name, 0) > event.line:
            repairs.note(event.line, "the thread goes on after this join, which may have timed out: dropped")
        elif event.word == b"fork" and event.name in forked:
            repairs.note(event.line, "the thread was forked before, and not joined: dropped")
        else:
            forked.update([event.name] if event.word == b"fork" else [])
            yield event


def late_forks(events):
    """The forks that come after an event or a join of their thread, with the place of the first of these."""
    first = {}
    for k, event in enumerate(events):
        first.setdefault(event.thread, k)
        if event.word == b"join":
            first.setdefault(event.name, k)
    return {event: first[event.name] for k, event in enumerate(events) if event.word == b"fork"
            and first.get(event.name, k) < k}


def with_early_forks(events, repairs):
    """A fork that comes after an event of its thread was logged late: it is moved before the first one. That
    may bring the forking thread's own fork to be late. A fork that would be moved twice is dropped: two
    threads can't fork each other. The second answer has the line before which each moved fork stands."""
    events, moved = list(events), {}
    late = late_forks(events)
    while late:
        before, earlier = collections.defaultdict(list), dict(moved)
        for fork, place in late.items():
            if fork in earlier:
                repairs.note(fork.line, "no place before the first event of its thread is right for this "
                             "fork: dropped")
                continue
            moved[fork] = earlier.get(events[place], events[place].line)
            before[place].append(fork)
            repairs.note(
                fork.line, "the fork came after the first event of its thread, and was moved before it", True)
        events = [it for k, event in enumerate(events)
                  for it in [*before.get(k, ()), *([] if event in late else [event])]]
        late = late_forks(events)
    return events, moved


class Plan:
    """Which forks and joins don't stay at their lines, and which forks come before a line."""

    def __init__(self, lives, repairs):
        events, moved = with_early_forks(without_timed_joins(lives, repairs), repairs)
        self.before = collections.defaultdict(list)
        for event in events:
            if event in moved:
                self.before[moved[event]].append(event)
        kept = {event.line for event in events if event not in moved}
        self.gone = {event.line for event in lives.turns} - kept
        self.forked = {event.name for event in events if event.word == b"fork"}

    def followed(self, events):
        for event in events:
            yield from self.before.get(event.line, ())
            if event.line not in self.gone:
                yield event
