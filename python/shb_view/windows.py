"""The second pass over a trace: what is shown before two racing accesses, and what orders it."""

import collections

from shb_common.report import event_of
from shb_view.held import Held
from shb_view.trace import OPENS, line_of

SOURCES = {b"acq": b"rel", b"r": b"w"}  # what an operation waits for or sees

# An event that is shown. `called` is the program's name for its variable or lock, and `line` its line with
# that. `source` is the event of another thread that it waits for or sees: for an acquire the
# last release of the lock, for a read the last write, for a join the thread's last event; or 0. `previous` is
# the event before it in its thread, or 0. `locks` and `held` are as `Held.newest` has them; `freed` is the
# lock that it makes free, or None.
Shown = collections.namedtuple(
    "Shown", "thread word name location number row line called source previous locks held freed")

# A race with what comes before it. `before` are the events before the accesses in the order of its schedule
# or of the trace; `edges` are pairs of events of different threads, the earlier first; `forks` has the fork
# of each access's thread, or 0; `schedule` is a `report.Schedule`, or None.
Window = collections.namedtuple("Window", "race accesses before edges forks events schedule")


def moments_of(trace, wanted, sources, counting):
    """The last four fields of `Shown` of the wanted events and their sources, by event; and by event its
    source, where that is an event of another thread. `sources` has for an event what it waits for or sees,
    `w(X)` or `rel(L)`."""
    moments, found, tracked = {}, {}, set(sources.values())
    for part, end in trace.parts_of(wanted).items():
        # by thread; `latest`: of a tracked operation its last event, its thread and its moment
        last, held, latest = {}, collections.defaultdict(Held), {}
        for number, thread, operation, _ in trace.events("reading what comes before", part):
            lock = counting.lock_of(operation) if operation[1] != OPENS else None
            if number in wanted or operation in tracked:
                is_acquire, name = lock or (True, None)
                freed = name if not is_acquire and held[thread].is_last_release(name) else None
                previous = last.get(thread) or counting.last_before(part, thread)
                moment = previous, *held[thread].newest(), freed
                if number in wanted:
                    moments[number] = moment
                    source, by, its_moment = latest.get(sources.get(number), (0, thread, None))
                    if by != thread:
                        found[number], moments[source] = source, its_moment
                if operation in tracked:
                    latest[operation] = number, thread, moment
            if lock:
                held[thread].take(*lock, number)
            last[thread] = number
            if number >= end:
                break
    return moments, found


def make_windows(trace, races, counting, order):
    """A window for each race. `order` returns events in the order of a race's schedule, and that schedule."""
    accesses = {event: access.thread for race in races for event, access in race.sides()}
    before = {event for access in accesses for event in counting.noted[access].before}
    forks = {access: counting.begins[thread].event if thread in counting.begins else 0
             for access, thread in accesses.items()}
    acquires = {acquire for access in accesses for _, acquire in counting.noted[access].locks}
    events = {number: event_of(found.line) for number, found in trace.find(before).items()}
    joined = {number: counting.joined[number] for number in events if number in counting.joined}
    wanted = {*accesses, *before, *filter(None, forks.values()), *acquires, *joined.values()}
    sources = {number: b"%b(%b)" % (SOURCES[event.word], event.name)
               for number, event in events.items() if event.word in SOURCES}
    moments, seen = moments_of(trace, wanted, sources, counting)
    seen.update(joined)
    found = trace.find(moments)
    shown = {number: shown_event(number, found[number], counting.gathered, moment, seen.get(number, 0))
             for number, moment in moments.items()}
    return [window(race, counting, forks, shown, order) for race in races]


def shown_event(number, found, gathered, moment, source):
    event = event_of(found.line)
    name = gathered.called(number, event)
    line = line_of(event._replace(name=name)) if name != event.name else found.line
    return Shown(*event, number, found.row, line, name, source, *moment)


def window(race, counting, forks, shown, order):
    """What is shown of a race. The last write of an access isn't, since a schedule needn't have it."""
    accesses, before, starts = race.events, set(), {}
    for access in accesses:
        noted = counting.noted[access]
        before.update(noted.before, (acquire for _, acquire in noted.locks))
        for event in (*noted.before, access):
            if not shown[event].previous and forks[access]:
                starts[event] = forks[access]
        before.update(starts.values(), filter(None, (shown[event].source for event in noted.before)))
    # neither access, nor an event after one in its thread
    before = {event for event in before
              if all(event < access or shown[event].thread != shown[access].thread for access in accesses)}
    ordered, schedule = order(race, sorted(before))
    sources = {event: (starts.get(event, 0), 0 if event in accesses else shown[event].source)
               for event in (*ordered, *accesses)}
    edges = [(source, event) for event, found in sources.items() for source in found if source in before]
    return Window(race, accesses, ordered, edges, forks, shown, schedule)
