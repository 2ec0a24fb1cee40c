#!/usr/bin/env python3
"""The definitions as a plain program: slow, short, and written apart from the proved code.

    shb.py [--places [--variables]] [--list] < TRACE

writes the report of all races to standard output; with --places that of the nearest race of each place, with
--variables of each place and variable; with --list without schedules. A refused trace ends with status 2 and
its fault on standard error.
"""

import math
import sys
import typing

WORDS = {b"r", b"w", b"acq", b"rel", b"fork", b"join", b"begin", b"end"}
MARKS = {b"begin", b"end"}


class Limits(typing.NamedTuple):
    text: float
    line: int
    events: int
    threads: int


LIMITS = Limits(text=1_073_741_824, line=4_096, events=4_194_304, threads=1_024)
STREAM_LIMITS = Limits(text=math.inf, line=4_096, events=4_294_967_294, threads=65_535)  # of `places --list`


class Refused(Exception):
    def __init__(self, line, words):
        super().__init__(f"line {line}: {words}")


def read_line(line):
    """Nothing, (thread, word, name), or the words of the line's fault."""
    if line == b"":
        return None
    fields = line.split(b"|", 2)
    if len(fields) < 2:
        return "the line has no operation field"
    thread, operation = fields[0], fields[1]
    if thread == b"":
        return "the thread name is empty"
    word = operation.split(b"(", 1)[0]
    if word not in WORDS:
        return "the operation is not known"
    operand = operation[len(word):]
    if word in MARKS:
        if operand != b"" and not operand.endswith(b")"):
            return "the operand is not a name in parentheses"
        return thread, word, None
    if len(operand) < 3 or not operand.endswith(b")"):
        return "the operand is not a name in parentheses"
    return thread, word, operand[1:-1]


def names_of(event):
    thread, word, name = event
    return [thread, name] if word in (b"fork", b"join") else [thread]


def discipline_fault(past, event):
    """The words of the lowest fault that the event has after these events, or None."""
    thread, word, name = event

    def count(kind, what, by=lambda t: True):
        return sum(1 for t, w, n in past if w == kind and n == what and by(t))

    if count(b"join", thread) > 0:
        return "the thread was joined before"
    if word == b"acq":
        others = lambda t: t != thread
        if count(b"acq", name, others) != count(b"rel", name, others):
            return "the lock is held by another thread"
    if word == b"rel":
        own = lambda t: t == thread
        if count(b"acq", name, own) <= count(b"rel", name, own):
            return "the lock is not held by this thread"
    if word == b"fork":
        if name == thread:
            return "a thread cannot fork itself"
        if any(t == name for t, _, _ in past):
            return "the forked thread has started already"
        if count(b"fork", name) > 0:
            return "the thread was forked before"
        if count(b"join", name) > 0:
            return "the forked thread was joined before"
    if word == b"join" and name == thread:
        return "a thread cannot join itself"
    return None


def read_trace(text, limits=LIMITS):
    """The events, each with the bytes of its line; or Refused with the first fault of the text."""
    pieces = text.split(b"\n")
    events, lines, threads, start = [], [], set(), 0
    for number, piece in enumerate(pieces, 1):
        end = start + len(piece)
        if len(text) > limits.text and start <= limits.text < end + 1:
            raise Refused(number, f"the text is longer than {limits.text} bytes")
        start = end + 1
        if len(piece) > limits.line:
            raise Refused(number, f"the line is longer than {limits.line} bytes")
        line = piece[:-1] if piece.endswith(b"\r") else piece
        event = read_line(line)
        if event is None:
            continue
        if isinstance(event, str):
            raise Refused(number, event)
        if len(events) == limits.events:
            raise Refused(number, f"there are more than {limits.events} events")
        if len(threads | set(names_of(event))) > limits.threads:
            raise Refused(number, f"there are more than {limits.threads} threads")
        fault = discipline_fault(events, event)
        if fault is not None:
            raise Refused(number, fault)
        threads |= set(names_of(event))
        events.append(event)
        lines.append(line)
    return events, lines


def last_write(events, r):
    if events[r][1] != b"r":
        return None
    writes = [w for w in range(r) if events[w][1:] == (b"w", events[r][2])]
    return writes[-1] if writes else None


def is_edge(events, a, b):
    (thread, word, name), (later_thread, later_word, later_name) = events[a], events[b]
    return (
        thread == later_thread
        or (word == b"rel" and later_word == b"acq" and name == later_name)
        or (word == b"fork" and name == later_thread)
        or (later_word == b"join" and later_name == thread)
        or last_write(events, b) == a
    )


def below_sets(events):
    """For each event, the events SHB-below it or equal to it."""
    below = []
    for b in range(len(events)):
        members = {b}
        for a in range(b):
            if is_edge(events, a, b):
                members |= below[a]
        below.append(members)
    return below


def predecessor(events, e):
    earlier = [k for k in range(e) if events[k][0] == events[e][0]]
    if earlier:
        return earlier[-1]
    forks = [k for k in range(len(events)) if events[k][1:] == (b"fork", events[e][0])]
    return forks[0] if forks else None


def conflict(first, second):
    return (
        first[1] in (b"r", b"w")
        and second[1] in (b"r", b"w")
        and first[2] == second[2]
        and first[0] != second[0]
        and b"w" in (first[1], second[1])
    )


def races_and_schedules(events):
    below = below_sets(events)
    preds = [predecessor(events, e) for e in range(len(events))]
    learned = [below[p] if p is not None else set() for p in preds]
    found = []
    for j, later in enumerate(events):
        for i in range(j):
            if conflict(events[i], later) and i not in learned[j]:
                first_access = next(k for k, e in enumerate(events) if e[1] in (b"r", b"w")
                                    and e[2] == later[2])
                found.append((first_access, j, i, sorted(learned[i] | learned[j])))
    return [(i, j, schedule) for _, j, i, schedule in sorted(found)]


def location(line):
    """What stands after the second bar of a line: nothing where there is none."""
    return b"|".join(line.split(b"|")[2:])


def place(race, lines):
    """The locations of the two events of a race."""
    return location(lines[race[0]]), location(lines[race[1]])


def places_of(races, lines):
    """How many of the races have each pair of locations, in the order of the first that has it."""
    counts = {}
    for race in races:
        counts[place(race, lines)] = counts.get(place(race, lines), 0) + 1
    return counts


def nearest_races(races, site):
    """Of all races at a site the one whose later event comes first, and of those with this event the one
    whose earlier event comes last: such a race of each site, in the order of the later events, then of the
    earlier ones."""
    at = {}
    for race in races:
        at.setdefault(site(race), []).append(race)
    nearest = [min(there, key=lambda race: (race[1], -race[0])) for there in at.values()]
    return sorted(nearest, key=lambda race: (race[1], race[0]))


def counts_of(events):
    """How many events, threads, locks and variables there are."""
    threads = {name for event in events for name in names_of(event)}
    locks = {name for _, word, name in events if word in (b"acq", b"rel")}
    variables = {name for _, word, name in events if word in (b"r", b"w")}
    return len(events), len(threads), len(locks), len(variables)


def report(text, schedules, version=2):
    """The report of all races."""
    events, lines = read_trace(text)
    return report_of(events, lines, races_and_schedules(events), schedules, version)


def places_report(text, schedules, by_variable=False):
    """The report of the nearest race of each place, or of each place and variable."""
    events, lines = read_trace(text, LIMITS if schedules else STREAM_LIMITS)

    def site(race):
        return place(race, lines), events[race[0]][2] if by_variable else None

    return report_of(events, lines, nearest_races(races_and_schedules(events), site), schedules)


def report_of(events, lines, races, schedules, version=2):
    """The report of these races."""
    out = [
        b"shb-report %d\n" % version,
        b"events %d threads %d locks %d variables %d\n" % counts_of(events),
        b"races %d\n" % len(races),
    ]
    if version == 2:
        places = places_of(races, lines)
        out.append(b"places %d\n" % len(places))
        for q, ((first, second), count) in enumerate(places.items(), 1):
            out.append(b"place %d: %d\n" % (q, count) + b"at " + first + b"\nand " + second + b"\n")
    for k, (i, j, schedule) in enumerate(races, 1):
        out.append(b"race %d: %d %d\n" % (k, i + 1, j + 1))
        out.append(b"first " + lines[i] + b"\nsecond " + lines[j] + b"\n")
        if schedules:
            out.append(b"schedule %d:" % len(schedule) + b"".join(b" %d" % (e + 1) for e in schedule) + b"\n")
    out.append(b"end\n")
    return b"".join(out)


def main():
    schedules = "--list" not in sys.argv
    try:
        text = sys.stdin.buffer.read()
        if "--places" in sys.argv:
            said = places_report(text, schedules, "--variables" in sys.argv)
        else:
            said = report(text, schedules)
        sys.stdout.buffer.write(said)
    except Refused as refused:
        print(refused, file=sys.stderr)
        sys.exit(2)


if __name__ == "__main__":
    main()
