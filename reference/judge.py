#!/usr/bin/env python3
"""What a good report is, as a plain program, written apart from the proved code.

    judge.py TRACE < REPORT

writes the verdict to standard output. A refused trace ends with status 2 and its fault on standard
error, a rejected report with status 5.
"""

import re
import sys

import shb

NUMBER = rb"(0|[1-9][0-9]*)"
GREATEST = 2**64 - 1
LOCATION = rb"([^\n]{0,4096})"
LINE = rb"([^\n]{1,4096})"


class BadLine(Exception):
    def __init__(self, line):
        super().__init__(f"bad line {line}")


class Lines:
    """The lines of a report, one after the other. A last piece without its line feed is no line."""

    def __init__(self, text):
        *self.lines, self.rest = text.split(b"\n")
        self.taken = 0

    def next(self, pattern):
        """The groups of the next line, which has this form."""
        self.taken += 1
        line = self.lines[self.taken - 1] if self.taken <= len(self.lines) else b"\n"
        found = re.fullmatch(pattern, line)
        if found is None:
            raise BadLine(self.taken)
        return found.groups()

    def value(self, digits):
        """The number of the line just taken that has these digits."""
        if re.fullmatch(NUMBER, digits) is None or int(digits) > GREATEST:
            raise BadLine(self.taken)
        return int(digits)

    def numbers(self, pattern):
        """The numbers of the next line, which has this form."""
        return [self.value(digits) for digits in self.next(pattern)]

    def end(self):
        self.next(rb"end")
        if self.taken < len(self.lines) or self.rest != b"":
            raise BadLine(self.taken + 1)


def read_places(lines):
    places = []
    for q in range(1, lines.numbers(rb"places " + NUMBER)[0] + 1):
        [count] = lines.numbers(rb"place %d: " % q + NUMBER)
        [first] = lines.next(rb"at " + LOCATION)
        [second] = lines.next(rb"and " + LOCATION)
        places.append(((first, second), count))
    return places


def read_block(lines, k):
    pair = lines.numbers(rb"race %d: " % k + NUMBER + rb" " + NUMBER)
    [first] = lines.next(rb"first " + LINE)
    [second] = lines.next(rb"second " + LINE)
    length, rest = lines.next(rb"schedule " + NUMBER + rb":((?: [0-9]+)*)")
    schedule = [lines.value(digits) for digits in rest.split()]
    if lines.value(length) != len(schedule):
        raise BadLine(lines.taken)
    return pair, first, second, schedule


def read_report(text):
    """The four counts, the places (None in a report of version 1) and the blocks; or BadLine."""
    lines = Lines(text)
    [version] = lines.numbers(rb"shb-report ([12])")
    counts = lines.numbers(
        rb" ".join(name + rb" " + NUMBER for name in (b"events", b"threads", b"locks", b"variables")))
    [races] = lines.numbers(rb"races " + NUMBER)
    places = read_places(lines) if version == 2 else None
    blocks = []
    for k in range(1, races + 1):
        blocks.append(read_block(lines, k))
    lines.end()
    return tuple(counts), places, blocks


def comes_next(events, earlier, e):
    """Whether the event before it in its thread, or else the fork of its thread, is among the earlier."""
    before = shb.predecessor(events, e)
    return e not in earlier and (before is None or before in earlier)


def may_run(events, earlier, e):
    """Whether event e may run after the earlier ones, in their order."""
    if not 0 <= e < len(events) or not comes_next(events, earlier, e):
        return False
    _, word, name = events[e]
    if word == b"join":
        return all(k in earlier for k, (thread, _, _) in enumerate(events) if thread == name)
    if word == b"fork":
        return all(events[k][1:] != (b"join", name) for k in earlier)
    if word == b"acq":
        return all(k in earlier for k in range(e) if events[k][1:] == (b"rel", name))
    if word == b"r":
        writes = [k for k in earlier if events[k][1:] == (b"w", name)]
        return (writes[-1] if writes else None) == shb.last_write(events, e)
    return True


def is_schedule(events, listed, pair):
    """Whether the listed events may run in this order, so that both of the pair come next."""
    each_runs = all(may_run(events, listed[:place], e) for place, e in enumerate(listed))
    return each_runs and all(comes_next(events, listed, e) for e in pair)


def is_good_block(events, lines, block):
    pair, first, second, schedule = block
    i, j = (number - 1 for number in pair)
    return (
        0 <= i < j < len(events)
        and shb.conflict(events[i], events[j])
        and (lines[i], lines[j]) == (first, second)
        and is_schedule(events, [number - 1 for number in schedule], (i, j))
    )


def verdict(trace, report):
    """The line of the verdict; or Refused with the first fault of the trace."""
    events, lines = shb.read_trace(trace)
    try:
        counts, places, blocks = read_report(report)
    except BadLine as bad:
        return str(bad).encode() + b"\n"
    if counts != shb.counts_of(events):
        return b"bad counts\n"
    for k, block in enumerate(blocks, 1):
        if not is_good_block(events, lines, block):
            return b"bad race %d\n" % k
    pairs = [(pair[0] - 1, pair[1] - 1, None) for pair, _, _, _ in blocks]
    if places is not None and places != list(shb.places_of(pairs, lines).items()):
        return b"bad places\n"
    return b"ok %d\n" % len(blocks)


def main():
    try:
        with open(sys.argv[1], "rb") as trace:
            said = verdict(trace.read(), sys.stdin.buffer.read())
    except shb.Refused as refused:
        print(refused, file=sys.stderr)
        sys.exit(2)
    sys.stdout.buffer.write(said)
    sys.exit(0 if said.startswith(b"ok ") else 5)


if __name__ == "__main__":
    main()
