"""Every short list of events as the schedule of every conflicting pair of some small traces, against
the plain judge."""

import itertools

import judge
import program
import shb

# Traces of four and five events. A schedule has neither event of its pair, so three at most.
LONGEST = 3
TRACES = [
    b"T1|w(x)\nT1|w(y)\nT2|r(y)\nT2|w(x)\n",
    b"T1|w(x)\nT2|r(x)\nT2|w(y)\nT3|w(y)\n",
    b"T1|acq(l)\nT1|w(x)\nT1|rel(l)\nT2|acq(l)\nT2|r(x)\n",
    b"T1|fork(T2)\nT2|w(x)\nT1|join(T2)\nT1|r(x)\n",
    b"T1|fork(T3)\nT2|join(T3)\nT1|w(x)\nT2|w(x)\n",
    b"T1|w(x)\nT2|r(x)\nT2|w(x)\nT1|r(x)\nT3|r(x)\n",
]


def report(events, lines, pair, listed):
    """A report of version 1 with one block."""
    first, second = pair
    return b"".join(
        line + b"\n"
        for line in (
            b"shb-report 1",
            b"events %d threads %d locks %d variables %d" % shb.counts_of(events),
            b"races 1",
            b"race 1: %d %d" % (first + 1, second + 1),
            b"first " + lines[first],
            b"second " + lines[second],
            b"schedule %d:" % len(listed) + b"".join(b" %d" % number for number in listed),
            b"end",
        )
    )


def lists(events):
    """Every list of numbers up to this length, of which the last one is of no event."""
    for length in range(LONGEST + 1):
        yield from itertools.product(range(1, len(events) + 2), repeat=length)


class ShortSchedules(program.Case):
    def test_every_short_list(self):
        good = 0
        for text in TRACES:
            events, lines = shb.read_trace(text)
            trace = self.file(text)
            for pair in itertools.combinations(range(len(events)), 2):
                if not shb.conflict(*(events[e] for e in pair)):
                    continue
                for listed in lists(events):
                    given = report(events, lines, pair, listed)
                    wanted = judge.verdict(text, given)
                    status = 0 if wanted == b"ok 1\n" else 5
                    self.assertEqual(program.run(["check", trace], given), (status, wanted, b""), given)
                    good += status == 0
        # of the second trace two lists for the first pair, and one for the other; of the others at most
        # one each
        self.assertEqual(good, 9)
