"""Verdicts on good and on forged reports, worked by hand."""

import judge
import program

ORDERED = b"T1|w(x)\nT1|w(y)\nT2|r(y)\nT2|w(x)\n"

OLD = b"""shb-report 1
events 4 threads 2 locks 0 variables 2
races 1
race 1: 2 3
first T1|w(y)
second T2|r(y)
schedule 1: 1
end
"""

NEW = b"""shb-report 2
events 4 threads 2 locks 0 variables 2
races 1
places 1
place 1: 1
at\x20
and\x20
race 1: 2 3
first T1|w(y)
second T2|r(y)
schedule 1: 1
end
"""

GREATEST = 18446744073709551615
ONE_BLOCK = b"race 1: 2 3\nfirst T1|w(y)\nsecond T2|r(y)\nschedule 1: 1\n"

# What stands in the report, what stands there instead, and the verdict: of either version.
EITHER = [
    (b"", b"", b"ok 1"),
    (b"schedule 1: 1", b"schedule 0:", b"bad race 1"),
    (b"schedule 1: 1", b"schedule 2: 1 1", b"bad race 1"),
    (b"schedule 1: 1", b"schedule 1: 9", b"bad race 1"),
    (b"schedule 1: 1", b"schedule 1: 0", b"bad race 1"),
    (b"schedule 1: 1", b"schedule 2: 1 2", b"bad race 1"),
    (b"schedule 1: 1", b"schedule 1: %d" % GREATEST, b"bad race 1"),
    # more numbers than the trace has events
    (b"schedule 1: 1", b"schedule 5: 1 2 3 4 1", b"bad race 1"),
    (b"schedule 1: 1", b"schedule 9: 1 2 3 4 9 1 1 1 1", b"bad race 1"),
    (b"events 4", b"events 5", b"bad counts"),
    (b"threads 2", b"threads 3", b"bad counts"),
    (b"locks 0", b"locks 1", b"bad counts"),
    (b"variables 2", b"variables 1", b"bad counts"),
    (b"race 1: 2 3", b"race 1: 3 2", b"bad race 1"),
    (b"race 1: 2 3", b"race 1: 0 3", b"bad race 1"),
    (b"race 1: 2 3", b"race 1: 2 5", b"bad race 1"),
    (b"race 1: 2 3", b"race 1: 1 4", b"bad race 1"),
    (b"race 1: 2 3", b"race 1: %d %d" % (GREATEST, GREATEST), b"bad race 1"),
    (b"first T1|w(y)", b"first T1|w(x)", b"bad race 1"),
    (b"first T1|w(y)", b"first T1|w(y)\r", b"bad race 1"),
    (b"second T2|r(y)", b"second T2|r(x)", b"bad race 1"),
]

# The same with numbers of lines, which are those of version 1.
LINES = [
    (b"shb-report 1", b"shb-report 3", b"bad line 1"),
    (b"shb-report 1", b"shb-report 01", b"bad line 1"),
    (b"shb-report 1\n", b"shb-report 1\r\n", b"bad line 1"),
    (b"shb-report 1", b"\xef\xbb\xbfshb-report 1", b"bad line 1"),
    (b"events 4", b"events 04", b"bad line 2"),
    (b"events 4", b"events -4", b"bad line 2"),
    (b"variables 2", b"variables 2 ", b"bad line 2"),
    (b"variables 2", b"variables ", b"bad line 2"),
    (b"events 4", b"events %d" % GREATEST, b"bad counts"),
    (b"events 4", b"events %d" % (GREATEST + 1), b"bad line 2"),
    (b"races 1", b"races %d" % (GREATEST + 1), b"bad line 3"),
    (b"races 1", b"races %d" % GREATEST, b"bad line 8"),
    (b"races 1", b"races 2", b"bad line 8"),
    (b"races 1", b"races 0", b"bad line 4"),
    (b"races 1\n" + ONE_BLOCK, b"races 0\n", b"ok 0"),
    # the counts are compared before the blocks
    (b"variables 2\nraces 1\nrace 1: 2 3", b"variables 1\nraces 1\nrace 1: 9 9", b"bad counts"),
    (b"race 1: 2 3", b"race 2: 2 3", b"bad line 4"),
    (b"race 1: 2 3", b"race 1: 2  3", b"bad line 4"),
    (b"first T1|w(y)", b"first ", b"bad line 5"),
    (b"first T1|w(y)", b"first " + b"a" * 4097, b"bad line 5"),
    (b"first T1|w(y)", b"first " + b"a" * 4096, b"bad race 1"),
    (b"second T2|r(y)", b"second", b"bad line 6"),
    (ONE_BLOCK, b"", b"bad line 4"),
    (b"schedule 1: 1\n", b"", b"bad line 7"),
    (b"schedule 1: 1", b"schedule 1: 1 ", b"bad line 7"),
    (b"schedule 1: 1", b"schedule %d: 1" % GREATEST, b"bad line 7"),
    (b"schedule 1: 1", b"schedule 01: 1", b"bad line 7"),
    (b"schedule 1: 1", b"schedule 1: 01", b"bad line 7"),
    (b"schedule 1: 1", b"schedule 1: %d" % (GREATEST + 1), b"bad line 7"),
    (b"schedule 1: 1", b"schedule 0: ", b"bad line 7"),
    (b"schedule 1: 1", b"schedule 7: 1 1 1 1 1 1 01", b"bad line 7"),
    (b"schedule 1: 1", b"schedule 7: 1 1 1 1 1 1", b"bad line 7"),
    (b"schedule 1: 1", b"schedule 7: 1 1 1 1 1 1 1 1", b"bad line 7"),
    (b"end\n", b"", b"bad line 8"),
    (b"end\n", b"end", b"bad line 8"),
    (b"end\n", b"end\n\n", b"bad line 9"),
    (b"end\n", b"end\nx", b"bad line 9"),
]


def places(count):
    return b"places %d\n" % count + b"".join(b"place %d: 1\n"
                                             b"at \nand \n" % number for number in range(1, count + 1))


# Changes of the places.
PLACES = [
    (b"place 1: 1", b"place 1: 2", b"bad places"),
    (b"place 1: 1", b"place 1: 0", b"bad places"),
    (b"place 1: 1", b"place 1: %d" % GREATEST, b"bad places"),
    (b"place 1: 1", b"place 2: 1", b"bad line 5"),
    (b"at \n", b"at a\n", b"bad places"),
    (b"and \n", b"and b\n", b"bad places"),
    (b"and \n", b"and\n", b"bad line 7"),
    (b"at \n", b"at\n", b"bad line 6"),
    (b"at \n", b"at " + b"a" * 4096 + b"\n", b"bad places"),
    (b"at \n", b"at " + b"a" * 4097 + b"\n", b"bad line 6"),
    (places(1), places(0), b"bad places"),
    # more places than races
    (places(1), places(2), b"bad places"),
    (places(1), places(9), b"bad places"),
    (places(1), places(9).replace(b"place 9: 1", b"place 9: 01"), b"bad line 29"),
    (places(1) + b"race 1: 2 3", places(9) + b"race 1: 3 2", b"bad race 1"),
    (b"races 1\n" + places(1) + ONE_BLOCK, b"races 0\n" + places(0), b"ok 0"),
    (b"races 1\n" + places(1) + ONE_BLOCK, b"races 0\n" + places(1), b"bad places"),
    (b"places 1", b"places 2", b"bad line 8"),
    (b"places 1", b"places %d" % GREATEST, b"bad line 8"),
    # no memory is asked for what a report only claims
    (b"races 1\nplaces 1", b"races %d\nplaces %d" % (GREATEST, GREATEST), b"bad line 8"),
    (b"places 1\n", b"", b"bad line 4"),
    (b"shb-report 2", b"shb-report 3", b"bad line 1"),
    (b"shb-report 2", b"shb-report 1", b"bad line 4"),
    (b"end\n", b"", b"bad line 12"),
    (b"end\n", b"end\nx", b"bad line 13"),
]

READ_FIRST = b"T1|w(x)\nT2|r(x)\nT2|w(y)\nT3|w(y)\n"
FORK_LATE = b"T1|fork(T3)\nT2|join(T3)\nT1|w(x)\nT2|w(x)\n"
NESTED = b"T1|acq(l)\nT1|acq(l)\nT1|w(x)\nT1|rel(l)\nT1|rel(l)\nT2|acq(l)\nT2|rel(l)\nT3|w(x)\n"
LOCKED = b"T1|acq(l)\nT1|w(x)\nT1|rel(l)\nT2|acq(l)\nT2|r(x)\nT2|rel(l)\nT3|w(x)\n"

# Two threads each of which reads what the other wrote, and a third race, which needs nothing of them.
APART = b"T1|w(a)\nT2|w(b)\nT1|r(b)\nT2|r(a)\nT3|w(x)\nT4|w(x)\n"
LAST_BLOCK = b"race 3: 5 6\nfirst T3|w(x)\nsecond T4|w(x)\nschedule "

# Traces, their races with schedules, a schedule to be put in its place, and the verdict then.
SCHEDULES = [
    # the read needs its last write before it
    (READ_FIRST, b"schedule 2: 1 2", b"schedule 1: 2", b"bad race 2"),
    # not the schedule that is printed, but one all the same
    (READ_FIRST, b"schedule 0:", b"schedule 1: 4", b"ok 2"),
    # the fork may not stand after a join of its thread
    (FORK_LATE, b"schedule 2: 1 2", b"schedule 2: 2 1", b"bad race 1"),
    # the other thread's acquire needs the release before it
    (NESTED, b"schedule 2: 1 2", b"schedule 3: 1 2 6", b"bad race 1"),
    # the locked section stands in the order of the trace
    (LOCKED, b"schedule 4: 1 2 3 4", b"schedule 4: 4 1 2 3", b"bad race 2"),
    # the inner release alone doesn't hand the lock on
    (NESTED, b"schedule 2: 1 2", b"schedule 5: 1 2 3 4 6", b"bad race 1"),
    # any order of the threads in which each read has its last write, and nothing is left out before an event
    (APART, LAST_BLOCK + b"0:", LAST_BLOCK + b"4: 2 1 4 3", b"ok 3"),
    (APART, LAST_BLOCK + b"0:", LAST_BLOCK + b"4: 1 2 3 4", b"ok 3"),
    (APART, LAST_BLOCK + b"0:", LAST_BLOCK + b"2: 2 4", b"bad race 3"),
    (APART, LAST_BLOCK + b"0:", LAST_BLOCK + b"2: 1 3", b"bad race 3"),
    (APART, LAST_BLOCK + b"0:", LAST_BLOCK + b"1: 4", b"bad race 3"),
]

# (a, b) and (b, a) are different places, in the order of their first races.
CROSSED = b"T1|w(x)|a\nT2|w(x)|b\nT3|w(y)|b\nT4|w(y)|a\n"
CROSSED_PLACES = b"places 2\nplace 1: 1\nat a\nand b\nplace 2: 1\nat b\nand a\n"


class Checks(program.Case):
    def expect_verdict(self, trace, report, said):
        status = 0 if said.startswith(b"ok ") else 5
        self.expect(program.run(["check", self.file(trace)], report), status, said + b"\n")
        self.assertEqual(judge.verdict(trace, report), said + b"\n")

    def expect_changed(self, trace, report, old, new, said):
        with self.subTest(old=old, new=new[:80]):
            self.assertIn(old, report)
            self.expect_verdict(trace, report.replace(old, new, 1), said)

    def test_changes_of_either_version(self):
        for change in EITHER:
            self.expect_changed(ORDERED, OLD, *change)
            self.expect_changed(ORDERED, NEW, *change)

    def test_lines_that_no_report_has(self):
        for change in LINES:
            self.expect_changed(ORDERED, OLD, *change)

    def test_places(self):
        for change in PLACES:
            self.expect_changed(ORDERED, NEW, *change)

    def test_each_first_line_alone(self):
        for report in (OLD, NEW):
            for cut in range(len(report)):
                line = report[:cut].count(b"\n") + 1
                self.expect_verdict(ORDERED, report[:cut], b"bad line %d" % line)

    def test_schedules(self):
        for trace, old, new, said in SCHEDULES:
            report = program.run(["races"], trace).out
            self.expect_changed(trace, report, old, new, said)

    def test_the_order_of_places_counts(self):
        report = program.run(["races"], CROSSED).out
        joined = b"places 1\nplace 1: 2\nat a\nand b\n"
        swapped = b"places 2\nplace 1: 1\nat b\nand a\nplace 2: 1\nat a\nand b\n"
        for places in (joined, swapped):
            self.expect_changed(CROSSED, report, CROSSED_PLACES, places, b"bad places")

    def test_a_list_report_has_no_schedules_to_judge(self):
        report = program.run(["races", "--list"], ORDERED).out
        line = report.split(b"\n").index(b"end") + 1
        self.expect_verdict(ORDERED, report, b"bad line %d" % line)
        self.expect_verdict(b"", program.run(["races", "--list"]).out, b"ok 0")

    def test_a_report_of_another_trace(self):
        self.expect_verdict(b"T1|w(x)\n", NEW, b"bad counts")
        self.expect_verdict(b"T1|w(x)\nT1|w(z)\nT2|r(z)\nT2|w(x)\n", NEW, b"bad race 1")
