"""Refused traces and their texts, limits, and traces that are easily misread."""

import program
import shb

FAULTS = [
    (b"T1|w(x)\noops\n", "line 2: the line has no operation field"),
    (b"\r\r\n", "line 1: the line has no operation field"),
    (b"T1|w(x)\n\n\r\n|r(x)\n", "line 4: the thread name is empty"),
    (b"T1|r(x)\n\n\r\noops\n", "line 4: the line has no operation field"),
    (b"|r(x)\n", "line 1: the thread name is empty"),
    (b"||r(x)", "line 1: the thread name is empty"),
    (b"T1|read(x)\n", "line 1: the operation is not known"),
    (b"T1 | r(x)\n", "line 1: the operation is not known"),
    (b"T1|\n", "line 1: the operation is not known"),
    (b"T1|begin)\n", "line 1: the operation is not known"),
    (b"T1|r()\n", "line 1: the operand is not a name in parentheses"),
    (b"T1|r(x\n", "line 1: the operand is not a name in parentheses"),
    (b"T1|r\n", "line 1: the operand is not a name in parentheses"),
    (b"T1|r", "line 1: the operand is not a name in parentheses"),
    (b"T1|begin(\n", "line 1: the operand is not a name in parentheses"),
    (b"T1|begin(m\n", "line 1: the operand is not a name in parentheses"),
    (b"T1|begins\n", "line 1: the operation is not known"),
    (b"T1|r(" + b"a" * 4091 + b")\n", "line 1: the line is longer than 4096 bytes"),
    (b"".join(b"T%d|r(a)\n" % k for k in range(1025)), "line 1025: there are more than 1024 threads"),
    (b"".join(b"T%d|r(a)\n" % k for k in range(1024)) + b"T1024|fork(T1024)\n", "line 1025: there are more "
     "than 1024 threads"),
    (b"T1|join(T2)\nT2|r(x)\n", "line 2: the thread was joined before"),
    (b"T1|acq(l)\nT1|join(T2)\nT2|acq(l)\n", "line 3: the thread was joined before"),
    (b"T1|join(T2)\nT2|oops(x)\n", "line 2: the operation is not known"),
    (b"T1|acq(l)\nT2|acq(l)\n", "line 2: the lock is held by another thread"),
    (b"T1|acq(l)\nT1|acq(l)\nT1|rel(l)\nT2|acq(l)\n", "line 4: the lock is held by another thread"),
    (b"T1|acq(l)\nT1|rel(l)\nT1|rel(l)\n", "line 3: the lock is not held by this thread"),
    (b"T1|w(x)\nT2|w(y)\nT2|rel(l)\nT1|w(x)\noops\n", "line 3: the lock is not held by this thread"),
    (b"T1|w(x)\nT2|w(y)\noops\nT1|w(x)\nT2|rel(l)\n", "line 3: the line has no operation field"),
    (b"T1|w(x)\nT1|acq(l)\nT1|rel(l)\nT2|rel(l)\nT2|w(x)\n", "line 4: the lock is not held by this thread"),
    (b"T1|fork(T2)\nT1|join(T2)\nT3|fork(T2)\n", "line 3: the thread was forked before"),
    (b"T1|fork(T1)\n", "line 1: a thread cannot fork itself"),
    (b"T1|r(x)\n\r\n\nT1|fork(T1)\n", "line 4: a thread cannot fork itself"),
    (b"T2|r(x)\nT1|fork(T2)\n", "line 2: the forked thread has started already"),
    (b"T1|fork(T2)\nT1|fork(T2)\n", "line 2: the thread was forked before"),
    (b"T1|join(T2)\nT1|fork(T2)\n", "line 2: the forked thread was joined before"),
    (b"T1|join(T1)\n", "line 1: a thread cannot join itself"),
]


class Traces(program.Case):
    def test_refused_traces(self):
        for text, said in FAULTS:
            with self.subTest(said):
                error = said.encode() + b"\n"
                self.expect(program.run([], text), 2, b"", error)
                trace = self.file(text)
                for words in (["races"], ["races", "--list"], ["races", "--workers", "1"]):
                    self.expect_refused(program.run([*words, trace]), said.encode())
                self.expect_refused(program.run(["check", trace], b"not a report"), said.encode())
                self.assertRaisesRegex(shb.Refused, f"^{said}$", shb.read_trace, text)

    def test_accepted_at_the_limits(self):
        for text, counts in (
            (b"", b"events 0 threads 0 locks 0 variables 0"),
            (b"\n\r\n\n", b"events 0 threads 0 locks 0 variables 0"),
            (b"\r\n\r", b"events 0 threads 0 locks 0 variables 0"),
            (b"T1|r(" + b"a" * 4090 + b")\n", b"events 1 threads 1 locks 0 variables 1"),
            (b"".join(b"T%d|r(a)\n" % k for k in range(1024)),
             b"events 1024 threads 1024 locks 0 variables 1"),
            (b"T1|r(f(a))\n\x00\xff|r(f(a))", b"events 2 threads 2 locks 0 variables 1"),
            (b"T1|w(x)|\xff||\r\r\n", b"events 1 threads 1 locks 0 variables 1"),
            (b"T1|acq(l)\nT1|acq(l)\n", b"events 2 threads 1 locks 1 variables 0"),
            (b"T1|begin\nT1|acq(l)\nT1|end\n", b"events 3 threads 1 locks 1 variables 0"),
            (b"T1|join(T2)\nT1|join(T2)\n", b"events 2 threads 2 locks 0 variables 0"),
        ):
            with self.subTest(counts):
                answer = program.run(["races"], text)
                self.assertEqual((answer.status, answer.err), (0, b""))
                self.assertEqual(answer.out.split(b"\n")[1:3], [counts, b"races 0"])

    def test_lines_are_given_as_they_stand(self):
        report = program.run(["races"], b"T1|w(y)|a|b\r\n\r\nT2|r(y)").out
        self.assertIn(b"\nrace 1: 1 2\nfirst T1|w(y)|a|b\nsecond T2|r(y)\nschedule 0:\n", report)
        self.assertIn(b"\nplaces 1\nplace 1: 1\nat a|b\nand \nrace 1", report)

    def test_places_are_counted(self):
        report = program.run([], b"T1|w(x)|a\nT2|w(x)|a\nT3|w(x)|b\nT4|w(x)|b\n").out
        places = b"place 1: 1\nat a\nand a\nplace 2: 4\nat a\nand b\nplace 3: 1\nat b\nand b\n"
        self.assertIn(b"\nraces 6\nplaces 3\n" + places + b"race 1: 1 2\n", report)
