"""A trace that begins with a byte order mark: its bytes belong to the first name, and standard
error says so."""

import os
import subprocess

import program

MARK = b"\xef\xbb\xbf"
SAID = b"the trace begins with a byte order mark, which is a part of the first thread's name\n"
TRACE = b"T0|w(x)|a\nT0|r(x)|b\n"
MARKED = MARK + TRACE
LISTED = (b"shb-report 2\nevents 2 threads 2 locks 0 variables 1\nraces 1\nplaces 1\nplace 1: 1\nat a\nand "
          b"b\nrace 1: 1 2\nfirst " + MARK + b"T0|w(x)|a\nsecond T0|r(x)|b\nend\n")


class ByteOrderMarks(program.Case):
    def test_the_answer_stays(self):
        for command in ("races", "places"):
            with self.subTest(command):
                self.expect(program.run([command, "--list", self.file(MARKED)]), 0, LISTED, SAID)
                self.expect(program.run([command, "--list"], MARKED), 0, LISTED, SAID)
                self.expect(program.run([command, "--list"], TRACE), 0,
                            program.run(["races", "--list", self.file(TRACE)]).out)
        self.expect(program.run([], MARKED), 0, LISTED, SAID)

    def test_a_check(self):
        trace = self.file(MARKED)
        report = program.run(["places", trace]).out
        self.expect(program.run(["check", trace], report), 0, b"ok 1\n", SAID)
        self.expect(program.run(["check", trace], b""), 5, b"bad line 1\n", SAID)
        # the report's beginning is another matter
        self.expect(program.run(["check", self.file(TRACE)], MARK), 5, b"bad line 1\n")

    def test_a_refused_trace(self):
        """The fault comes first, and what the line has comes last."""
        for text, fault in ((MARK + b"# a comment\n", b"line 1: the line has no operation field\n"),
                            (MARK, b"line 1: the line has no operation field\n"),
                            (MARKED + b"T0|x\n", b"line 3: the operation is not known\n")):
            with self.subTest(text):
                self.expect(program.run(["races"], text), 2, b"", fault + SAID)
                for words in (["races"], ["check"]):
                    answer = program.run([*words, self.file(text)])
                    self.assertEqual((answer.status,
                                      answer.err.startswith(fault + SAID + b"the line is `")), (2, True))

    def test_other_beginnings(self):
        """Also those that are a part of a mark, or have it later."""
        for text in (MARK[:2] + b"|w(x)\n", MARK[:1] + b"|w(x)\n", b"\xef\xbb|w(x)\n", b"\xfe\xff|w(x)\n",
                     b"\n" + MARKED, b"T|w(x)|" + MARK + b"\n"):
            with self.subTest(text):
                answer = program.run(["races", "--list", self.file(text)])
                self.assertEqual((answer.status, answer.err), (0, b""))
        self.expect(program.run(["races"], MARK[:2]), 2, b"", b"line 1: the line has no operation field\n")

    def test_bytes_that_come_one_by_one(self):
        with subprocess.Popen([program.PATH, "races", "--list"], stdin=subprocess.PIPE,
                              stdout=subprocess.PIPE, stderr=subprocess.PIPE, bufsize=0) as ran:
            for byte in MARKED:
                os.write(ran.stdin.fileno(), bytes([byte]))
            answer = ran.communicate(timeout=program.SECONDS)
        self.assertEqual((ran.returncode, *answer), (0, LISTED, SAID))
