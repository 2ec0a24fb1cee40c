"""Files, pipes and disks that fail."""

import os
import subprocess

import program

TRACE = b"T1|w(x)\nT1|w(y)\nT2|r(y)\nT2|w(x)\n"
CLOSED_PIPE = b"cannot write\nshb: standard output: Broken pipe (os error 32)\n"


class Devices(program.Case):
    def setUp(self):
        super().setUp()
        self.trace = self.file(TRACE)
        self.report = program.run(["races", self.trace]).out

    def writers(self):
        """The words that write, and what each is given."""
        return ((["races", self.trace], b""), (["races", "--list"], TRACE), ([], TRACE),
                (["places", self.trace], b""), (["places", "--list", self.trace], b""),
                (["places", "--list"], TRACE), (["check", self.trace], self.report), (["--help"], b""))

    def test_a_missing_file(self):
        """The first line is fixed; the second names the file, without what doesn't print, and
        the system's reason."""
        for name, shown, why in ((self.folder / "none", self.folder / "none", "No such file or directory (os "
                                  "error 2)"),
                                 ("", "", "No such file or directory (os error 2)"),
                                 (self.trace / "below", self.trace / "below",
                                  "Not a directory (os error 20)"),
                                 (self.folder / "red\033[31m", self.folder / "red\\u{1b}[31m", "No such file "
                                  "or directory (os error 2)")):
            for words in (["races"], ["check"], ["places"], ["places", "--list"]):
                self.expect(program.run([*words, name], self.report), 4, b"",
                            f"cannot open\nshb: {shown}: {why}\n".encode())

    def test_a_dash_is_a_file(self):
        wanted = ["cannot open", "shb: -: No such file or directory (os error 2)",
                  "standard input has no name: leave TRACE out to read a trace from it"]
        self.expect(program.run(["places", "-"], TRACE, cwd=self.folder), 4, b"",
                    "".join(line + "\n" for line in wanted).encode())

    def test_a_directory(self):
        for words in (["races"], ["check"], ["places"], ["places", "--list"]):
            self.expect(program.run([*words, self.folder], self.report), 4, b"",
                        f"cannot read\nshb: {self.folder}: Is a directory (os error 21)\n".encode())

    def test_a_directory_as_standard_input(self):
        for words in (["races"], [], ["check", self.trace], ["places"], ["places", "--list"]):
            folder = os.open(self.folder, os.O_RDONLY)
            self.addCleanup(os.close, folder)
            self.expect(program.run_over(words, folder), 4, b"",
                        b"cannot read\nshb: standard input: Is a directory (os error 21)\n")

    def test_a_closed_standard_input(self):
        """A trace that is opened then has its number, and isn't taken for the report."""
        wanted = b"cannot read\nshb: standard input: Bad file descriptor (os error 9)\n"
        for words in (["races"], [], ["check", self.trace], ["check", self.folder / "none"]):
            with self.subTest(words):
                ran = subprocess.run(["sh", "-c", '"$@" <&-', "sh", program.PATH, *words],
                                     capture_output=True, timeout=program.SECONDS)
                self.assertEqual((ran.returncode, ran.stdout, ran.stderr), (4, b"", wanted))
        ran = subprocess.run(["sh", "-c", '"$@" <&-', "sh", program.PATH, "races", self.trace],
                             capture_output=True, timeout=program.SECONDS)
        self.assertEqual((ran.returncode, ran.stdout, ran.stderr), (0, self.report, b""))

    def test_standard_input_that_is_a_terminal(self):
        for words, given, said in ((["places"], b"", "reading the trace from standard input"),
                                   ([], b"", "reading the trace from standard input"),
                                   (["check", self.trace], b"", "reading the report from standard input")):
            master, terminal = os.openpty()
            started = subprocess.Popen([program.PATH, *words], stdin=terminal, stdout=subprocess.PIPE,
                                       stderr=subprocess.PIPE)
            os.close(terminal)
            self.assertEqual(started.stderr.readline(), said.encode() + b"\n")
            os.write(master, b"\4")      # the end of what is typed
            started.communicate(timeout=program.SECONDS)
            os.close(master)

    def test_a_trace_without_an_event(self):
        """A note to a user who watches standard error, and a report as of any other trace."""
        for text in (b"", b"\n", b"\r\n\n\n"):
            for words in (["races"], ["places"], ["places", "--list"]):
                answer = self.watched(words, text)
                self.assertEqual((answer.status, answer.err), (0, b"the trace has no events\n"))
                self.assertIn(b"\nevents 0 threads 0 locks 0 variables 0\n", answer.out)
                self.assertEqual(program.run(words, text), answer._replace(err=b""))
        self.assertEqual(self.watched(["places", "--list"], b"\n" * 70000 + b"T|begin\n").err, b"")
        said = (b"line 1: the line has no operation field\nFORMATS.md has the form of a trace, and `shb-fix` "
                b"repairs common faults\n")
        self.assertEqual(self.watched(["places", "--list"], b"\r\r\n").err, said)

    def test_a_report_that_is_cut_off(self):
        """A note to a user who watches standard error."""
        cut = b"the report doesn't end with the line 'end': it is cut off\n"
        for size in (0, 11, len(self.report) - 5, len(self.report) - 1):
            line = self.report[:size].count(b"\n") + 1
            self.expect(self.watched(["check", self.trace], self.report[:size]), 5, b"bad line %d\n" % line,
                        cut)
            self.expect(program.run(["check", self.trace], self.report[:size]), 5, b"bad line %d\n" % line)
        self.expect(self.watched(["check", self.trace], b"shb-report 3" + self.report[12:]), 5,
                    b"bad line 1\n")

    def watched(self, words, given):
        """The answer with a terminal as standard error."""
        master, terminal = os.openpty()
        ran = subprocess.run([program.PATH, *words], input=given, stdout=subprocess.PIPE, stderr=terminal,
                             timeout=program.SECONDS)
        os.write(terminal, b".")     # so that there is something to read
        said = b""
        while not said.endswith(b"."):
            said += os.read(master, 4096)
        said = said.replace(b"\r\n", b"\n")
        os.close(master)
        os.close(terminal)
        return program.Answer(ran.returncode, ran.stdout, said[:-1])

    def test_a_full_disk(self):
        for words, given in self.writers():
            with self.subTest(words), open("/dev/full", "wb") as full:
                said = b"cannot write\nshb: standard output: No space left on device (os error 28)\n"
                self.assertEqual(program.run(words, given, stdout=full), (4, None, said))

    def test_a_closed_pipe(self):
        for words, given in self.writers():
            with self.subTest(words):
                reader, writer = os.pipe()
                os.close(reader)
                answer = program.run(words, given, stdout=writer)
                os.close(writer)
                self.assertEqual(answer, (4, None, CLOSED_PIPE))

    def test_a_failing_standard_error_is_passed_over(self):
        refused = self.file(b"oops\n", "oops.std")
        for words, status in ((["races", refused], 2), (["frobnicate"], 3),
                              (["races", self.folder / "none"], 4)):
            with open("/dev/full", "wb") as full:
                self.assertEqual(program.run(words, stderr=full), (status, b"", None))

    def test_a_slow_pipe(self):
        """What is read in small pieces is read whole."""
        for words, given, wanted in ((["races"], TRACE,
                                      self.report), (["check", self.trace], self.report, b"ok 1\n")):
            started = subprocess.Popen([program.PATH, *words], stdin=subprocess.PIPE, stdout=subprocess.PIPE)
            for byte in given:
                started.stdin.write(bytes([byte]))
                started.stdin.flush()
            self.assertEqual(started.communicate(timeout=program.SECONDS)[0], wanted)
            self.assertEqual(started.returncode, 0)
