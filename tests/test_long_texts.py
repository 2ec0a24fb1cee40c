"""Texts of 1 GiB, the most that is read, and of one byte more. Files with holes take no room on a disk, and
line feeds come through a pipe."""

import subprocess

import program

LIMIT = 2**30
EMPTY = b"shb-report 2\nevents 0 threads 0 locks 0 variables 0\nraces 0\nplaces 0\n"


class LongTexts(program.Case):
    def zeros(self, front, size):
        """A file that begins so, and then has bytes 0 up to this size."""
        path = self.file(front, "long")
        with open(path, "ab") as out:
            out.truncate(size)
        return path

    def expect_after_line_feeds(self, count, line, *wanted):
        """What `races` answers to so many line feeds and a line."""
        text = f"head -c {count} /dev/zero | tr '\\0' '\\n'; echo '{line}'"
        with subprocess.Popen(text, shell=True, stdout=subprocess.PIPE) as written:
            self.expect(program.run_over(["races"], written.stdout), *wanted)

    def expect_both_refuse(self, path, said):
        for command in ("races", "check"):
            self.expect_refused(program.run([command, path]), said)

    def test_an_event_after_line_feeds(self):
        report = EMPTY.replace(b"events 0 threads 0", b"events 1 threads 1") + b"end\n"
        self.expect_after_line_feeds(LIMIT - 8, "T|begin", 0, report)

    def test_a_fault_after_line_feeds(self):
        said = b"line %d: the lock is not held by this thread\n" % (LIMIT - 8)
        self.expect_after_line_feeds(LIMIT - 9, "T|rel(l)", 2, b"", said)

    def test_one_line(self):
        self.expect_both_refuse(self.zeros(b"", LIMIT), b"line 1: the line is longer than 4096 bytes")
        self.expect_both_refuse(self.zeros(b"", LIMIT + 1),
                                b"line 1: the text is longer than %d bytes" % LIMIT)

    def test_an_earlier_fault_wins(self):
        self.expect_both_refuse(self.zeros(b"oops\n", LIMIT + 1), b"line 1: the line has no operation field")

    def test_a_report(self):
        trace = self.file(b"")
        for size, said in ((LIMIT, b""), (LIMIT + 1, b"the report is longer than %d bytes\n" % LIMIT)):
            with open(self.zeros(EMPTY, size), "rb") as report:
                self.expect(program.run_over(["check", trace], report), 5, b"bad line 5\n", said)
