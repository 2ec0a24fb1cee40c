"""The traces of rows/, each with its report as the rules give it, worked by hand."""

import re

import program
import shb

ROWS = program.HERE / "rows"


class Rows(program.Case):
    def test_each_trace_has_its_report(self):
        traces = sorted(ROWS.glob("*.std"))
        self.assertGreaterEqual(len(traces), 24)
        for trace in traces:
            with self.subTest(trace.name):
                self.expect_report(trace, trace.with_suffix(".report").read_bytes())

    def expect_report(self, trace, report):
        listed = re.sub(rb"(?m)^schedule .*\n", b"", report)
        for workers in ("1", "2", "4", "64"):
            words = ["races", "--workers", workers, trace]
            self.expect(program.run(words), 0, report)
            self.expect(program.run([*words, "--list"]), 0, listed)
        self.assertEqual(shb.report(trace.read_bytes(), True), report)
        races = re.search(rb"(?m)^races (\d+)$", report)[1]
        self.expect(program.run(["check", trace], report), 0, b"ok " + races + b"\n")
