"""The examples of the repository, and the one of the help."""

import re
import subprocess

import program
import shb

EXAMPLES = program.HERE.parent / "examples"


class Examples(program.Case):
    def test_each_example_has_its_report(self):
        traces = sorted(EXAMPLES.glob("*.std"))
        self.assertGreaterEqual(len(traces), 4)
        for trace in traces:
            with self.subTest(trace.name):
                report = trace.with_suffix(".report").read_bytes()
                self.expect(program.run(["races", trace]), 0, report)
                self.expect(program.run(["races"], trace.read_bytes()), 0, report)
                self.assertEqual(shb.report(trace.read_bytes(), True), report)
                races = re.search(rb"^races (\d+)$", report, re.M)[1]
                self.expect(program.run(["check", trace], report), 0, b"ok " + races + b"\n")

    def test_no_words_are_the_list(self):
        for trace in EXAMPLES.glob("*.std"):
            listed = program.run(["races", "--list", trace])
            self.assertEqual(program.run([], trace.read_bytes()), listed)
            self.assertNotIn(b"schedule", listed.out)

    def test_the_help_shows_what_the_program_writes(self):
        text = program.run(["help", "races"]).out.decode()
        command, shown = re.search(r"^Example:\n  \$ (.*) \| shb races\n((?:  .*\n)+)", text, re.M).groups()
        trace = subprocess.run(["sh", "-c", command], stdout=subprocess.PIPE, check=True).stdout
        report = "".join(line[2:] + "\n" for line in shown.splitlines())
        self.expect(program.run(["races"], trace), 0, report.encode())
