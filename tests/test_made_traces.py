"""Reports and verdicts of made traces, against the plain program of the definitions."""

import random

import judge
import made_traces
import program
import shb

HOW_MANY = 300
SEED = 1
CHANGES = 3


def wanted_report(text, schedules):
    try:
        return program.Answer(0, shb.report(text, schedules), b"")
    except shb.Refused as refused:
        return program.Answer(2, b"", str(refused).encode() + b"\n")


class MadeTraces(program.Case):
    def test_the_plain_program_agrees(self):
        pick = random.Random(SEED)
        accepted = races = refused = 0
        for number in range(HOW_MANY):
            text = made_traces.made_trace(pick)
            with self.subTest(number=number, seed=SEED):
                full = self.compare_reports(text)
                self.compare_verdicts(pick, text, full)
            accepted += full.status == 0
            refused += full.status == 2
            races += full.out.count(b"\nrace ")
        print(f"({accepted} accepted, {refused} refused, {races} races)", end=" ")
        self.assertEqual(accepted + refused, HOW_MANY)
        self.assertGreater(accepted, HOW_MANY // 2)
        self.assertGreater(refused, HOW_MANY // 20)
        self.assertGreater(races, HOW_MANY)

    def compare_reports(self, text):
        full, listed = wanted_report(text, True), wanted_report(text, False)
        for workers in ("1", "2", "64"):
            self.assertEqual(program.run(["races", "--workers", workers], text), full)
            self.assertEqual(program.run(["races", "--workers", workers, "--list"], text), listed)
        return full

    def compare_verdicts(self, pick, text, full):
        trace = self.file(text)
        if full.status != 0:
            answer = program.run(["check", trace], b"anything")
            # what the line has comes after it
            self.assertEqual(answer._replace(err=answer.err.partition(b"\n")[0] + b"\n"), full)
            return
        self.compare_verdict(trace, text, full.out, b"ok %d\n" % full.out.count(b"\nrace "))
        for _ in range(CHANGES):
            report = made_traces.changed(pick, full.out)
            self.compare_verdict(trace, text, report, judge.verdict(text, report))
        old = shb.report(text, True, version=1)
        self.compare_verdict(trace, text, old, judge.verdict(text, old))
        listed = wanted_report(text, False).out
        self.compare_verdict(trace, text, listed, judge.verdict(text, listed))

    def compare_verdict(self, trace, text, report, wanted):
        status = 0 if wanted.startswith(b"ok ") else 5
        self.assertEqual(program.run(["check", trace], report), (status, wanted, b""), (text, report))
