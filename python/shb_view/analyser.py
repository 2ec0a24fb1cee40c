"""Asks `shb` for what is shown."""

import collections
import os
import tempfile

from shb_common.analyser import REFUSED, LIST_VARIABLES, Run, rewound
from shb_common.refused import line_and_hint, without_note
from shb_common.report import Report
from shb_common.words import Refused
from shb_view.names import short

MOST_BYTES = 4_096  # of a verdict that are looked at
MOST_SAID, MOST_SHOWN = 200, 100  # columns of the program's words and of a refused line that are shown
BAD = 5  # the status of `shb check` for a bad report

# What is known of a report. `is_good` is None where it wasn't judged.
Verdict = collections.namedtuple("Verdict", "is_good words")


class Analyser:
    def __init__(self, program, trace):
        """`trace` is an open file."""
        self.program, self.trace = program, trace

    def run(self, words, given, out, *more, good=(0,), **how):
        """Runs the program on an open file, from its beginning, and returns its status. Refused if that isn't
        one of the good ones."""
        try:
            with Run([self.program, *words, *more], rewound(given), out, **how) as run:
                answer = run.answer()
        except OSError as fault:
            name, why = short(os.fsencode(self.program), MOST_SAID), fault.strerror
            raise Refused(f"`{name}` can't be run ({why}); SHB=PROGRAM names another `shb`") from None
        out.seek(0)
        if answer.status in good:
            return answer.status
        said = short(without_note(answer.said).rstrip(b"\n"), MOST_SAID)
        if answer.status == REFUSED and said:
            raise Refused(f"`shb` refuses the trace: {said}{self.refused_line(said)}")
        how = (f"was ended by signal {-answer.status}" if answer.status < 0
               else f"ended with status {answer.status}")
        raise Refused(f"`shb {' '.join(words)}` {how}{': ' if said else ''}{said}")

    def refused_line(self, said):
        """The line that the program's words name, below them, with a hint where one is known; nothing where
        they name none."""
        found = line_and_hint(said, self.trace)
        if not found:
            return ""
        line, hint = found
        return f"\n  {short(line, MOST_SHOWN)}" + (f"\n  hint: {hint}" if hint else "")

    def nearest(self, listed):
        """The report of the nearest race of each variable at each place, which it writes to an open file."""
        self.run(LIST_VARIABLES, self.trace, listed)
        return Report(listed)

    def check(self, report):
        """The verdict of `shb check` on an open report."""
        trace = self.trace.fileno()
        with tempfile.TemporaryFile() as out:
            status = self.run(["check"], report, out, f"/dev/fd/{trace}", good=(0, BAD), pass_fds=[trace])
            verdict = out.read(MOST_BYTES)
        report.seek(0)
        said = short(verdict.rstrip(b"\n"), MOST_SAID) or f"it ended with status {status} and no word"
        return Verdict(status == 0, said)
