"""Which reports python/shb-view takes, and what it says of others."""

import io
import random
import re

import judge
import made_traces
import program
import shb
from viewing import EXAMPLES, MADE, made, sections

from shb_common import words
from shb_common.report import BadReport, Lines, Report


class Taken(program.Case):
    def test_every_form(self):
        for _, text, events in made(MADE // 3):
            races = shb.places_of(shb.races_and_schedules(events), shb.read_trace(text)[1])
            wanted = {tuple(sorted(place)) for place in races}
            for schedules in (False, True):
                found = sections(text, shb.report(text, schedules), schedules or None)
                self.assertEqual({pair.locations for section in found for pair in section.group.pairs},
                                 wanted)

    def test_leading_races_alone(self):
        trace = (EXAMPLES / "places.std").read_bytes()
        report = (b"shb-report 2\nevents 4 threads 4 locks 0 variables 1\nraces 2\nplaces 2\n"
                  b"place 1: 1\nat Counter.java:12\nand Counter.java:12\nplace 2: 1\nat Report.java:30\nand "
                  b"Counter.java:12\nrace 1: 1 2\nfirst T1|w(total)|Counter.java:12\n"
                  b"second T2|w(total)|Counter.java:12\nschedule 0:\nrace 2: 3 4\nfirst "
                  b"T3|r(total)|Report.java:30\nsecond T4|w(total)|Counter.java:12\nschedule 0:\nend\n")
        self.assertEqual(judge.verdict(trace, report), b"ok 2\n")
        [section] = sections(trace, report)
        self.assertEqual({pair.locations for pair in section.group.pairs},
                         {(b"Counter.java:12", b"Counter.java:12"), (b"Counter.java:12", b"Report.java:30")})

    def test_changed_reports(self):
        """A good report is shown, and one whose form, counts or places are wrong is refused;
        `check` judges schedules."""
        shown = refused = 0
        for pick, text, _ in made(MADE):
            good = shb.report(text, True)
            for report in [made_traces.changed(pick, good) for _ in range(5)]:
                verdict = judge.verdict(text, report).decode()
                try:
                    sections(text, report, None)
                except (BadReport, words.Refused):
                    self.assertNotEqual(verdict[:3], "ok ")
                    refused += 1
                else:
                    self.assertTrue(self.may_be_shown(report, verdict), verdict)
                    shown += 1
        self.assertGreater(min(shown, refused), 10)

    def may_be_shown(self, report, verdict):
        if verdict.startswith("bad line"):
            bad = (report.split(b"\n") + [b""])[int(verdict.split()[2]) - 1]
            return bad.startswith(b"schedule ") or b"\nschedule " not in report
        return verdict.startswith(("ok ", "bad race ", "bad counts"))

    def test_the_longest_location_and_line(self):
        location = b"f" * 4086 + b":1"
        trace = b"A|w(x)|" + location + b"\nB|w(x)|\n"
        [section] = sections(trace, shb.report(trace, True))
        self.assertEqual(section.group.pairs[0].locations, (b"", location))

    def test_a_long_schedule_is_passed_over_in_pieces(self):
        events = b"".join(b" %d" % k for k in range(1, 20001))
        lines = Lines(io.BytesIO(b"schedule 20000:" + events + b"\nend\n"))
        self.assertEqual((lines.pass_schedule(), lines.number, lines.line), (0, 1, b"end\n"))


class Refused(program.Case):
    TRACE = b"A|r(a)|1\nB|r(b)|2\nA|w(x)|3\nB|w(x)|4\nB|r(y)|5\nA|acq(x)|6\n"

    def refused(self, report):
        """Why a report of the trace isn't taken."""
        with self.assertRaises((BadReport, words.Refused)) as found:
            sections(self.TRACE, report)
        return str(found.exception)

    def test_words_by_hand(self):
        report = shb.report(self.TRACE, True)
        self.assertIn(b"schedule 2: 1 2\n", report)
        other = "the trace isn't the one that `shb` read: it was changed in between"
        race = "race 1 of the report: "
        for old, new, said in (
            (b"first A|w(x)|3", b"first A|w(x)|9", "the places that the report begins with aren't those "
                                                   "of its races"),
            (b"second B|w(x)|4", b"second C|w(x)|4", other),
            (b"race 1: 3 4", b"race 1: 1 4", other),
            (b"race 1: 3 4", b"race 1: 4 3",
             race + "4 and 3 aren't two events of the trace, the earlier first"),
            (b"race 1: 3 4", b"race 1: 3 7",
             race + "3 and 7 aren't two events of the trace, the earlier first"),
            (b"race 1: 3 4", b"race 1: 0 4",
             race + "0 and 4 aren't two events of the trace, the earlier first"),
            (b"first A|w(x)|3", b"first B|w(x)|3", race + "the events 3 and 4 don't conflict"),
            (b"first A|w(x)|3", b"first A|w(z)|3", race + "the events 3 and 4 don't conflict"),
            (b"first A|w(x)|3\nsecond B|w(x)|4", b"first A|r(x)|3\nsecond B|r(x)|4",
             race + "the events 3 and 4 don't conflict"),
            (b"first A|w(x)|3", b"first A|acq(x)|3",
             "line 9 of the report is `first A|acq(x)|3`; it should be `first ACCESS`"),
            (b"race 1: 3 4", b"race 2: 3 4",
             "line 8 of the report is `race 2: 3 4`; it should be `race 1: I J`"),
            (b"schedule 2: 1 2", b"schedule x: 1 2",
             "line 11 of the report is `schedule x: 1 2`; it should be `schedule N: N EVENTS`"),
            (b"at 3", b"at 4", "the places that the report begins with aren't those of its races"),
            (b"end\n", b"end", "line 12 of the report is cut off: `end`; it should be `end`"),
            (b"end\n", b"", "line 12 of the report is missing; it should be `end`"),
            (b"end\n", b"end\n\n", "line 13 of the report comes after `end`"),
            (b"shb-report 2", b"shb-report 3", "line 1 of the report is `shb-report 3`; it should be "
                                               "`shb-report 2`"),
            (b"shb-report 2", b"\x1b[31m\xff", "line 1 of the report is `\\x1b[31m\\xff`; it should be "
                                               "`shb-report 2`"),
            (b"shb-report 2", b"x" * 70, f"line 1 of the report is `{'x' * 58}..`; it should be "
                                         "`shb-report 2`"),
            (b"shb-report 2", b"x" * 5000, f"line 1 of the report is too long: `{'x' * 58}..`; it should be "
                                           "`shb-report 2`"),
            (b"races 1", b"races " + b"9" * 21, f"line 3 of the report is `races {'9' * 21}`; it should "
                                                "be `races R`"),
        ):
            self.assertIn(old, report)
            self.assertEqual(self.refused(report.replace(old, new)), said)

    def test_truncated(self):
        report = shb.report(self.TRACE, True)
        for end in range(0, len(report), 3):
            self.refused(report[:end])

    def test_random_bytes(self):
        pick = random.Random(3)
        for _ in range(30):
            self.refused(bytes(pick.choices(range(256), k=pick.randrange(1, 300))) + b"!")

    def test_other_encodings(self):
        for encoding in ("utf-16", "utf-32", "utf-8-sig"):
            self.refused(shb.report(self.TRACE, True).decode().encode(encoding))

    def test_numbers_without_end(self):
        for line in (b"races " + b"9" * 4000, b"races 18446744073709551615", b"places 99999999999999999999"):
            report = re.sub(rb"\n%b 1\n" % line.split()[0], b"\n" + line + b"\n",
                            shb.report(self.TRACE, True))
            self.assertIn(line, report)
            self.refused(report)

    def test_a_report_without_end(self):
        with open("/dev/zero", "rb") as zeros, \
                self.assertRaisesRegex(BadReport, "line 1 of the report is too long"):
            Report(zeros)
