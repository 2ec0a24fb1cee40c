"""Schedules of the races that a page shows: `shb places` makes them of the page's trace, and `shb check`
judges them."""

import json
import os
import re
import sys

import recorder

EXAMPLE = recorder.SOURCES.parent / "examples" / "account.c"
# Each counter is used by two of the threads, on a line of its own.
MANY, THREADS = 512, 64
USE = "    if (self == {} || self == {}) v{}++;".format
LINES = "\n".join(USE(number % THREADS, (number + 1) % THREADS, number) for number in range(MANY))
WIDE = f"""#include <pthread.h>
long {", ".join(f"v{number}" for number in range(MANY))};
void *work(void *given) {{
    long self = (long)given;
{LINES}
    return 0;
}}
int main(void) {{
    pthread_t t[{THREADS}];
    for (long i = 0; i < {THREADS}; i++) pthread_create(&t[i], 0, work, (void *)i);
    for (long i = 0; i < {THREADS}; i++) pthread_join(t[i], 0);
    return 0;
}}
"""
SMALL = "import sys; sys.path.insert(0, sys.argv[1]); from shb_view import view; " \
        "view.MOST_REPORT = int(sys.argv[2]); " \
        "from shb_record.command import main; sys.exit(main(sys.argv[3:]))"


class Schedules(recorder.Case):
    def record(self, source=EXAMPLE, shb=recorder.SHB, starts=None):
        """The status and what was said of a program; places.json; the page, and what its groups are drawn
        from."""
        program = self.folder / source.stem
        flags = ["-w", "-g", "-O1", "-fsanitize=thread", "-pthread"]
        recorder.must(recorder.call("gcc", *flags, source, "-o", program))
        words = [*(starts or [recorder.COMMAND]), "--until-found", "10", "-o", "out", program]
        ran = recorder.call(*words, env={**os.environ, "SHB": str(shb or recorder.SHB)}, cwd=self.folder)
        document = json.loads((self.folder / "out" / "places.json").read_text())
        [page] = (path.read_text() for path in (self.folder / "out").glob("run*.html"))
        data = re.search('<script type="application/json" id="data">(.*?)</script>', page)[1]
        return ran.returncode, ran.stderr.decode(), document, page, json.loads(data)["groups"]

    def with_fake(self, words, answer):
        """The same where the analyser itself says nothing to these words, but this is done."""
        path = self.folder / "fake"
        path.write_text(f'#!/bin/sh\ncase "$*" in {words}) {answer} ;; esac\nexec {recorder.SHB} "$@"\n')
        path.chmod(0o755)
        return self.record(shb=path)

    def judged(self, command):
        """What a command of a page says in the folder in which the program ran."""
        (self.folder / "bin").mkdir()
        (self.folder / "bin" / "shb").symlink_to(recorder.SHB)
        how = {**os.environ, "PATH": f"{self.folder / 'bin'}:{os.environ['PATH']}"}
        return recorder.must(recorder.call("sh", "-c", command, cwd=self.folder, env=how)).stdout

    def test_the_example(self):
        """Text and page have the command that makes the schedule and judges it, places.json has the schedule
        itself."""
        status, said, document, page, [drawn] = self.record()
        [group] = document["groups"]
        trace, schedule = self.folder / "out" / group["trace"], group["schedule"]
        command = f"shb places --variables {trace} | shb check {trace}"
        words = "Verified: every race on the page has a schedule that `shb check` accepts. Check again: "
        self.assertIn(f"shb-record: {words}`{command}`.\n", said)
        self.assertEqual(drawn["again"][-1], ["recompute and check its schedule", command])
        self.assertIn("`shb check` found the schedule of race ", drawn["note"])
        self.assertEqual((status, self.judged(command)), (66, b"ok 1\n"))
        report = self.report_of(trace, schedule)
        verdict = recorder.must(recorder.call(recorder.SHB, "check", trace, input=report)).stdout
        self.assertEqual((verdict, schedule["is_checked"]), (b"ok 1\n", True))
        self.assertEqual(schedule["length"], len(schedule["events"]))

    def report_of(self, trace, schedule):
        """A report of one race, with the schedule that places.json has of it."""
        lines = [b"", *trace.read_bytes().splitlines()]
        first, second = (lines[event] for event in schedule["race"])
        counts = recorder.must(recorder.call(recorder.SHB, "places", trace)).stdout.splitlines()[1]
        places = [line.split(b"|")[2] for line in (first, second)]
        events = b"".join(b" %d" % event for event in schedule["events"])
        race = b"race 1: %d %d" % tuple(schedule["race"])
        return b"\n".join([b"shb-report 2", counts, b"races 1", b"places 1", b"place 1: 1",
                           b"at %b\nand %b" % tuple(places), race, b"first %b\nsecond %b" % (first, second),
                           b"schedule %d:%b" % (schedule["length"], events), b"end\n"])

    def test_many_threads_and_groups(self):
        source = self.folder / "wide.c"
        source.write_text(WIDE)
        _, said, document, page, _ = self.record(source)
        self.assertEqual(document["summary"]["places"], MANY)
        self.assertIn("Verified: every race on the page has a schedule that `shb check` accepts.", said)
        self.assertTrue(all(group["schedule"]["is_checked"] for group in document["groups"][:200]))
        self.assertEqual((len(document["groups"]), page.count("<h2 ")), (MANY, MANY))
        self.assertLess(len(page.encode()), 8_000_000)

    def test_schedules_end_before_their_races(self):
        """All 12 events of the example would take 84 bytes; those before its race take fewer."""
        *_, document, _, _ = self.record(starts=[sys.executable, "-c", SMALL, recorder.COMMAND.parent, "80"])
        self.assertTrue(document["groups"][0]["schedule"]["is_checked"])

    def test_a_bad_verdict(self):
        """Nothing is shown in the order of such a schedule, and the status is that of a failed check."""
        made = self.with_fake("check*", "cat > /dev/null; echo bad race 1; exit 5")
        status, said, document, page, [drawn] = made
        words = "`shb check` finds the schedules of this page bad: bad race 1. None is shown."
        self.assertRegex(said, f"shb-record: run [0-9]+, process [0-9]+: {re.escape(words)}\n")
        self.assertIn(f'<p class="verdict bad"><code>shb check</code>{words[11:]}</p>', page)
        self.assertEqual((status, "schedule" in document["groups"][0], drawn["again"][2:]), (125, False, []))
        self.assertIn("events are shown in the order of the trace", drawn["note"])

    def test_why_there_are_no_schedules(self):
        """The places of the run stand: they are those of its own list."""
        small = [sys.executable, "-c", SMALL, recorder.COMMAND.parent, "20"]
        for made, words in (
                (self.record(starts=small), "No schedules were made, since they would take over 100 MB."),
                (self.with_fake("'places --variables'", "echo no room >&2; exit 4"),
                 "No schedules were made: `shb places --variables` ended with status 4: no room")):
            status, said, document, page, [drawn] = made
            self.assertIn(f"shb-record: {words}\n", said)
            command = "shb places --variables"
            self.assertIn(words.replace(f"`{command}`", f"<code>{command}</code>"), page)
            self.assertEqual((status, drawn["again"][2:]), (66, []))
            self.assertNotIn("schedule", document["groups"][0])
