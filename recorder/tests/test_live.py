"""A program that runs on is looked at while it runs, in segments of its record."""

import json
import os
import re
import signal
import subprocess

import recorder

from shb_common.stacks import Stacks

SOURCE = recorder.PROGRAMS / "segments.c"
LINES = list(enumerate(SOURCE.read_text().splitlines(), 1))
RACING = {f"segments.c:{number}" for number, line in LINES if "RACE" in line}
BLOCK = next(f"segments.c:{number}" for number, line in LINES if "calloc" in line)
MOST = 8 + 1  # segments that the recorder keeps, and the one that it writes


class Live(recorder.Case):
    def program(self):
        out = self.folder / "segments"
        recorder.must(recorder.call("gcc", "-w", "-g", "-O1", "-fsanitize=thread", "-pthread", SOURCE, "-o",
                                    out))
        return out

    def records(self):
        """The segments that are there, by their numbers."""
        return dict(sorted((int(path.name.split(".")[-2]), path) for path in self.folder.rglob("*.rec")))

    def live(self, then, *words):
        """Looks at the program, with segments of 5,000 records, until both races are shown; then does this.
        Returns the status and all that was said."""
        words = [recorder.COMMAND, "--live", *words, self.program(), "0"]
        with subprocess.Popen([str(word) for word in words], cwd=self.folder, stdin=subprocess.PIPE,
                              stderr=subprocess.PIPE, text=True,
                              env={**os.environ, "SHB": str(recorder.SHB), "SHB_SEGMENT": "5000"}) as ran:
            said = []
            while sum("RACE" in line for line in said) < len(RACING):
                said.append(ran.stderr.readline())
                self.assertTrue(said[-1], said)
            self.assertIsNone(ran.poll())
            self.assertLess(len(self.records()), 2 * MOST)  # the listing of a folder may take its time
            then(ran)
            said += ran.stderr.readlines()
            return ran.wait(recorder.SECONDS), "".join(said)

    def check_shown(self, said):
        """Each place is shown once, and nothing that a lock orders is there. Where a segment was dropped
        before any was looked at, the block has an address."""
        self.assertEqual(sorted(re.findall(r"(?m)^     races with (.*)$", said)), sorted(RACING), said)
        names = re.findall(r"(?m)^\d+\. (\w[^#: ]*(?::\d+)?)", said)
        self.assertEqual({BLOCK if name.startswith("0x") else name for name in names}, {"racing", BLOCK},
                         said)
        rows = [line.split("\t")
                for line in (self.folder / "segments.shb" / "places.tsv").read_text().splitlines()[1:]]
        self.assertEqual({tuple(row[:2]) for row in rows}, {(place, place) for place in RACING})
        self.assertRegex(said, r"(?m)^shb-record: [\d,]+ segments with [\d,]+ events looked at$")
        self.assertIn("races of accesses in two segments are missed", said.splitlines()[-2])

    def test_places_are_shown_while_it_runs(self):
        status, said = self.live(lambda ran: ran.stdin.close())
        self.assertEqual(status, 66, said)
        self.check_shown(said)
        found = json.loads((self.folder / "segments.shb" / "places.json").read_text())
        self.assertEqual((found["summary"]["places"], found["summary"]["unknown"],
                          found["summary"]["status"]), (2, 2, 66))
        self.assertEqual(list(self.records()), [])

    def test_a_signal_ends_it_with_what_was_found(self):
        status, said = self.live(lambda ran: ran.send_signal(signal.SIGTERM))
        self.assertEqual((status, "stopped by SIGTERM" in said), (66, True), said)
        self.check_shown(said)

    def test_known_places_are_passed_over(self):
        path = self.folder / "known"
        path.write_text("".join(f"{place}\t{place}\n" for place in sorted(RACING)))
        ran = recorder.call(recorder.COMMAND, "--live", "--known", path, self.program(), "400",
                            cwd=self.folder,
                            env={**os.environ, "SHB": str(recorder.SHB), "SHB_SEGMENT": "5000"})
        said = ran.stderr.decode()
        self.assertNotEqual(ran.returncode, 66, said)
        self.assertIn("0 unknown places with races, 2 known ones skipped", said)

    def test_a_segment_with_known_places_alone_has_no_page(self):
        """The program makes one record three times, as three segments. With known places there is a second
        look at each."""
        program, record, known = (self.folder / name for name in ("status", "one.rec", "known"))
        recorder.build(recorder.PROGRAMS / "status.c", "-O1", program)
        recorder.call(program, "0", "race", env=recorder.settings(record))
        known.write_text("status.c:9\tstatus.c:9\n")
        copies = "for n in 1 2 3; do cp $0 $(echo $SHB_RECORD | sed s/%p/7/\\;s/%s/$n/); done"
        for words, status, pages in ((), 66, 1), (("--known", known), 0, 0):
            ran = recorder.call(recorder.COMMAND, "--live", "-o", f"out{pages}", *words, "sh", "-c", copies,
                                record, cwd=self.folder,
                                env={**os.environ, "SHB": str(recorder.SHB)})
            said = ran.stderr.decode()
            self.assertEqual(ran.returncode, status, said)
            self.assertIn("2 segments had places of earlier ones alone, and no page\n", said)
            self.assertEqual(len(re.findall(r"(?m)^shb-record: page: .*run1\.7\.1\.html$", said)), pages,
                             said)
            self.assertEqual({path.stem for path in (self.folder / f"out{pages}").glob("run*")}, {"run1.7.1"})

    def test_the_segments_of_a_record(self):
        """They are few, the last of many, and each is a record of its own: with its threads' names, and no
        race of what a lock orders that was taken before it began."""
        settings = recorder.settings(self.folder / "r.%p.%s.rec", SHB_SEGMENT="1000",
                                     LD_LIBRARY_PATH=str(recorder.BUILT / "lib"))
        recorder.must(recorder.call(self.program(), "400", env=settings))
        records = self.records()
        self.assertEqual(list(records), list(range(max(records) + 1 - MOST, max(records) + 1)))
        self.assertGreater(max(records), 100)
        traces = [recorder.must(recorder.convert(record)).stdout for record in records.values()]
        self.assertEqual({line for trace in traces for pair in recorder.places(trace) for line in pair},
                         RACING)
        self.assertEqual({name for trace in traces for name in re.findall(rb"^(\S+?)\|[rw]\(", trace, re.M)},
                         {b"T1.writer", b"T2.reader"})

    def test_blocks_and_functions_over_the_bounds_of_segments(self):
        """A block keeps its name, and an access its stack."""
        recorder.must(recorder.call(self.program(), "16",
                                    env=recorder.settings(self.folder / "r.%p.%s.rec", SHB_SEGMENT="1000",
                                                                                LD_LIBRARY_PATH=str(
                                                                                    recorder.BUILT / "lib"))))
        left, stacks, before, found = self.folder / "left", self.folder / "stacks", [], []
        records = self.records()
        self.assertEqual(list(records), list(range(1, len(records) + 1)))
        for record in records.values():
            trace = recorder.must(recorder.convert(record, *before, "--left", left, "--stacks",
                                                   stacks)).stdout.splitlines()
            numbers = [number for number, line in enumerate(trace, 1) if BLOCK in line.decode().split("|")[1]]
            its = Stacks(stacks, len(trace))
            found += [{its.of_event(number)[0].function for number in numbers}] if numbers else []
            before = ["--blocks", left]
        self.assertGreater(len(found), 3)
        self.assertEqual(set().union(*found), {b"work"})

    def test_where_the_next_segment_cannot_be_written(self):
        """The recording ends in the segment before, and the program goes on."""
        folder = self.folder / "gone"
        folder.mkdir()
        code, program = self.folder / "gone.c", self.folder / "removes"
        code.write_text(SOURCE.read_text().replace("calloc(4, sizeof *block);", "calloc(4, sizeof *block);\n"
                                                   "    rename(\"gone\", \"moved\");"))
        recorder.must(recorder.call("gcc", "-w", "-g", "-O1", "-fsanitize=thread", "-pthread", code, "-o",
                                    program))
        settings = recorder.settings(folder / "r.%p.%s.rec", SHB_SEGMENT="1000",
                                     LD_LIBRARY_PATH=str(recorder.BUILT / "lib"))
        ran = recorder.must(recorder.call(program, "100", cwd=self.folder, env=settings))
        reason = b"the next segment of its record cannot be written"
        self.assertIn(reason, ran.stderr)
        self.assertEqual(list(self.records()), [1])
        self.assertIn(b"the recording is not the whole run: " + reason,
                      recorder.part(recorder.convert(self.records()[1])).stderr)

    def test_a_program_without_hooks(self):
        ran = recorder.call(recorder.COMMAND, "--live", "true", cwd=self.folder,
                            env={**os.environ, "SHB": str(recorder.SHB)})
        self.assertEqual(
            (ran.returncode, b"true left no record. Was it compiled and linked with" in ran.stderr),
            (125, True), ran.stderr)

    def test_words_that_do_not_go_together(self):
        for words in (["--keep"], ["--replay", "x.turns"], ["--runs", "2"], ["--until-found", "2"]):
            ran = recorder.call(recorder.COMMAND, "--live", *words, "true")
            self.assertEqual((ran.returncode, b"--live" in ran.stderr), (125, True), ran.stderr)
