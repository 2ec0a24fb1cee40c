"""What a farm prints and writes, and its statuses."""

import gzip
import lzma
import os
import re
import shutil
import subprocess
import sys
from unittest import mock

import farm
from farm import BAD, BAD_WORDS, CLEAN, OTHER_ORDER, RACE
from shb_common.words import Refused
from shb_farm import command, merging
from shb_farm.passes import Pass, key_of

FULL_TEXT = f"""\
traces 5 reports 3 refused 2 missing 0
places 2 unknown 1 known 1

traces  state    first  second  variables  example
2       unknown  a.c:1  b.c:2   x          one.std
1       known    k.c:1  k.c:2   y          three.std

refused  bad.std   {BAD_WORDS}
refused  gone.std  No such file or directory
"""
FULL_PLACES = f"""\
traces	state	first	second	example	report	variables
2	unknown	a.c:1	b.c:2	one.std	reports/{key_of('one.std')}.report	x
1	known	k.c:1	k.c:2	three.std		y
"""
FULL_TRACES = f"""\
trace	outcome	places	words	seconds	MiB
bad.std	refused		{BAD_WORDS}	S	M
gone.std	refused		No such file or directory		
one.std	report	1	events 2 threads 2 locks 0 variables 1	S	M
three.std	report	2	events 4 threads 2 locks 0 variables 2	S	M
two.std	report	0	events 2 threads 1 locks 0 variables 1	S	M
"""
ONE_REPORT = b"""\
shb-report 2
events 2 threads 2 locks 0 variables 1
races 1
places 1
place 1: 1
at a.c:1
and b.c:2
race 1: 1 2
first T1|w(x)|a.c:1
second T2|w(x)|b.c:2
end
"""


class Tables(farm.Case):
    def test_all_tables(self):
        self.trace("one.std", RACE)
        self.trace("two.std", CLEAN)
        self.trace("three.std", OTHER_ORDER + b"T1|w(y)|k.c:2\nT2|w(y)|k.c:1\n")
        self.trace("bad.std", BAD)
        self.trace("no-trace.txt", BAD)
        (self.traces / "gone.std").symlink_to("nowhere")
        answer = self.farm("--known", self.known(b"k.c:1\tk.c:2\n"))
        self.assertEqual((answer.status, answer.out), (1, FULL_TEXT))
        for name, wanted in (("places.txt", FULL_TEXT), ("places.tsv", FULL_PLACES),
                             ("traces.tsv", FULL_TRACES),
                             ("unknown.places", "a.c:1\tb.c:2\tx\n")):
            self.assertEqual(re.sub(r"\t\d+\.\d\d\t\d+\n", "\tS\tM\n", (self.out / name).read_text()), wanted)
        self.assertEqual(
            [path.name for path in (self.out / "reports").glob("*.report")], [f"{key_of('one.std')}.report"])
        self.assertEqual((self.out / "reports" / f"{key_of('one.std')}.report").read_bytes(), ONE_REPORT)
        self.assertEqual(list((self.out / "tmp").iterdir()), [])

    def test_a_trace_without_an_event_is_named(self):
        """What wrote it may have died."""
        self.trace("empty.std", b"")
        answer = self.farm()
        self.assertEqual((answer.status, answer.out.splitlines()[-1]),
                         (0, "report  empty.std  it has no events"))

    def test_no_trace(self):
        self.trace("trace.txt", RACE)
        self.assertEqual(self.farm(), (4, "", f"shb-farm: {self.traces}: there is no trace in this folder "
                                              "and below (NAME.std, NAME.std.gz or NAME.std.xz)\n"))
        (self.traces / "nightly").symlink_to("not mounted")
        answer = self.farm()
        self.assertEqual(
            (answer.status, self.ends()), (5, {"nightly": ("refused", "No such file or directory")}))

    def test_a_program_that_writes_no_whole_report(self):
        self.trace("race.std", RACE)
        said = {"true": "line 1 of the report is missing; it should be `shb-report 2`",
                "head -n -1": "line 11 of the report is missing; it should be `end`",
                "head -c -1": "line 11 of the report is cut off: `end`; it should be `end`",
                "sed /^second/d": "line 10 of the report is `end`; it should be `second ACCESS`",
                "sed 's/^second T2/second T1/'": "race 1 of the report: the events 1 and 2 don't conflict",
                "sed 's/^and .*/and c.c:3/'": "the places that the report begins with aren't those of its "
                                              "races"}
        for number, (words, wanted) in enumerate(said.items()):
            shb = self.script(f"shb{number}", f"{farm.SHB} \"$@\" | {words}\n")
            answer = self.farm("--memory", "256", shb=shb)
            self.assertEqual((answer.status, self.ends()["race.std"]),
                             (2, ("missing", f"`shb` wrote no whole report: {wanted}")))

    def test_a_report_to_be_kept_that_is_not_whole(self):
        self.trace("race.std", RACE)
        shb = self.script("cut", f'[ -e "$0.once" ] || {{ touch "$0.once"; exec {farm.SHB} "$@"; }}\n'
                                 f'{farm.SHB} "$@" | head -n -1\n')
        self.assertEqual(self.farm("--memory", "256", shb=shb).status, 2)
        self.assertEqual(self.table("places.tsv"),
                         [["1", "unknown", "a.c:1", "b.c:2", "race.std", "missing", "x"]])
        self.assertEqual(list((self.out / "reports").glob("*.report")), [])

    def test_a_long_location_does_not_make_all_lines_long(self):
        self.trace("race.std", RACE + b"T1|w(y)|%s\nT2|w(y)|k.c:2\n" % (b"l" * 3000))
        lines = self.farm().out.splitlines()
        self.assertEqual([len(line) > 200 for line in lines], [False] * 5 + [True])

    def test_statuses(self):
        known = self.known(b"b.c:2\ta.c:1\n")
        self.trace("clean.std", CLEAN)
        self.assertEqual(self.farm().status, 0)
        self.trace("race.std", RACE)
        self.assertEqual(self.farm().status, 1)
        self.assertEqual(self.farm("--known", known).status, 0)
        self.trace("bad.std", BAD)
        self.assertEqual(self.farm().status, 1)
        self.assertEqual(self.farm("--known", known).status, 5)
        (self.traces / "gone.std").symlink_to("nowhere")
        self.assertEqual(self.farm("--known", known).status, 5)
        self.assertEqual(self.farm().status, 1)
        self.assertEqual(self.farm(shb=self.script("killed", "kill -9 $$\n")).status, 2)

    def test_what_cannot_run_has_a_status_of_its_own(self):
        self.trace("race.std", RACE)
        for words, status, said in (
                (["--engine", "none"], 3, "argument --engine: invalid choice: 'none'"),
                (["--memory", "0"], 3, "argument --memory: it takes a number from 1"),
                (["--memory", "x"], 3, "argument --memory: it takes a number from 1"),
                (["--known", self.folder / "none"], 4, f"{self.folder}/none: No such file or directory"),
                (["--known", self.known(b"# one\nno tab\n")], 4,
                 f"{self.folder}/known, line 2: a place is two locations or functions and a variable, with "
                 "tabs between them")):
            answer = self.farm(*words)
            self.assertEqual((answer.status, answer.out), (status, ""))
            self.assertIn(f"shb-farm: {said}", answer.err)
        answer = self.farm(shb=self.folder / "none")
        self.assertEqual(answer, (4, "", f"shb-farm: {self.folder}/none: no such program\n"))

    def test_where_standard_output_is_full_or_closed(self):
        self.trace("race.std", RACE)
        run = lambda script: subprocess.run(["sh", "-c", script, "sh", *self.words("--jobs", "1")],
                                            env=self.environment(),
                                            stdout=subprocess.PIPE, stderr=subprocess.PIPE,
                                            timeout=farm.SECONDS)
        ran = run('exec "$@" > /dev/full')
        self.assertEqual((ran.returncode, ran.stderr.splitlines()[-1]),
                         (4, b"shb-farm: standard output: No space left on device"))
        ran = run('exec "$@" >&-')
        # there is an unknown place; all else stands from the first run
        self.assertEqual((ran.returncode, ran.stderr), (1, b""))
        ran = run('exec "$@" <&- 2>&-')
        self.assertEqual((ran.returncode, ran.stdout.splitlines()[0]),
                         (1, b"traces 1 reports 1 refused 0 missing 0"))
        for path in self.out.rglob("*.outcome"):
            path.unlink()
        self.assertEqual(run('exec "$@" <&- >&- 2>&-').returncode, 1)
        self.assertEqual(self.ends()["race.std"][0], "report")

    def test_a_full_disk(self):
        """Its jobs say so too, each fault in a line."""
        if (os.getuid() or subprocess.run(["unshare", "--mount", "true"],
                                          stderr=subprocess.DEVNULL).returncode):
            self.skipTest("only who may mount folders can fill a disk")
        for number in range(12):
            self.trace(f"{number}.std", RACE)
        self.out.mkdir()
        for room in 48, 64:
            ran = subprocess.run(["unshare", "--mount", "sh", "-c", f"mount -t tmpfs -o size={room}k none "
                                  f'{self.out}; exec "$@"', "sh", *self.words("--jobs", "2")],
                                 env=self.environment(), capture_output=True, timeout=farm.SECONDS)
            said = ran.stderr.decode()
            self.assertEqual((ran.returncode, "Traceback" in said), (4, False), said)
            self.assertIn(".outcome: No space left on device\n", said)

    def test_a_fault_of_the_farm_itself_is_no_unknown_place(self):
        script = ("import sys\nfrom shb_farm import command\ncommand.run = "
                  "None\nsys.exit(command.main(sys.argv[1:]))")
        ran = subprocess.run([sys.executable, "-c", script, *self.words()[2:]],
                             env=self.environment(PYTHONPATH=farm.HERE.parent),
                             stdout=subprocess.PIPE, stderr=subprocess.PIPE, timeout=farm.SECONDS)
        self.assertEqual((ran.returncode, ran.stdout), (4, b""))
        self.assertTrue(ran.stderr.startswith(b"shb-farm: Traceback "), ran.stderr)
        self.assertTrue(ran.stderr.endswith(b"TypeError: 'NoneType' object is not callable\n"), ran.stderr)

    def test_a_folder_that_is_not_there(self):
        self.traces.rmdir()
        self.assertEqual(self.farm(), (4, "", f"shb-farm: {self.traces}: No such file or directory\n"))

    def test_a_program_that_is_not_there(self):
        said = (rf"^there is no analyser at {self.folder}/bin/shb; .* `make build` makes it, and SHB=PROGRAM "
                r"names another$")
        with mock.patch.object(command, "ANALYSER", f"{self.folder}/bin/shb"), \
             mock.patch.dict(os.environ, SHB=""), self.assertRaisesRegex(Refused, said):
            command.pass_of(command.arguments([str(self.traces), str(self.out)]), "room")

    def test_an_engine_that_is_not_there(self):
        self.trace("race.std", RACE)
        answer = self.farm("--engine", "slurm", PATH=self.folder)
        self.assertEqual(
            (answer.status, answer.err.splitlines()[-1]), (4, "shb-farm: sbatch isn't installed"))

    def test_unknown_places_come_first(self):
        self.trace("a.std", RACE)
        self.trace("b.std",
                   RACE + b"T1|w(y)|k.c:1\nT2|w(y)|k.c:1\nT1|w(z)|k.c:3\nT2|w(z)|k.c:3\nT1|w(z)|k.c:2\n")
        self.farm("--known", self.known(b"a.c:1\tb.c:2\n"))
        self.assertEqual([line[:4] for line in self.table("places.tsv")], [
            ["1", "unknown", "k.c:1", "k.c:1"], ["1", "unknown", "k.c:2", "k.c:3"],
            ["1", "unknown", "k.c:3", "k.c:3"],
            ["2", "known", "a.c:1", "b.c:2"]])

    def test_the_example_is_the_smallest_trace(self):
        self.trace("a.std", RACE + RACE)
        self.trace("c.std", RACE)
        self.trace("b.std", OTHER_ORDER)
        self.farm()
        self.assertEqual(self.table("places.tsv"), [
            ["3", "unknown", "a.c:1", "b.c:2", "b.std", f"reports/{key_of('b.std')}.report", "x"]])

    def test_help(self):
        answer = self.farm("--help")
        self.assertEqual((answer.status, answer.err), (0, ""))
        self.assertTrue(answer.out.startswith("Usage: shb-farm "))


class Names(farm.Case):
    def test_names_that_are_hard_for_a_shell(self):
        names = ["a b.std", "quote'.std", 'double".std', "$HOME.std", "-x.std", "back\\slash.std",
                 "sub folder/deep/x.std",
                 "*.std", "line\nbreak.std", "tab\t.std", os.fsdecode(b"byte\xff.std"), "{}.std", ";true.std"]
        for name in names:
            self.trace(name, RACE)
        self.assertEqual(self.farm().status, 1)
        wanted = {name.replace("\t", "\\t").replace("\n", "\\n") for name in names}
        self.assertEqual({name: end[0] for name, end in self.ends().items()}, dict.fromkeys(wanted, "report"))
        self.assertEqual(self.table("places.tsv")[0][0], str(len(names)))

    def test_what_is_no_file(self):
        (self.traces / "folder.std").mkdir()
        self.trace("folder.std/inner.std", CLEAN)
        os.mkfifo(self.traces / "pipe.std")
        self.assertEqual(self.farm().status, 5)
        self.assertEqual({name: end[1] for name, end in self.ends().items() if end[0] == "refused"},
                         {"pipe.std": "not a regular file"})
        self.assertIn("folder.std/inner.std", self.ends())

    def test_links_to_folders_are_followed(self):
        """Each folder once, by its own name where it has one; also in a circle."""
        far = self.folder / "far"
        (far / "deep").mkdir(parents=True)
        (far / "deep" / "race.std").write_bytes(RACE)
        (far / "up").symlink_to(far)
        self.trace("plain/clean.std", CLEAN)
        (self.traces / "a link").symlink_to(self.traces / "plain")
        (self.traces / "nightly").symlink_to(far)
        self.out.mkdir()
        (self.traces / "out").symlink_to(self.out)
        (self.out / "reports").mkdir()
        (self.traces / "reports").symlink_to(self.out / "reports")
        (self.out / "reports" / "window-0001.std").write_bytes(BAD)
        answer = self.farm("--links")
        self.assertEqual(
            (answer.status, list(self.ends())), (1, ["nightly/deep/race.std", "plain/clean.std"]), answer.err)

    def test_results_beside_the_traces_are_refused(self):
        """And nothing is written there."""
        self.trace("below/race.std", RACE)
        for out in (self.traces, self.traces / "below" / "..", self.folder):
            answer = self.farm(out=out)
            self.assertEqual((answer.status, answer.err),
                             (4, f"shb-farm: {out}: TRACES is this folder or below it; name another OUT, "
                                 "which may be below TRACES\n"))
        self.assertEqual(
            sorted(path.name for path in self.folder.rglob("*")), ["below", "race.std", "traces"])
        self.assertEqual(self.farm(out=self.traces / "out").status, 1)

    def test_links_that_lead_out_are_refused(self):
        """They aren't read: of a stranger's archive any file could be shown."""
        far = self.folder / "far"
        far.mkdir()
        (far / "secret.std").write_text("secret\n")
        self.trace("clean.std", CLEAN)
        (self.traces / "inside.std").symlink_to("clean.std")
        (self.traces / "p.std").symlink_to(far / "secret.std")
        (self.traces / "q").symlink_to(far)
        answer = self.farm()
        self.assertEqual((answer.status, self.ends()), (5, {
            **dict.fromkeys(
                ["clean.std", "inside.std"], ("report", "events 2 threads 1 locks 0 variables 1")),
            **dict.fromkeys(
                ["p.std", "q"],
                ("refused", "it is a link that leads out of the folder; --links follows it"))}), answer.err)
        self.assertFalse(
            any(b"secret\n" in path.read_bytes() for path in self.out.rglob("*") if path.is_file()))
        self.assertEqual(self.farm("--links").status, 5)
        self.assertIn("it is `secret`", self.ends()["p.std"][1])

    def test_packed_traces(self):
        for name, pack in (("a.std.gz", gzip.compress), ("b.std.xz", lzma.compress)):
            self.trace(name, pack(RACE))
        self.trace("cut.std.gz", gzip.compress(RACE)[:-9])
        self.trace("cut.std.xz", lzma.compress(RACE)[:-9])
        self.trace("no.std.gz", RACE)
        self.trace("no.std.xz", RACE)
        self.trace("damaged.std.gz", gzip.compress(bytes(range(256)) * 9)[:30] + b"x" * 99)
        self.trace("bad.std.gz", gzip.compress(BAD))
        self.trace("a.gz", RACE)
        self.assertEqual(self.farm().status, 1)
        self.assertEqual(self.table("places.tsv")[0][:5],
                         ["2", "unknown", "a.c:1", "b.c:2", min(("a.std.gz", "b.std.xz"), key=self.size)])
        ends = self.ends()
        self.assertEqual({name: end[0] for name, end in ends.items()}, {
            "a.std.gz": "report", "b.std.xz": "report", "bad.std.gz": "refused", "cut.std.gz": "refused",
            "cut.std.xz": "refused",
            "damaged.std.gz": "refused", "no.std.gz": "refused", "no.std.xz": "refused"})
        self.assertEqual((ends["bad.std.gz"][1], ends["no.std.gz"][1]),
                         (BAD_WORDS, "it can't be unpacked: gzip: stdin: not in gzip format"))
        for name in ("cut.std.gz", "cut.std.xz", "damaged.std.gz", "no.std.gz", "no.std.xz"):
            self.assertTrue(ends[name][1].startswith("it can't be unpacked: "), ends[name])
        self.assertEqual(list((self.out / "tmp").iterdir()), [])

    def size(self, name):
        return (self.traces / name).stat().st_size

    def test_a_trace_that_cannot_be_read_is_refused_and_not_tried(self):
        """It has no size then. (Root reads all files, so the answer of the system is a stand-in.)"""
        self.trace("race.std", RACE)
        work = Pass("", "", str(self.traces), str(self.out), "")
        self.assertEqual(merging.ending_of(work, "race.std").size, len(RACE))
        with mock.patch.object(merging.os, "access", lambda path, mode: not str(path).endswith("race.std")):
            self.assertEqual(merging.ending_of(work, "race.std"),
                             merging.Ending("refused", "Permission denied", [], None))

    def test_names_that_are_long_or_lie_in_one_another(self):
        """Each has an outcome and a report of its own."""
        names = ["n" * 251 + ".std", "x.std", "x.std.outcome/y.std", "z.std", "z.std.report/w.std", "a/b.std",
                 "a_b.std"]
        for number, name in enumerate(names):
            self.trace(name, RACE.replace(b"a.c", b"%d.c" % number))
        answer = self.farm()
        self.assertEqual((answer.status, {name: end[0] for name, end in self.ends().items()}),
                         (1, dict.fromkeys(names, "report")), answer.err)
        reports = {row[5] for row in self.table("places.tsv")}
        self.assertEqual((len(reports), [(self.out / report).is_file() for report in reports]),
                         (len(names), [True] * len(names)))

    def test_outcomes_in_the_folder_of_the_traces(self):
        self.trace("race.std", RACE)
        out = self.traces / "out"
        self.assertEqual(self.farm(out=out).status, 1)
        shutil.copy(self.traces / "race.std", out / "copy.std")
        self.assertEqual(self.farm(out=out).status, 1)
        self.assertEqual(list(self.ends(out)), ["race.std"])

    def test_locations_that_are_hard_for_a_table(self):
        self.trace("race.std", b"T1|w(x)|a\tb|\x1b[31mc\nT2|w(x)|\xff\n")
        answer = self.farm()
        self.assertIn("1       unknown  a\\tb|\\x1b[31mc  \\xff    x          race.std\n", answer.out)
        self.assertEqual(self.table("places.tsv")[0][2:4], ["a\\tb|\x1b[31mc", "\udcff"])
        self.assertEqual(self.farm("--known", self.out / "unknown.places").status, 0)


class Installed(farm.Case):
    def test_a_copy_finds_its_parts(self):
        """Beside `bin/` as in a checkout, and below `lib/` as installed, through a link to the command."""
        self.trace("race.std", RACE)
        here = farm.HERE.parent
        for root, command in (("checkout", "python/shb-farm"), ("prefix", "lib/shb/shb-farm")):
            root = self.folder / root
            for package in ("shb_farm", "shb_common"):
                shutil.copytree(here / package, (root / command).parent / package)
            for name, source in ((command, here / "shb-farm"), ("bin/shb", farm.SHB)):
                (root / name).parent.mkdir(parents=True, exist_ok=True)
                farm.put_program(source, root / name)
            link = self.folder / f"link-{root.name}"
            link.symlink_to(root / command)
            environment = {name: value for name, value in os.environ.items() if name != "SHB"}
            ran = subprocess.run([link, self.traces, root / "out"], env=environment, capture_output=True,
                                 timeout=farm.SECONDS)
            self.assertEqual(ran.returncode, 1, ran.stderr)
