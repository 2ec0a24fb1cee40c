"""Outcomes: what is kept, what is made again, and what a lost or doubled job does."""

import fcntl
import json
import os
import shutil
import signal
import subprocess
import time

import farm
from farm import BAD, CLEAN, RACE
from shb_farm import outcomes
from shb_farm.outcomes import Cost, Outcome, Place
from shb_farm.passes import key_of

COST = Cost(1.25, 4096, 34)
TEXT = rb"""shb-farm 3
["d/x\ty.std", "p1", "t1", "12:34", [1.25, 4096, 34], "report", "events 2", """ + \
    rb"""[["a", "b c", [["x y", 1, 2], ["z\udcff", 3, 4]], true], ["", "", [["v", 5, 6]], false]]]
sum """


class Files(farm.Case):
    def test_the_text_of_an_outcome(self):
        places = [Place(b"a", b"b c", {b"x y": (1, 2), b"z\xff": (3, 4)}, True),
                  Place(b"", b"", {b"v": (5, 6)}, False)]
        outcome = Outcome("d/x\ty.std", "p1", "t1", "12:34", COST, "report", "events 2", places)
        text = outcomes.text_of(outcome)
        self.assertEqual(text[:-65], TEXT)
        path = self.folder / "outcome"
        path.write_bytes(text)
        self.assertEqual(outcomes.read(path, "d/x\ty.std"), outcome)
        self.assertIsNone(outcomes.read(path, "other.std"))

    def test_what_is_not_whole_is_no_outcome(self):
        path = self.folder / "outcome"
        text = outcomes.text_of(Outcome("n", "p", "t", "1:2", COST, "refused",
                                        "words", [Place(b"sum ", b"end", {b"v": (1, 2)}, False)]))
        for number in range(len(text)):
            path.write_bytes(text[:number])
            self.assertIsNone(outcomes.read(path, "n"))
        for damaged in (text.replace(b"refused", b"report"), text + b"\n", b"\n" + text):
            path.write_bytes(damaged)
            self.assertIsNone(outcomes.read(path, "n"))
        self.assertIsNone(outcomes.read(self.folder / "none", "n"))
        self.assertIsNone(outcomes.read(self.folder, "n"))

    def test_a_sum_does_not_make_one(self):
        """Whoever can write the sum can write anything: each field is read with care."""
        fields = ["n", "p", "t", "1:2", [1.0, 2, 3], "report", "x", [["a", "b", [["v", 1, 2]], False]]]
        path = self.folder / "outcome"
        for number in range(len(fields)):
            for bad in (None, 1, "", "x", [], [float("inf"), 2, 3], [1, float("inf"), 3], [1, 2, 3], [["a"]],
                        [["a", "b", ["v"], False]], {"a": 1}):
                self.put(path, json.dumps([*fields[:number], bad, *fields[number + 1:]]))
                outcomes.read(path, "n")    # None or an outcome, and no fault
        for bad in ("", "x", "{}", "[]", "[" * 100_000, json.dumps([*fields, 1])):
            self.put(path, bad)
            self.assertIsNone(outcomes.read(path, "n"))
        self.put(path, json.dumps(fields))
        self.assertEqual(outcomes.read(path, "n").places, [Place(b"a", b"b", {b"v": (1, 2)}, False)])

    def put(self, path, text):
        lines = b"shb-farm 3\n" + text.encode() + b"\n"
        path.write_bytes(lines + b"sum " + outcomes.checksum_of(lines).encode() + b"\n")


class Again(farm.Case):
    def setUp(self):
        super().setUp()
        self.shb = self.counting()
        self.race, self.bad = self.trace("race.std", RACE), self.trace("bad.std", BAD)
        self.trace("clean.std", CLEAN)
        self.first = self.farm(shb=self.shb)
        # three lists, a full report, and the view's list
        self.assertEqual((self.first.status, self.runs()), (1, 5))

    def again(self, count, status=1):
        answer = self.farm(shb=self.shb)
        self.assertEqual((answer.status, self.runs()), (status, count))
        return answer

    def test_nothing_is_made_twice(self):
        self.assertEqual(self.again(0).out, self.first.out)

    def test_a_new_time_alone_runs_nothing(self):
        os.utime(self.race, (1, 1))
        self.again(0)
        self.again(0)

    def test_one_changed_trace_is_made_again(self):
        old = os.stat(self.bad)
        self.bad.write_bytes(b"T1|jump(x)\n")
        self.again(1)
        self.assertEqual(self.ends()["bad.std"][1], "line 1: the operation is not known; it is `T1|jump(x)`")
        self.bad.write_bytes(BAD)
        os.utime(self.bad, ns=(old.st_atime_ns, old.st_mtime_ns))
        self.assertEqual(self.again(1).out, self.first.out)

    def test_a_new_program_makes_all_anew(self):
        with open(self.shb, "a") as program:
            program.write("# another\n")
        self.assertEqual(self.again(5).out, self.first.out)

    def test_a_trace_that_is_gone_does_not_count(self):
        self.race.unlink()
        self.again(0, status=5)
        self.assertEqual(list(self.ends()), ["bad.std", "clean.std"])

    def test_a_torn_outcome_is_made_again(self):
        path = self.out / "outcomes" / f"{key_of('race.std')}.outcome"
        path.write_bytes(path.read_bytes()[:-1])
        self.assertEqual(self.again(1).out, self.first.out)

    def test_a_lost_or_cut_report_is_made_again(self):
        path = self.out / "reports" / f"{key_of('race.std')}.report"
        whole = path.read_bytes()
        path.unlink()
        self.again(2)
        path.write_bytes(whole[:-1])
        self.again(2)
        self.assertEqual(path.read_bytes(), whole)


class Rests(farm.Case):
    def test_what_a_killed_run_has_left_is_deleted_at_the_next_start(self):
        """What is locked is of a run that still works."""
        room = self.out / "tmp"
        for name in ("run-left", "run-works"):
            (room / name / "windows").mkdir(parents=True)
            (room / name / "lock").touch()
            (room / name / "windows" / "big").touch()
        self.trace("clean.std", CLEAN)
        with open(room / "run-works" / "lock") as lock:
            fcntl.flock(lock, fcntl.LOCK_EX)
            self.assertEqual(self.farm().status, 0)
            self.assertEqual([path.name for path in room.iterdir()], ["run-works"])
        self.assertEqual(self.farm().status, 0)
        self.assertEqual(list(room.iterdir()), [])


class Engines(farm.Case):
    """Stand-ins of xargs that do what an engine may do."""

    def setUp(self):
        super().setUp()
        for number in range(6):
            self.trace(f"{number}.std", RACE)
        self.trace("bad.std", BAD)
        self.xargs = shutil.which("xargs")

    def engine(self, text):
        self.script("bin/xargs", text)
        return self.farm("--memory", "256", PATH=f"{self.folder}/bin:{os.environ['PATH']}")

    def test_lost_jobs_are_missing(self):
        answer = self.engine("exit 0\n")
        self.assertEqual(answer.status, 2)
        self.assertEqual(set(self.ends().values()), {("missing", "its job didn't end")})
        self.assertIn("traces 7 reports 0 refused 0 missing 7\n", answer.out)

    def test_one_lost_job_is_missing_and_taken_up(self):
        answer = self.engine(f"grep -v '^0$' | {self.xargs} \"$@\"\n")
        self.assertEqual(answer.status, 2)
        self.assertEqual([end[0] for end in self.ends().values()].count("missing"), 1)
        self.assertEqual(self.farm().status, 1)
        self.assertIn("traces 7 reports 6 refused 1 missing 0\n", self.farm().out)

    def test_doubled_jobs_do_no_harm(self):
        plain = self.farm(out=self.folder / "plain")
        answer = self.engine(f"sed p | {self.xargs} -P 6 \"$@\"\n")
        self.assertEqual((answer.status, answer.out), (plain.status, plain.out))
        self.assertEqual(self.table("places.tsv"), self.table("places.tsv", self.folder / "plain"))

    def test_two_farms_at_once(self):
        plain = self.farm(out=self.folder / "plain")
        started = [subprocess.Popen(self.words(), env=self.environment(), stdout=subprocess.PIPE,
                                    stderr=subprocess.PIPE) for _ in "ab"]
        for farm_ in started:
            self.assertEqual(farm_.communicate(timeout=farm.SECONDS)[0].decode(), plain.out)
            self.assertEqual(farm_.returncode, 1)

    def test_an_outcome_that_cannot_be_put_in_place_is_missing(self):
        place = self.out / "outcomes" / f"{key_of('bad.std')}.outcome"
        place.mkdir(parents=True)
        answer = self.farm()
        self.assertEqual(answer.status, 2)
        self.assertEqual(self.ends()["bad.std"], ("missing", "its job didn't end"))
        self.assertRegex(answer.err, r"(?m)^shb-farm: bad\.std: .*: Is a directory$")
        place.rmdir()
        self.assertEqual(self.farm().status, 1)


class Slurm(farm.Case):
    """Stand-ins of Slurm's commands; by_hand_slurm.py has the real ones."""

    def setUp(self):
        super().setUp()
        for number in range(3):
            self.trace(f"{number}.std", RACE)
        # Runs the tasks but the last one, whose number is in the words as --array=0-LAST, and waits for them.
        self.sbatch = f"""
echo "$@" >> {self.folder}/submitted
echo 17
for word; do case $word in --array=0-*) last=${{word#--array=0-}} ;; esac; job=$word; done
k=0
while [ $k -lt ${{LOST:-$last}} ]; do SLURM_ARRAY_TASK_ID=$k sh -c "$job"; k=$((k + 1)); done
"""

    def environment(self, shb=None, **settings):
        """One that has the stand-ins first."""
        return super().environment(shb, PATH=f"{self.folder}/bin:{os.environ['PATH']}", **settings)

    def slurm(self, *words, sbatch=None, **settings):
        self.script("bin/sbatch", sbatch or self.sbatch)
        return self.farm("--engine", "slurm", "--memory", "256", *words, **settings)

    def test_all_tasks_run(self):
        plain = self.farm(out=self.folder / "plain")
        answer = self.slurm("--sbatch", "--partition='a b'", LOST=3)
        self.assertEqual((answer.status, answer.out), (1, plain.out))
        lists, kept = (self.folder / "submitted").read_text().splitlines()
        self.assertIn("--array=0-0 ", kept)     # the report of one trace
        for wanted in ("--wait ", "--array=0-2 ", "--mem=320 ", "--partition=a b ",
                       f"--output={self.out}/log/%A_%a "):
            self.assertIn(wanted, lists)

    def test_further_words(self):
        self.assertEqual(self.slurm("--sbatch", "--partition=night", LOST=3).status, 1)
        self.assertIn(" --partition=night --wrap ", (self.folder / "submitted").read_text())
        answer = self.slurm("--sbatch", "--comment='x")
        self.assertEqual((answer.status, answer.err.splitlines()[-1]),
                         (3, "shb-farm: argument --sbatch: No closing quotation in --comment='x"))

    def test_a_lost_task_is_missing_and_taken_up(self):
        """Whatever status the array has."""
        answer = self.slurm(sbatch=self.sbatch + "exit 1\n")
        self.assertEqual((answer.status, [end[0] for end in self.ends().values()]),
                         (2, ["report", "report", "missing"]))
        self.assertEqual(self.slurm(LOST=1).status, 1)

    def test_an_array_is_cancelled_by_its_name(self):
        self.script("bin/scancel", f"echo $1 > {self.folder}/cancelled\n")
        self.script("bin/sbatch", f"echo $4 > {self.folder}/name\n"
                                  f"mv {self.folder}/name {self.folder}/submitted\nsleep 600\n")
        started = subprocess.Popen(self.words("--engine", "slurm", "--memory", "256"), env=self.environment(),
                                   stdout=subprocess.DEVNULL, stderr=subprocess.DEVNULL)
        deadline = time.monotonic() + farm.SECONDS
        while not (self.folder / "submitted").exists():
            self.assertLess(time.monotonic(), deadline)
            time.sleep(0.02)
        started.terminate()
        self.assertEqual(started.wait(farm.SECONDS), 128 + signal.SIGTERM)
        name = (self.folder / "submitted").read_text().replace("--job-name=", "--name=")
        self.assertRegex(name, r"^--name=shb-farm-run-\w+\n$")
        self.assertEqual((self.folder / "cancelled").read_text(), name)

    def test_a_refusal_ends_the_farm_at_once(self):
        answer = self.slurm(sbatch=f"echo >> {self.folder}/asked; echo 'no such partition' >&2; exit 1\n")
        self.assertEqual((answer.status, answer.out), (4, ""))
        self.assertEqual(answer.err.splitlines()[1:], [
            "no such partition", "shb-farm: sbatch took no job: it ended with status 1"])
        self.assertEqual((self.folder / "asked").read_text(), "\n")


class Killed(farm.Case):
    def setUp(self):
        super().setUp()
        self.pids, self.gate = self.folder / "pids", self.folder / "gate"
        for number in range(12):
            self.trace(f"{number:02}.std", RACE * (number + 1))
        # Each run after the fourth waits at the gate, and notes its number.
        self.shb = self.script("waiting", f"""
if [ ! -e {self.gate} ] && [ "$(ls {self.out}/outcomes | wc -l)" -ge 4 ]; then
    echo $$ >> {self.pids}
    while [ ! -e {self.gate} ]; do sleep 0.05; done
fi
exec {farm.SHB} "$@"
""")

    def start(self):
        """A farm that has made some outcomes and waits in the middle of others."""
        (self.out / "outcomes").mkdir(parents=True)
        started = subprocess.Popen(self.words("--jobs", "2"), env=self.environment(self.shb),
                                   stdout=subprocess.DEVNULL,
                                   stderr=subprocess.DEVNULL)
        deadline = time.monotonic() + farm.SECONDS
        while not (self.pids.exists() and self.pids.read_text()) and started.poll() is None:
            self.assertLess(time.monotonic(), deadline)
            time.sleep(0.02)
        return started

    def finish(self):
        """The tables of a second farm are those of one that nothing has disturbed."""
        made = list((self.out / "outcomes").glob("*.outcome"))
        self.assertTrue(4 <= len(made) < 12, made)
        times = {path: path.stat().st_mtime_ns for path in made}
        self.gate.touch()
        again = self.farm(shb=self.shb)
        self.assertEqual({path: path.stat().st_mtime_ns for path in made}, times)
        plain = self.farm(shb=self.shb, out=self.folder / "plain")
        self.assertEqual(again[:2], plain[:2])
        for name in ("places.tsv", "places.sarif", "places.txt", "unknown.places", "facts.tsv"):
            self.assertEqual((self.out / name).read_bytes(), (self.folder / "plain" / name).read_bytes())
        self.assertEqual(self.ends(), self.ends(self.folder / "plain"))

    def test_killed_midway(self):
        """What it started ends with it: xargs, its jobs, and the program."""
        started = self.start()
        programs = list(map(int, self.pids.read_text().split()))
        group = os.getpgid(programs[0])
        started.kill()
        started.wait()
        self.wait_for_the_end_of(group)
        self.finish()

    def test_ended_by_a_signal_with_all_that_it_ran(self):
        started = self.start()
        group = os.getpgid(int(self.pids.read_text().split()[0]))
        started.terminate()
        self.assertEqual(started.wait(), 128 + signal.SIGTERM)
        self.wait_for_the_end_of(group)
        self.finish()

    def wait_for_the_end_of(self, group):
        deadline = time.monotonic() + farm.SECONDS
        while True:
            try:
                os.killpg(group, 0)
            except ProcessLookupError:
                break
            self.assertLess(time.monotonic(), deadline)
            time.sleep(0.02)
