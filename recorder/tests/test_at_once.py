"""Runs that are recorded at once: what is found, written and said is as of one after the other."""

import os
import pathlib
import re
import shutil
import signal
import subprocess
import time

import recorder
from test_command import is_running

ALL_ARE_THERE = "touch there$SHB_SEED; for n in 1 2 3; do while [ ! -e there$n ]; do sleep 0.01; done; done; "
STARTS_ANOTHER = "sleep 1000 & echo $$ $! > started$SHB_SEED; "


class AtOnce(recorder.Case):
    def program(self, name="status.c"):
        recorder.build(recorder.PROGRAMS / name, "-O1", self.folder / "app")

    def how(self):
        return {"cwd": self.folder, "env": {**os.environ, "SHB": str(recorder.SHB)}}

    def record(self, *words, **more):
        """The status, the program's output, and what was said."""
        ran = recorder.call(recorder.COMMAND, *words, **self.how(), **more)
        return ran.returncode, ran.stdout.decode(), ran.stderr.decode()

    def shown(self, jobs, *words):
        """The same and the files of the results, without what may differ: numbers of processes and
        of events, times."""
        answer = self.record("-o", "out", "--jobs", jobs, *words)
        files = {path.name: path.read_text() if path.name.endswith((".tsv", "known.places")) else ""
                 for path in (self.folder / "out").glob("*")}
        files["places.tsv"] = re.sub(r"\t\d+\t\d+\trun", r"\tN\tN\trun", files["places.tsv"])
        shutil.rmtree(self.folder / "out")
        return re.sub(r"\d{2,}", "N", repr((answer, sorted(files.items()))))

    def started(self, number):
        """The processes of a run that wrote their numbers."""
        path = self.folder / f"started{number}"
        while not path.exists() or not path.read_text().endswith("\n"):
            time.sleep(0.01)
        return [int(process) for process in path.read_text().split()]

    def test_they_are_as_one_after_the_other(self):
        """The third run has another status, the fifth one a race."""
        self.program()
        script = ("echo $SHB_SEED; echo err $SHB_SEED >&2; case $SHB_SEED in 3) exec ./app 7;; 5) exec ./app "
                  "0 race;; *) exec ./app 0;; esac")
        words = ["--runs", "6", "sh", "-c", script]
        one, several = self.shown(1, *words), self.shown(4, *words)
        self.assertEqual(one, several)
        for said in ("((N, '1\\nsaid by the program\\n2\\n", "err 6\\n", "own status: 7",
                     "6 runs gave 2 different", "'run5.N.std'"):
            self.assertIn(said, one)

    def test_of_ten_runs_with_nothing_new_one_is_told(self):
        """As a sign that the runs go on."""
        self.program()
        _, _, said = self.record("--runs", "12", "./app", "0", "race")
        self.assertEqual(re.findall(r"(?m)^shb-record: run (\d+), process", said), ["1", "10"])
        self.assertIn("\nshb-record: 12 runs gave ", said)

    def test_they_are_made_at_once(self):
        self.program()
        self.assertEqual(self.record("--runs", "3", "--jobs", "3", "sh", "-c",
                                     ALL_ARE_THERE + "exec ./app 0")[0], 0)

    def test_one_at_a_time_reads_input(self):
        self.program()
        script = "mkdir busy || echo at once; read line && echo $line; sleep 0.05; rmdir busy; exec ./app 0"
        status, out, _ = self.record("--runs", "3", "sh", "-c", script, input=b"first\nsecond\n")
        self.assertEqual((status, out), (0, "first\nsaid by the program\nsecond\nsaid by the program\nsaid "
                                            "by the program\n"))

    def test_later_ones_are_ended_when_a_race_is_found(self):
        self.program()
        script = (ALL_ARE_THERE + STARTS_ANOTHER + "case $SHB_SEED in 1) exec ./app 0;; 2) exec ./app 0 "
                                                   "race;; *) echo late; sleep 1000;; esac")
        script = script.replace(STARTS_ANOTHER, f"[ $SHB_SEED -lt 3 ] || {{ {STARTS_ANOTHER}}}; ") + "; exit"
        status, out, said = self.record("-o", "out", "--until-found", "9", "--jobs", "3", "sh", "-c", script)
        self.assertEqual((status, out), (66, "said by the program\n" * 2), said)
        self.assertIn("run 2 of at most 9 is the first with a place with races; its seed is 2\n", said)
        self.assertEqual([process for process in self.started(3) if is_running(process)], [])
        self.assertEqual(list((self.folder / "out").glob("run3*"))
                         + list((self.folder / "out").glob("work-*")), [])

    def test_an_interrupt_ends_all(self):
        """The first run, whose program hangs after its race, is shown."""
        self.program("deadlock.c")
        words = ["-o", "out", "--runs", "9", "--jobs", "3", "sh", "-c",
                 STARTS_ANOTHER + "exec ./app > ready$SHB_SEED"]
        ran = subprocess.Popen([str(recorder.COMMAND), *words], stderr=subprocess.PIPE,
                               stdin=subprocess.DEVNULL, **self.how(),
                               preexec_fn=lambda: signal.signal(signal.SIGINT, signal.SIG_DFL))
        processes = [process for number in (1, 2, 3) for process in self.started(number)]
        while any(path.read_text() != ".."
                  for path in map(pathlib.Path, (self.folder / f"ready{number}" for number in (1, 2, 3)))):
            time.sleep(0.01)
        ran.send_signal(signal.SIGINT)
        said = ran.communicate(timeout=recorder.SECONDS)[1].decode()
        self.assertEqual((ran.returncode, "stopped by SIGINT" in said, "own status: 130" in said),
                         (66, True, True), said)
        self.assertEqual([process for process in processes if is_running(process)], [])
        self.assertEqual({path.name[:5] for path in (self.folder / "out").glob("[rw][uo]*")}, {"run1."})

    def test_a_program_that_cannot_be_run(self):
        (self.folder / "app").write_bytes(b"\x7fELF" + bytes(60))
        (self.folder / "app").chmod(0o755)
        for jobs in (1, 3):
            self.assertEqual(self.record("--runs", "3", "--jobs", jobs, "./app")[::2],
                             (126, "shb-record: ./app: can't be run: Exec format error\n"))
