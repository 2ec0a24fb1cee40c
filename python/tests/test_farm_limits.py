"""Limits of memory, time and size, and what their outcomes say."""

import resource
import subprocess

import farm
from farm import BAD, RACE
from shb_farm import running
from shb_farm.passes import Pass
from shb_farm.running import End

MIB = 1 << 20
MANY = b"".join(b"T1|w(x%d)|a.c:%d\n" % (k, k) for k in range(400_000))        # 8 MB, one thread


def many_places(threads):
    """Each two threads race, at places of their own with long names."""
    return b"".join(b"T%d|w(x)|%s:%d\n" % (k, b"l" * 150, k) for k in range(threads))


class Memory(farm.Case):
    def test_a_trace_that_needs_more_is_run_again_with_more(self):
        self.trace("many.std", MANY)
        self.trace("race.std", RACE)
        answer = self.farm("--memory", "16")
        self.assertEqual((answer.status, self.ends()["many.std"]), (1, ("memory", "16")))
        self.assertIn("\nrefused  many.std  out of memory in 16 MiB\n", answer.out)
        shb = self.counting()
        self.assertEqual(self.farm("--memory", "16", shb=shb).status, 1)
        self.runs()
        for memory, runs in (("16", 0), ("10", 0), ("512", 1), ("16", 0)):
            self.assertEqual((self.farm("--memory", memory, shb=shb).status, self.runs()), (1, runs))
        self.assertEqual(self.ends()["many.std"][0], "report")

    def test_the_limit_is_that_of_the_system(self):
        shb = self.script("limited", f'ulimit -v >> {self.folder}/limits; exec {farm.SHB} "$@"\n')
        self.trace("race.std", RACE)
        self.assertEqual(self.farm("--memory", "100", shb=shb).status, 1)
        self.assertEqual(set((self.folder / "limits").read_text().split()), {"102400"})

    def test_a_refusal_without_words_is_for_memory(self):
        self.trace("bad.std", BAD)
        self.assertEqual(self.farm("--memory", "100", shb=self.script("mute", "exit 2\n")).status, 5)
        self.assertEqual(self.ends()["bad.std"], ("memory", "100"))

    def test_a_machine_that_gives_less_makes_no_outcome(self):
        self.trace("race.std", RACE)
        limit = lambda: resource.setrlimit(resource.RLIMIT_AS, (900 * MIB, 900 * MIB))
        ran = subprocess.run(self.words("--memory", "1000"), env=self.environment(), capture_output=True,
                             preexec_fn=limit)
        self.assertEqual(ran.returncode, 2)
        self.assertIn(b"shb-farm: race.std: the machine's limit of memory is lower than that of the pass\n",
                      ran.stderr)
        self.assertFalse((self.out / "outcomes").exists())


class Time(farm.Case):
    def test_processor_time(self):
        shb = self.script("slow",
                          "[ -e \"$0.quick\" ] || while :; do :; done\nexec " + str(farm.SHB) + ' "$@"\n')
        self.trace("race.std", RACE)
        answer = self.farm("--seconds", "1", shb=shb)
        self.assertEqual((answer.status, self.ends()["race.std"]), (5, ("time", "1")))
        self.assertIn("\nrefused  race.std  not done in 1 s of processor time\n", answer.out)
        (self.folder / "slow.quick").touch()
        self.assertEqual(self.farm("--seconds", "1", shb=shb).status, 5)
        self.assertEqual(self.farm("--seconds", "2", shb=shb).status, 1)


class Size(farm.Case):
    def test_a_list_that_is_too_long(self):
        self.trace("many.std", many_places(110))        # 5,995 places
        answer = self.farm("--size", "1")
        self.assertEqual((answer.status, self.ends()["many.std"]), (5, ("size", "1")))
        self.assertIn("\nrefused  many.std  its report, or the text of a packed trace, is longer "
                      "than 1 MiB\n", answer.out)
        self.assertEqual(self.farm("--size", "8").status, 1)
        self.assertEqual(self.ends()["many.std"][0], "report")


class Ends(farm.Case):
    def test_how_a_run_ended(self):
        work = Pass("", "", "", "", "", memory=256, seconds=60, size=1)
        for status, said, written, wanted in (
            (0, "", 9, End("report", "")),
            (2, "line 1: the operation is not known", 0,
             End("refused", "line 1: the operation is not known")),
            (2, "", 0, End("memory", "256")),
            (4, "out of memory", 5, End("memory", "256")),
            (4, "cannot write", MIB, End("size", "1")),
            (4, "cannot write shb: standard output: File too large (os error 27)", MIB, End("size", "1")),
            (4, "cannot write", MIB - 1, End("failed", "status 4 cannot write")),
            (4, "cannot read", 0, End("failed", "status 4 cannot read")),
            (-24, "", 0, End("time", "60")),
            (-25, "", MIB, End("size", "1")),
            (-9, "", 0, End("failed", "signal 9 ")),
            (134, "panic", 0, End("failed", "status 134 panic")),
        ):
            self.assertEqual(running.end_of(work, status, said, written), wanted)

    def test_what_failed_is_missing_with_its_words_and_tried_again(self):
        self.trace("race.std", RACE)
        shb = self.script("failing", f'[ -e "$0.well" ] && exec {farm.SHB} "$@"\necho some words >&2\nexit '
                                     '7\n')
        self.assertEqual(self.farm(shb=shb).status, 2)
        self.assertEqual(self.ends()["race.std"], ("missing", "status 7 some words"))
        (self.folder / "failing.well").touch()
        self.assertEqual(self.farm(shb=shb).status, 1)

    def test_a_trace_that_changes_while_it_is_read_is_missing(self):
        trace = self.trace("race.std", RACE)
        shb = self.script("changing", f"echo 'T1|w(y)' >> {trace}\nexec {farm.SHB} \"$@\"\n")
        self.assertEqual(self.farm("--memory", "256", shb=shb).status, 2)
        self.assertEqual(self.ends()["race.std"], ("missing", "it has changed since"))
        self.assertEqual(self.farm().status, 1)
