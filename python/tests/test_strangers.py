"""Traces of strangers, and what a farm says for programs."""

import gzip
import json
import lzma
import os
import re
import subprocess
import sys

import farm
from farm import BAD, CLEAN, OTHER_ORDER, RACE
from shb_common import result
from shb_common.words import Refused
from shb_farm import passes, traces
from shb_farm.passes import Pass

TWO = b"T1|w(x)|a.c:1\nT1|w(y)|a.c:1\nT2|w(x)|b.c:2\nT2|w(y)|b.c:2\n"


class Packed(farm.Case):
    def test_a_text_that_is_too_long(self):
        """However small the file is. It is unpacked once, and the other traces go on."""
        bomb = b"\n" * (3 << 20)
        self.trace("a.std.xz", lzma.compress(bomb))
        self.trace("b.std.gz", gzip.compress(bomb))
        self.trace("race.std", RACE)
        answer = self.farm("--size", "2")
        self.assertEqual((answer.status, answer.out.splitlines()[0]),
                         (1, "traces 3 reports 1 refused 2 missing 0"), answer.err)
        self.assertEqual({name: end for name, end in self.ends().items() if name != "race.std"},
                         dict.fromkeys(["a.std.xz", "b.std.gz"], ("size", "2")))
        self.assertIn("its report, or the text of a packed trace, is longer than 2 MiB", answer.out)
        self.assertEqual(list((self.out / "tmp").iterdir()), [])
        self.assertEqual(self.farm("--size", "4").out.splitlines()[0],
                         "traces 3 reports 3 refused 0 missing 0")

    def test_unpacking_has_the_limits_of_the_analysis(self):
        """What never ends, takes memory without end, or is killed ends as that."""
        work = Pass("", "", "", "", str(self.folder), memory=64, seconds=1, size=1)
        greedy = f"{sys.executable} -c 'bytes(2 << 30)' 2>&1 | tail -1 >&2; exit 1"
        for words, wanted in (("while :; do :; done", ("time", "1")),
                              (greedy, ("refused", "it can't be unpacked: MemoryError")),
                              ("exec cat /dev/zero", ("size", "1")), ("kill -9 $$", ("failed", "signal 9 "))):
            with open(os.devnull, "rb") as trace, open(self.folder / "text", "wb") as text:
                self.assertEqual(traces.unpack(["sh", "-c", words], trace, text, work)[:2], wanted)


class Variables(farm.Case):
    def test_a_known_place_names_its_variable(self):
        """Of two variables of one place the one that isn't known counts."""
        self.trace("two.std", TWO)
        self.assertEqual(self.farm().status, 1)
        self.assertEqual((self.out / "unknown.places").read_bytes(), b"a.c:1\tb.c:2\tx\na.c:1\tb.c:2\ty\n")
        answer = self.farm("--known", self.known(b"a.c:1\tb.c:2\tx\n"))
        self.assertEqual(
            (answer.status, (self.out / "unknown.places").read_bytes()), (1, b"a.c:1\tb.c:2\ty\n"))
        self.assertEqual(self.table("places.tsv")[0][6], "y, x")
        self.assertEqual(self.farm("--known", self.known(b"a.c:1\tb.c:2\tx\na.c:1\tb.c:2\ty\n")).status, 0)
        answer = self.farm("--known", self.known(b"a.c:1\tb.c:2\n"))
        self.assertEqual((answer.status, f"{self.folder}/known, line 1: no variable is named" in answer.err),
                         (0, True), answer.err)

    def test_stale_lines(self):
        self.trace("race.std", RACE)
        known = self.known(b"a.c:1\tb.c:2\tx\n9999\t8888\tx\n")
        for words, wanted in ((), 0), (("--fail-on-stale",), 1):
            answer = self.farm(*words, "--known", known)
            stale = f"shb-farm: {known}, line 2: no race matched `9999\\t8888\\tx`\n"
            self.assertEqual((answer.status, stale in answer.err), (wanted, True), answer.err)
            self.assertIn("stale\t1\n", (self.out / "facts.tsv").read_text())

    def test_no_line_is_stale_while_places_are_not_known(self):
        """Of a trace without an outcome, and of one that ran out of memory."""
        self.trace("race.std", RACE)
        self.trace("b.std", b"T1|w(y)|k.c:1\nT2|w(y)|k.c:2\n")
        known = self.known(b"a.c:1\tb.c:2\tx\nk.c:1\tk.c:2\ty\n")
        said = f"shb-farm: {known}: which lines are stale isn't known: 1 trace without a list of places\n"
        for how, kind, status in (("exit 9", "missing", 2), ("echo out of memory >&2; exit 4", "memory", 5)):
            shb = self.script("failing", f"cat > {self.folder}/$$\ngrep -q k.c {self.folder}/$$ && {{ {how}; "
                                         f"}}\nexec {farm.SHB} \"$@\" < {self.folder}/$$\n")
            answer = self.farm("--fail-on-stale", "--known", known, "--memory", "256", shb=shb,
                               out=self.folder / kind)
            self.assertEqual((self.ends(self.folder / kind)["b.std"][0], answer.status), (kind, status),
                             answer.err)
            self.assertEqual((said in answer.err, "no race matched" in answer.err), (True, False), answer.err)
            self.assertIn("stale\t0\n", (self.folder / kind / "facts.tsv").read_text())
        self.assertEqual(self.farm("--fail-on-stale", "--known", known).status, 0)

    def test_a_location_that_looks_like_a_function(self):
        """Copied from the unknown places it makes itself known alone."""
        self.trace("hostile.std", b"T1|w(q)|u.c:brand_new()\nT2|w(q)|u.c:brand_new()\n")
        self.assertEqual(self.farm().status, 1)
        known = self.known((self.out / "unknown.places").read_bytes())
        self.assertEqual(self.farm("--known", known).status, 0)
        self.trace("b.std", b"T1|w(q)|u.c:20\nT2|w(q)|u.c:21\n")
        self.trace("b.stacks", b"shb-stacks 1 %020d\n" % 2 + bytes(8) + b"frame brand_new\tu.c:20\nframe "
                   b"brand_new\tu.c:21\n")
        self.assertEqual(self.farm("--known", known).status, 1)


class Facts(farm.Case):
    def facts(self):
        lines = (self.out / "facts.tsv").read_text().splitlines()
        return {name: int(count) for name, count in (line.split("\t") for line in lines)}

    def test_each_fact_can_be_asked_for(self):
        """The status says one of them; the example in the help asks for a refused trace."""
        self.trace("race.std", RACE)
        self.trace("other.std", OTHER_ORDER)
        self.trace("bad.std", BAD)
        self.assertEqual(self.farm().status, 1)
        self.assertEqual(self.facts(), {"traces": 3, "reports": 2, "refused": 1, "missing": 0, "damaged": 0,
                                        "places": 1, "unknown": 1, "known": 0,
                                        "stale": 0, "unreported": 0})
        [line] = [line for line in self.farm("--help").out.splitlines() if "awk" in line]
        ask = lambda: subprocess.run(
            ["sh", "-c", line.strip().replace("out/facts.tsv", str(self.out / "facts.tsv"))]).returncode
        self.assertEqual(ask(), 1)
        (self.traces / "bad.std").unlink()
        self.assertEqual((self.farm().status, ask()), (1, 0))

    def test_two_locations_are_one_place(self):
        """The program lists one for each order in which they race."""
        self.trace("places.std", (farm.TOP / "examples" / "places.std").read_bytes())
        listed = subprocess.run([farm.SHB, "places", "--list", farm.TOP / "examples" / "places.std"],
                                stdout=subprocess.PIPE).stdout
        self.farm()
        count = len({frozenset(both) for both in re.findall(rb"\nat (.*)\nand (.*)", listed)})
        summary = json.loads((self.out / "places.json").read_text())["summary"]
        self.assertEqual((self.table("traces.tsv")[0][2], self.facts()["places"], summary["places"]),
                         (str(count), count, count))

    def test_what_is_new_since_an_earlier_farm(self):
        """By functions and variables: moved lines and the other order are the same."""
        stacks = lambda *lines: (b"shb-stacks 1 %020d\n" % 2 + bytes(8)
                                 + b"".join(b"frame f\ta.c:%d\n" % line for line in lines))
        self.trace("race.std", RACE)
        self.trace("moved.std", b"T1|w(x)|a.c:5\nT2|w(x)|a.c:6\n")
        self.trace("moved.stacks", stacks(5, 6))
        self.trace("gone.std", b"T1|w(g)|g.c:1\nT2|w(g)|g.c:2\n")
        self.farm()
        old = self.folder / "old"
        self.out.rename(old)
        (self.traces / "gone.std").unlink()
        self.trace("race.std", OTHER_ORDER)
        self.trace("moved.std", b"T1|w(x)|a.c:15\nT2|w(x)|a.c:16\n")
        self.trace("moved.stacks", stacks(15, 16))
        self.trace("new.std", b"T1|w(n)|a.c:15\nT2|w(n)|n.c:2\n")
        answer = self.farm("--known", old / "unknown.places")
        self.assertEqual({row[4]: row[1] for row in self.table("places.tsv")},
                         {"race.std": "known", "moved.std": "known", "new.std": "unknown"})
        [gone] = [line for line in answer.err.splitlines() if "no race matched" in line]
        self.assertIn("g.c:1", gone)

    def test_an_earlier_result_that_is_none(self):
        path = self.folder / "old.json"
        none = "this is no places.json of `shb-farm` or `shb-record`\n"
        for text, said in ((b"", none), (b"int main;", none), (b"{}", "a part of it is missing"),
                           (b"[1]", "a part of it is missing"), (b"\xff", none),
                           (b'{"form": "shb-places", "version": 1, "places": []}',
                            "it isn't of form shb-places, version 2"), (b"[" * 100_000, "a part of it"),
                           (b'{"form": "shb-places", "version": 2, "places": [{"state": 3}]}',
                            "a part of it is missing")):
            path.write_bytes(text)
            with self.assertRaises(Refused) as refused:
                result.read(path, lambda entry: entry["accesses"])
            self.assertTrue(str(refused.exception).startswith(f"{path}: "))
            self.assertIn(said.rstrip("\n"), str(refused.exception))

    def test_results_for_programs(self):
        """Of an unknown place they have what the view says of the example."""
        self.trace("race.std", RACE)
        self.trace("clean.std", CLEAN)
        self.farm()
        found = json.loads((self.out / "places.json").read_text())
        [place] = found["places"]
        self.assertEqual((found["form"], found["version"], found["command"],
                          found["summary"]["status"]), ("shb-places", 2, "shb-farm", 1))
        self.assertEqual((place["state"], place["traces"], place["example"], place["variables"]),
                         ("unknown", 1, "race.std", [{"name": "x", "state": "unknown"}]))
        self.assertEqual([(access["location"], access["uses"], access["threads"], access["without_lock"])
                          for access in place["accesses"]],
                         [("a.c:1", {"write": 1}, {"T1": 1}, 1), ("b.c:2", {"write": 1}, {"T2": 1}, 1)])
        self.assertEqual(place["facts"], ["In this trace no lock is held at any access; 2 threads write, at "
                                          "a.c:1 and b.c:2.",
                                          "Remedy: hold one lock at a.c:1 and b.c:2."])
        self.assertEqual([(trace["trace"], trace["outcome"]) for trace in found["traces"]],
                         [("clean.std", "report"), ("race.std", "report")])
        self.assertTrue(all(trace["seconds"] >= 0 and trace["MiB"] > 0 for trace in found["traces"]))

    def test_a_view_that_fails_is_left_out(self):
        self.trace("race.std", RACE)
        self.run_alone()
        farm.put_program("/dev/stdin", self.command.with_name("shb-view"), b"raise SystemExit(2)\n")
        answer = self.farm()
        self.assertEqual((answer.status, [row[5] for row in self.table("places.tsv")]),
                         (1, [f"reports/{passes.key_of('race.std')}.report"]))
        self.assertNotIn("facts", json.loads((self.out / "places.json").read_text())["places"][0])
