"""The call stacks beside traces: places by functions, and the ways to the accesses in the log."""

import os
import struct

from farm import RACE
from shb_common.words import printable
from test_sarif import Base

TRACE = b"main|fork(T1)|a.c:30\nT1|w(x)|a.c:5\nmain|w(x)|a.c:7\n"
MOVED = TRACE.replace(b"a.c:5", b"a.c:15").replace(b"a.c:7", b"a.c:17")
TABLES = b"""\
frame main\ta.c:30
frame add<int>(int)\ta.c:5
system-frame std::each(f)\t/usr/include/each.h:8
frame run\ta.c:20
frame get()\ta.c:7
stack 1 0 1
stack 2 3 2
stack 3 4 3
stack 4 0 4
stack 5 1 5
source a.c\t%b
"""
FUNCTIONS = b"a.c:add<>()\ta.c:get()\tx\n"
OTHER = b"main|fork(T1)|z.c:30\nT1|w(x)|z.c:5\nmain|w(x)|b.c:1\n"


def stacks(numbers=(1, 2, 5), tables=TABLES % b"/none/a.c"):
    return b"shb-stacks 1 %020d\n" % len(numbers) + struct.pack(f"<{len(numbers)}I", *numbers) + tables


class Calls(Base):
    def unknown(self):
        return (self.out / "unknown.places").read_bytes()

    def test_places_by_functions(self):
        """What was written as unknown is known when the lines have moved; where a trace has no stacks
        its lines decide."""
        self.trace("app.std", TRACE)
        self.trace("app.stacks", stacks())
        self.trace("other.std", OTHER)
        self.assertEqual(self.farm().status, 1)
        self.assertEqual(self.unknown(), b"# a.c:5\ta.c:7\n" + FUNCTIONS + b"b.c:1\tz.c:5\tx\n")
        known = self.known(self.unknown())
        self.trace("app.std", MOVED)
        self.trace("app.stacks", stacks(tables=TABLES.replace(b"a.c:5", b"a.c:15").replace(
            b"a.c:7", b"a.c:17") % b"/none/a.c"))
        self.assertEqual(self.farm("--known", known).status, 0)
        (self.traces / "app.stacks").unlink()
        self.assertEqual(self.farm("--known", known).status, 1)
        self.assertEqual(self.unknown(), b"a.c:15\ta.c:17\tx\n")

    def test_stacks_that_are_no_file_of_the_folder(self):
        """A link that leads out is followed with --links alone, as that of a trace; a FIFO
        isn't waited for."""
        self.trace("app.std", TRACE)
        outside = self.folder / "elsewhere"
        outside.write_bytes(stacks())
        path = self.traces / "app.stacks"
        path.symlink_to(outside)
        said = (f"shb-farm: {path}: it is a link that leads out of the folder; --links follows it; its call "
                "stacks are left out\n")
        self.assertIn(said, self.farm().err)
        self.assertEqual(self.unknown(), b"a.c:5\ta.c:7\tx\n")
        self.assertEqual(self.farm("--known", self.known(self.unknown())).status, 6)
        self.assertEqual((self.farm("--links").err, self.unknown()), ("", b"# a.c:5\ta.c:7\n" + FUNCTIONS))
        path.unlink()
        os.mkfifo(path)
        self.assertIn("app.stacks: it isn't a regular file; its call stacks are left out\n", self.farm().err)

    def test_functions_are_of_the_own_trace(self):
        """What another trace says of the line makes no place known: here it was in a known function there."""
        line = b"T1|w(y)|u.c:20\nT2|w(y)|u.c:21\n"
        frames = b"".join(b"frame %s\tu.c:%d\n" % (name, number) for name, number in
                          ((b"old_known", 10), (b"old_known", 11), (b"old_known", 20), (b"old_known", 21)))
        self.trace("a.std", b"T1|w(x)|u.c:10\nT2|w(x)|u.c:11\n")
        self.trace("a.stacks", stacks((0, 0), frames))
        self.trace("b.std", line)
        self.trace("b.stacks", stacks((0, 0), frames.replace(b"old_known", b"brand_new")))
        known = self.known(b"u.c:old_known()\tu.c:old_known()\t*\n")
        answer = self.farm("--known", known)
        self.assertEqual((answer.status, answer.out.splitlines()[1]), (1, "places 2 unknown 1 known 1"),
                         answer.out)
        (self.traces / "a.std").unlink()
        self.assertEqual(self.farm("--known", known).status, 1)

    def test_a_file_of_two_programs_is_two(self):
        """Its short name is the same in both; a known place of the one hides none of the other."""
        for name, function in (("one", b"known_stats"), ("two", b"pay")):
            self.trace(f"{name}.std", b"T1|w(v)|w.c:5\nT2|w(v)|w.c:5\n")
            self.trace(f"{name}.stacks", stacks((0, 0), b"frame %s\tw.c:5\nsource w.c\t/x/%s/w.c\n" % (
                function, name.encode())))
        answer = self.farm("--known", self.known(b"one/w.c:known_stats()\tone/w.c:known_stats()\tv\n"))
        self.assertEqual((answer.status, [row[:4] for row in self.table("places.tsv")]), (1, [
            ["1", "unknown", "two/w.c:5", "two/w.c:5"], ["1", "known", "one/w.c:5", "one/w.c:5"]]),
                         answer.out)
        answer = self.farm("--known", self.known(b"w.c:known_stats()\tw.c:known_stats()\tv\n"))
        self.assertEqual(answer.out.splitlines()[1], "places 2 unknown 2 known 0")
        self.assertIn("w.c is the end of 2 source files' paths: one/w.c, two/w.c", answer.err)

    def test_a_line_of_two_texts_is_two(self):
        """One path, one function, one line; what stood there when the traces were made differs."""
        for name, sum in (("one", b"0" * 16), ("two", b"1" * 16), ("three", b"1" * 16)):
            self.trace(f"{name}.std", b"T1|w(v)|w.c:5\nT2|w(v)|w.c:5\n")
            self.trace(f"{name}.stacks",
                       stacks((0, 0), b"frame f\tw.c:5\nsource w.c\t/x/w.c\nline w.c:5\t" + sum + b"\n"))
        answer = self.farm()
        self.assertEqual((answer.status, answer.out.splitlines()[1]), (1, "places 2 unknown 2 known 0"),
                         answer.out)
        self.assertEqual(sorted(row[0] for row in self.table("places.tsv")), ["1", "2"])
        known = self.known(b"w.c:f()\tw.c:f()\tv\n")
        # a name of a line or function is of all its texts
        self.assertEqual(self.farm("--known", known).status, 0)

    def test_a_damaged_file_stops_nothing(self):
        """It is said with its line, and has a status of its own; all tables are written."""
        for lines in (b"stack 1 0 0\n", b"free 99999999999999999999999 1\n", b"frame x\n", b"frame x\ty"):
            self.trace("a.std", RACE)
            self.trace("a.stacks", stacks((0, 0), b"frame f\tu.c:10\n" + lines))
            self.trace("good.std", b"T1|w(y)|z.c:10\nT2|w(y)|z.c:11\n")
            answer = self.farm("--known", self.known(b"*\t*\t*\n"))
            self.assertEqual((answer.status, len(self.table("places.tsv"))), (6, 2), answer.err)
            self.assertIn(f"a.stacks: is damaged in line 3: `{printable(lines.rstrip())}`; its call stacks "
                          "are left out\n", answer.err)
            self.assertIn("damaged\t1\n", (self.out / "facts.tsv").read_text())
        self.trace("a.stacks", b"shb-stacks 1 " + b"9" * 20 + b"\n")
        self.assertEqual(self.farm("--known", self.known(b"*\t*\t*\n")).status, 6)

    def steps(self, *words):
        """For each access of the only result: its thread, what it does, and the lines and functions on the
        way to it."""
        [result] = self.log(*words)["results"]
        return [(flow["id"], flow["message"]["text"], [
            "{} {}:{}".format(step["location"]["message"]["text"], place["artifactLocation"]["uri"],
                              place["region"]["startLine"])
            for step in flow["locations"] for place in [step["location"]["physicalLocation"]]])
            for code_flow in result.get("codeFlows", []) for flow in code_flow["threadFlows"]]

    WAYS = [("T1", "T1: w(x)", ["T1 in run {}:20", "T1 in add<> {}:5"]),
            ("main", "main: w(x)", ["main in main {}:30", "main in get {}:7"])]

    def ways(self, path):
        return [(thread, does, [step.format(path) for step in steps]) for thread, does, steps in self.WAYS]

    def test_the_ways_to_the_accesses(self):
        self.trace("app.std", TRACE)
        self.assertEqual(self.steps(), [])
        self.trace("app.stacks", stacks())
        self.assertEqual(self.steps(), self.ways("a.c"))

    def test_a_file_that_is_none(self):
        self.trace("app.std", TRACE)
        for content in (b"", b"shb-stacks 2 %020d\n" % 3, stacks((1, 2))):
            self.trace("app.stacks", content)
            answer = self.farm()
            said = (f"shb-farm: {self.traces}/app.stacks: doesn't have the stacks of this trace; its call "
                    "stacks are left out")
            self.assertEqual((answer.status, said in answer.err.splitlines()), (1, True), answer.err)

    def test_the_file_that_was_compiled(self):
        """Of two files whose paths end as the location's it is the one that the program was made of, where
        that is known."""
        top = self.folder / "repository"
        for name in ("one", "two"):
            (top / name).mkdir(parents=True)
            (top / name / "a.c").write_text("x\n" * 40)
        self.trace("app.std", TRACE)
        self.trace("app.stacks", stacks())
        self.assertEqual(self.steps("--source", top), self.ways("a.c"))
        self.trace("app.stacks", stacks(tables=TABLES % bytes(top / "two" / "a.c")))
        self.assertEqual(self.steps("--source", top), self.ways("two/a.c"))
