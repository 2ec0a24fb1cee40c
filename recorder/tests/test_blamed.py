"""Programs with a planted bug: the headline names the line to fix, as the second reader of the facts confirms
(blamed/table.tsv). The first location in SARIF is a line of the headline. The remedy is that of the table,
and with it in the program, as FIXED has it, no run has a race (remedied/table.tsv; `-` is no remedy, and / is
between those of several interleavings)."""

import itertools
import json
import os
import re

import facts_reader  # of the repository's tests
import recorder
from shb_view.facts import Fact, blamed_of
from shb_view.words import Code

SEEDS = ("1", "11", "21")


def rows_of(folder):
    """The rows of a folder's table: a program, the lines to fix, the form of the fact, and its last field."""
    for line in (recorder.HERE / folder / "table.tsv").read_text().splitlines()[1:]:
        name, lines, form, last = line.split("\t")
        yield recorder.HERE / folder / name, set(lines.split(",")), form, last


def words_of(remedy):
    """The words of a remedy, whichever of its lines comes first, but for those that say that it was tried."""
    return sorted(re.findall(r"[\w:.]*\w", remedy.partition(". Tried on this run")[0]))


def line_of_alert(result):
    """The file and line of the first location of a result."""
    found = result["locations"][0]["physicalLocation"]
    return f"{os.path.basename(found['artifactLocation']['uri'])}:{found['region']['startLine']}"


class Blamed(recorder.Case):
    def test_lines(self):
        for source, lines, form, _ in rows_of("blamed"):
            with self.subTest(source.name):
                self.remedies(source, lines, form)

    def test_remedies(self):
        for source, lines, form, remedy in rows_of("remedied"):
            with self.subTest(source.name):
                wanted = [words_of(it) for it in remedy.split(" / ")]
                found = self.remedies(source, lines, form, wanted)
                self.assertTrue(any(it in found for it in wanted), found)
                out, status = self.record(source, SEEDS[0], "-DFIXED")
                self.assertEqual((status, json.loads((out / "places.json").read_text())["places"]), (0, []))

    def test_lines_that_a_headline_leaves_out(self):
        """A race is told at its own line to fix; one of uses of a block alone at the free."""
        tag = [Code(b"a.c:1"), " and 1 more read without ", Code(b"m")]
        counted = Fact("without", {"lines": ["a.c:1", "a.c:8"]}, tag, [])
        freed = Fact("freed", {"frees": ["a.c:5"]}, ["freed at ", Code(b"a.c:5"), " while in use"], [])
        races = (b"a.c:1", b"a.c:7"), (b"a.c:7", b"a.c:8")
        self.assertEqual([blamed_of(fact, race) for fact in (counted, freed) for race in races],
                         [b"a.c:1", b"a.c:8", b"a.c:5", b"a.c:5"])

    def record(self, source, seed, *flags):
        """The results of runs of a program, until a race is found, and the status."""
        program, out = self.folder / "program", self.folder / "out"
        compiler = "g++" if source.suffix == ".cpp" else "gcc"
        more = ["-fopenmp"] if source.name.startswith("omp") else []
        words = ["-w", "-g", "-O1", "-fsanitize=thread", "-pthread", *more, *flags, source, "-o", program]
        recorder.must(recorder.call(compiler, *words))
        how = {**os.environ, "SHB": str(recorder.SHB), "SHB_SEED": seed}
        return out, recorder.call(recorder.COMMAND, "--until-found", "10", "-o", out, program,
                                  cwd=self.folder, env=how).returncode

    def remedies(self, source, lines, form, wanted=()):
        """The words of the remedies of the headlines of this form, which name the lines."""
        named, remedies = set(), []
        for seed in SEEDS:      # a run shows the races of one interleaving
            if lines <= named and (not wanted or any(it in remedies for it in wanted)):
                break
            for headline, remedy in self.told(source, form, seed):
                named.update(re.findall(re.escape(source.name) + r":(\d+)", headline))
                remedies.append(words_of(remedy.replace(source.name, "")))
        self.assertLessEqual(lines, named)
        return remedies

    def told(self, source, form, seed):
        """The headlines of this form, with their remedies."""
        out, _ = self.record(source, seed)
        document = json.loads((out / "places.json").read_text())
        [trace, *_] = sorted(out.glob("*.std"))
        beside = (trace.with_suffix(suffix).read_bytes() for suffix in (".std", ".stacks", ".uses"))
        self.assertEqual(list(facts_reader.Reader(*beside).faults(facts_reader.groups_of(document))), [])
        alerts = map(line_of_alert, json.loads((out / "places.sarif").read_text())["runs"][0]["results"])
        for line, place in itertools.zip_longest(alerts, document["places"]):
            more = document["groups"][place["group"] - 1].get("lines", ())  # of which a headline names three
            self.assertIn(line, {*re.findall(r"[\w.]+:\d+", place["headline"]), *more})
            moved = re.match("move (.*?) (?:before|after) ", place["remedy"])
            self.assertIn(line, re.findall(r"[\w.]+:\d+", moved[1]) if moved else [line])
        return {(place["headline"], place["remedy"]) for place in document["places"]
                if "group" in place and document["groups"][place["group"] - 1]["form"] == form}
