"""How the gate tries must-fail edits and what its record answers for, with a checker that is made up."""

import pathlib
import sys
import types
import unittest
from unittest import mock

sys.path.insert(0, str(pathlib.Path(__file__).resolve().parent / "gate"))

import changed
import joint
import kit
import record
import side_by_side

CODE = """//! Two functions.

/// One more.
pub fn first(n: u8) -> u8
    requires { n < 255 }
    ensures { result ≡ n + 1 }
{
    n + 1
}

impl Pair {
    /// The second.
    pub fn second(&self) -> u8
        ensures { result ≡ self.now.second }
    {
        self.second
    }
}
"""
FIRST = "file: src/lib.rt\nold:     n + 1\nnew:     n\n"
SECOND = "file: src/lib.rt\nold:         self.second\nnew:         self.first\n"
LEFT = "file: src/lib.rt\nold:     n + 1\nnew:     1 + n\n"


class Edits(side_by_side.Case):
    """Each test has a crate `low` with the functions `first` and `Pair::second`, and says what
    the checker answers."""

    def setUp(self):
        super().setUp()
        (self.folder / "src").mkdir()
        (self.folder / "src/lib.rt").write_text(CODE)
        self.crate = types.SimpleNamespace(name="low", folder=str(self.folder))
        self.checks, self.alone = [], []

    def edit(self, name, text):
        path = self.folder / f"{name}.edit"
        path.write_text(text)
        return path

    def tried(self, edits, *answers):
        """What the gate says of some edits, where the checks of the crate answer so, one after the other."""
        left = iter(answers)

        def check(_crate, texts, functions, _kept):
            self.checks.append((texts["src/lib.rt"], {*functions}))
            return next(left)

        def try_alone(_crate, edit):
            self.alone.append(edit.name)
            return False, f"must-fail low/{edit.name}: NOT REFUSED"

        fakes = {"check": check, "try_alone": try_alone, "functions_of": lambda _: {"first", "Pair::second"}}
        with mock.patch.multiple(kit, **fakes):
            return {said.split("/")[1].split(":")[0]: is_refused
                    for is_refused, said in joint.tried(self.crate, edits)}

    def test_two_functions_are_one_check(self):
        edits = [self.edit("first.same", FIRST), self.edit("second.other", SECOND)]
        said = ("fn low::first: not proved\nfn low::Pair::second: no proof: expected answers in "
                "proofs/x\nlogic=not-proved")
        self.assertEqual(self.tried(edits, (1, said)), {"first.same.edit": True, "second.other.edit": True})
        self.assertEqual([functions for _, functions in self.checks], [{"first", "Pair::second"}])
        self.assertIn("    n\n", self.checks[0][0])
        self.assertIn("self.first", self.checks[0][0])
        self.assertEqual(self.alone, [])

    def test_two_edits_of_a_function_are_two_checks(self):
        edits = [self.edit("first.left", LEFT), self.edit("first.same", FIRST)]
        self.tried(edits, (1, "fn low::first: not proved; it calls low::f\n"),
                   (1, "fn low::first: not proved\n"))
        self.assertEqual([functions for _, functions in self.checks], [{"first"}, {"first"}])
        self.assertEqual(self.alone, [])

    def test_an_edit_outside_of_functions_is_a_check_of_its_own(self):
        edits = [self.edit("first.outside", "file: src/lib.rt\nold: /// One more.\nnew: /// One less.\n"),
                 self.edit("second.other", SECOND)]
        told = self.tried(
            edits, (1, "fn low::Pair::second: not proved\n"), (1, "fn low::first: not proved\n"))
        self.assertEqual(told, {"first.outside.edit": True, "second.other.edit": True})
        self.assertEqual([functions for _, functions in self.checks], [{"Pair::second"}, {"first"}])

    def test_what_the_kit_says_of_one_edit_is_one_of_its_answers(self):
        kinds = {"REFUSED": "refused", "AT_LIMIT": "limit", "BAD": "bad", "MISSED": "missed",
                 "UNSURE": "unsure"}
        for kind in kinds.values():
            rt = types.SimpleNamespace(**kinds, must_fail=lambda *_: (kind, f"must-fail low/x.edit: {kind}"))
            with self.subTest(kind), mock.patch.object(kit, "command", lambda: rt):
                self.assertEqual(kit.try_alone(self.crate, "x.edit"),
                                 (kind in ("refused", "limit"), f"must-fail low/x.edit: {kind}"))
        for answer in (True, False):  # of a kit that says no more
            rt = types.SimpleNamespace(must_fail=lambda *_, answer=answer: (answer, "said"))
            with self.subTest(answer), mock.patch.object(kit, "command", lambda: rt):
                self.assertEqual(kit.try_alone(self.crate, "x.edit"), (answer, "said"))
        rt = types.SimpleNamespace(**kinds, must_fail=lambda *_: ("another kit's answer", "said"))
        with mock.patch.object(kit, "command", lambda: rt), self.assertRaises(KeyError):
            kit.try_alone(self.crate, "x.edit")

    def test_a_kit_is_asked_to_prove_anew_where_it_knows_the_word(self):
        script = self.folder / "rt"
        with mock.patch.object(kit, "command", lambda: types.SimpleNamespace(__file__=str(script))):
            for text, anew, words in (("--anew", True, ["ci", "--anew"]), ("--anew", False, ["ci"]),
                                      ("none", True, ["ci"])):
                script.write_text(text)
                with self.subTest(text, anew=anew):
                    self.assertEqual(kit.proofs_from(anew), words)

    def test_kits_of_one_logic_share_a_record(self):
        for line in ("kit-1 logic 0123", "kit-2 logic 0123\n"):
            (self.folder / "KIT-ID").write_text(line)
            with self.subTest(line), mock.patch.object(kit, "command",
                                                       lambda: types.SimpleNamespace(KIT=str(self.folder))):
                self.assertEqual(kit.logic(), "0123")

    def test_proved_edit_fails(self):
        edits = [self.edit("first.left", LEFT), self.edit("second.other", SECOND)]
        said = "fn low::first: proved\nfn low::Pair::second: not proved\n"
        told = self.tried(edits, (1, said), (0, "fn low::first: proved\n"))
        self.assertEqual(told, {"first.left.edit": False, "second.other.edit": True})
        self.assertEqual(self.alone, ["first.left.edit"])

    def test_refused_for_a_callee_alone_is_tried_again(self):
        edits = [self.edit("first.same", FIRST), self.edit("second.other", SECOND)]
        said = ("fn low::first: not proved\nfn low::Pair::second: no proof: it calls low::first, which is "
                "not proved\n")
        told = self.tried(edits, (1, said), (1, "fn low::Pair::second: not proved\n"))
        self.assertEqual(told, {"first.same.edit": True, "second.other.edit": True})
        self.assertEqual(
            [functions for _, functions in self.checks], [{"first", "Pair::second"}, {"Pair::second"}])

    def test_refusal_of_another_function_says_nothing(self):
        said = "fn low::first: not proved\nfn low::third: not proved\n"
        self.assertEqual(self.tried([self.edit("first.same", FIRST)], (1, said)), {"first.same.edit": False})

    def test_functions_that_call_one_another_are_refused_together(self):
        said = ("fn low::first: no proof: expected answers in ./proofs/+pair/Answers.antt; `search` did not "
                "prove `x`\n")
        for other, is_refused in (("+pair", True), ("third", False)):
            with self.subTest(other):
                both = (said + f"fn low::third: no proof: expected answers in ./proofs/{other}/Answers.antt; "
                               "`search` did not prove `x`\n")
                self.assertEqual(self.tried([self.edit("first.same", FIRST)], (1, both)),
                                 {"first.same.edit": is_refused})

    def test_empty_answers_and_checks_that_die_say_nothing(self):
        for status, said in ((0, ""), (1, ""), (2, "fn low::first: not proved\n"),
                             (-9, "fn low::first: not proved\n"), (3, "")):
            with self.subTest(status=status, said=said):
                self.alone = []
                self.assertEqual(self.tried([self.edit("first.same", FIRST)], (status, said)),
                                 {"first.same.edit": False})
                self.assertEqual(self.alone, ["first.same.edit"])

    def test_unread_text_says_nothing(self):
        said = "src/lib.rt:8:5: error: `m` is not in scope\nfn low::first: not proved\n"
        self.assertEqual(self.tried([self.edit("first.same", FIRST)], (1, said)), {"first.same.edit": False})

    def test_edit_that_does_not_apply_is_tried_alone(self):
        for name, text in (("old.gone", "file: src/lib.rt\nold: n + 2\nnew: n\n"),
                           ("file.gone", "file: src/no.rt\nold: n\nnew: m\n")):
            with self.subTest(name):
                self.alone = []
                self.assertEqual(self.tried([self.edit(name, text)]), {f"{name}.edit": False})
                self.assertEqual(self.alone, [f"{name}.edit"])


class Records(side_by_side.Case):
    """A repository of two crates, the upper of which has an edit."""

    def setUp(self):
        super().setUp()
        self.root = self.folder
        (self.root / "crates.txt").write_text("low:\nhigh: low indexmap   # a crate of the kit\n")
        self.write("crates/low/src/lib.rt", CODE)
        self.write("crates/low/specs/Lib.antt", "-- none\n")
        self.write("crates/low/proofs/Lemmas.antt", "lemma a\n")
        self.write("crates/low/proofs/first/Answers.antt", "answer\n")
        self.write("crates/high/src/lib.rt", "//! High.\n")
        self.write("crates/high/must-fail/f.wrong.edit", FIRST)
        self.before = self.state()

    def write(self, path, text):
        file = self.root / path
        file.parent.mkdir(parents=True, exist_ok=True)
        file.write_text(text)

    def state(self, logic="0123"):
        return record.Layers(self.root).state("high", logic)

    def test_bodies_proofs_and_comments_below_change_nothing(self):
        self.write("crates/low/src/lib.rt",
                   CODE.replace("    n + 1\n}", "    1 + n\n}").replace("/// One more.", "/// Two."))
        self.write("crates/low/proofs/first/Answers.antt", "another answer\n")
        self.assertEqual(self.state(), self.before)

    def test_everything_else_changes_the_sum(self):
        for path, text in (
            ("crates/low/src/lib.rt", CODE.replace("result ≡ n + 1", "result ≡ n")),
            ("crates/low/src/lib.rt", CODE.replace("n < 255", "n < 254")),
            ("crates/low/specs/Lib.antt", "a : ℕ\n"),
            ("crates/low/proofs/Lemmas.antt", "lemma b\n"),
            ("crates/high/src/lib.rt", "//! High.\nfn f() {}\n"),
            ("crates/high/proofs/f/Answers.antt", "answer\n"),
            ("crates/high/must-fail/f.wrong.edit", LEFT),
            ("crates/high/must-fail/g.planted.edit", LEFT),
            ("crates.txt", "low:\nhigh: low\n"),
        ):
            with self.subTest(path=path, text=text):
                file = self.root / path
                old = file.read_text() if file.exists() else None
                self.write(path, text)
                self.assertNotEqual(self.state(), self.before)
                if old is None:
                    file.unlink()
                else:
                    file.write_text(old)
        self.assertEqual(self.state(), self.before)
        self.assertNotEqual(self.state("4567"), self.before)

    def test_a_crate_is_built_where_it_is_proved_and_where_an_earlier_run_proved_it(self):
        lines = {
            "rt: low proved\n": "low",
            "rt: low is kept: an earlier run on this machine proved the same files over the same libraries\n":
                "low",
            "rt: low NOT PROVED\n": None,
            "rt: low: its tests are proved\n": None,
            "fn low::first: proved\n": None,
        }
        self.assertEqual({line: kit.built_in(line) for line in lines}, lines)

    def test_each_edit_is_drawn_by_a_tenth_of_the_commits(self):
        edits = [*range(336)]
        drawn = {tuple(record.drawn(f"{number:040x}", edits)) for number in range(1000)}
        self.assertEqual(sorted(edit for one in drawn for edit in one), edits)
        self.assertTrue(all(32 <= len(one) <= 34 for one in drawn))

    def test_a_record_is_read_as_written(self):
        path = self.root / "sums"
        self.assertEqual(record.read(path), {})
        record.write(path, {"low": "1", "high": "2"})
        self.assertEqual(record.read(path), {"low": "1", "high": "2"})

    def test_a_change_names_the_crates_above(self):
        layers = record.Layers(self.root)
        files = {"crates/low/src/lib.rt", "crates/high/must-fail/f.wrong.edit", "docs/x.md",
                 "crates/none/src/lib.rt"}
        self.assertEqual(changed.crates_in(files, layers.uses), {"low"})
        self.assertEqual(layers.above({"low"}), ["low", "high"])

    def test_a_change_names_the_tests_of_its_package(self):
        """With --quick those of its own alone."""
        for files, is_quick, folders in (({"python/shb_fix/lines.py"}, True, {"tests": ["test_fix"]}),
                                         ({"docs/GUIDE.md", "tests/viewing.py"}, True, {}),
                                         ({"recorder/tests/test_uses.py", "tests/test_gone.py"}, True,
                                          {"recorder/tests": ["test_uses"]})):
            self.assertEqual(changed.tests_of(files, is_quick), folders)
        found = changed.tests_of({"python/shb_view/text.py"}, True)
        self.assertEqual(list(found), ["tests"])
        self.assertIn("test_view_page", found["tests"])
        self.assertIn("test_blamed", changed.tests_of({"python/shb_view/text.py"}, False)["recorder/tests"])
        self.assertIn("test_words", changed.tests_of({"tests/viewing.py"}, False)["tests"])


if __name__ == "__main__":
    unittest.main()
