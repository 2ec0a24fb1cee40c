"""The step that compares tokens with weight.tsv complains of a row that is heavier, lighter, or missing."""

import unittest

import weight

SOURCE = """//! What it is.

ghost use Rattle.std.specs.Prelude.{
    length,
};
use shb_io::{
    NoMemory,
};

/// A number.
pub fn one(
    n: u32,
) -> u32
    requires few { n < 3 }
    ensures { IfOk result (λ found. {
        found ≡ 1
    }) }
{
    // as it is
    let found = 1;

    found
}
"""


class Tokens(unittest.TestCase):
    def test_code_alone_is_counted(self):
        """The signature without its clauses, and the body."""
        self.assertEqual(weight.of_crate("code", SOURCE), (len("pub fn one ( n : u32 , ) - > u32".split())
                                                           + len("{ let found = 1 ; found }".split()), 0))

    def test_a_line_that_is_broken_weighs_the_same(self):
        for kind in ("code", "proofs"):
            self.assertEqual(weight.of_crate(kind, "let a = one(b, c) in\n"),
                             weight.of_crate(kind, "let a =\n    one(b,\n        c)\n  in\n"))

    def test_comments_and_imports_weigh_nothing(self):
        proof = "-- of a\nuse Rattle.std.A.{b, c}\na-b = c -- d\n"
        self.assertEqual(weight.of_crate("proofs", proof), (5, 0))
        for comment, text in ((weight.OF_C, "a = '\"'; // b \"\n/* c\nd */ e = \"//\";"),
                              (weight.OF_PYTHON, 'a = "\\"" # b "\n"""c\nd""" e = \'#"\'')):
            with self.subTest(text):
                self.assertEqual("".join(weight.without(comment, text).split()),
                                 text.split()[0] + "".join(it for it in text.split()[1:]
                                                           if it not in ("//", "#", "b", '"', "/*", "c", "d",
                                                                         "*/", '"""c', 'd"""')))

    def test_lines_that_are_too_long(self):
        """Of code and comments, and of proofs; clauses and imports may have any length."""
        long = "x" * 111
        code = f"// {long}\nuse {long};\n    ensures {{ {long} }}\n{long[1:]}\n"
        self.assertEqual(weight.of_crate("code", code), (1, 1))
        self.assertEqual(weight.of_crate("proofs", f"use {long * 2}\n{long}\n-- {long * 2}\n"), (1, 1))

    def test_rows_of_files(self):
        for path, row in {
            "crates/shb_io/src/lib.rt": ("shb_io", "code"),
            "crates/shb_io/specs/a/Io.antt": ("shb_io", "definitions"),
            "crates/shb_io/proofs/Io.antt": ("shb_io", "proofs"),
            "crates/shb_io/must-fail/one.two.edit": None,
            "recorder/record.h": ("recorder", "C"),
            "python/shb-record": ("python", "Python"),
            "recorder/runtime/hooks.S": ("recorder/runtime", "C"),
            "recorder/tests/run.py": None,
            "packaging/install": ("packaging", "Python"),
            "python/shb_view/page.css": None,
            "tests/weight.py": None,
        }.items():
            with self.subTest(path):
                self.assertEqual(weight.row_of(path), row)


class Complaints(unittest.TestCase):
    ROW = ("shb_io", "code")

    def test_as_the_table_has_it(self):
        self.assertIsNone(weight.complaint(self.ROW, 10, 10))

    def test_more(self):
        self.assertIn("take 1 away", weight.complaint(self.ROW, 11, 10))

    def test_less(self):
        self.assertIn("--lower", weight.complaint(self.ROW, 9, 10))

    def test_no_row(self):
        self.assertIn("no row", weight.complaint(self.ROW, 10, None))


class Lowered(unittest.TestCase):
    def test_only_lower_numbers_are_written(self):
        bounds = {("a", "code"): 10, ("b", "code"): 10, ("gone", "code"): 5}
        found = {("a", "code"): 9, ("b", "code"): 11, ("new", "code"): 3}
        self.assertEqual(weight.lowered(found, bounds), {("a", "code"): 9, ("b", "code"): 10})

    def test_the_table_has_the_rows_of_this_checkout(self):
        self.assertEqual(sorted(weight.table()), sorted(weight.weights(weight.ROOT)))
