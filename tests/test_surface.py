"""What tests/surface.py finds in the sources of crates that it is given, and that its table has every crate
of the library."""

import re
import unittest

import exports
import surface

LOW = {
    "lib.rt": "mod kinds;\npub mod machine;\n\npub use kinds::{Kind, Pair, Room, make_pair};\npub use "
              "machine::advance as go_on;\n",
    "kinds.rt": """/// A kind.
#[derive(Clone, Copy)]
pub enum Kind {
    /// The first.
    First,
    Second(u32, Pair),
    Third { at: usize },
}

pub struct Pair {
    pub first: u32,
    /// The second.
    pub second: Option<u32>,
    pub ghost few: { first ≡ second },
}

pub struct Room<'a, T: Drop, const N: usize> {
    bytes: &'a [T],
}

impl<'a, T: Drop> Room<'a, T> {
    /// Bytes, not { braces }.
    pub fn bytes(&self, mut from: u32) -> Result<&'a [u8], Pair>
        requires { from ≤ 1 }
    {
        inner()
    }

    fn inner() {}
}

impl<T: Drop> Clone for Room<'_, T> {
    fn clone(&self) -> Self {}
}

pub fn make_pair<R: Into<Pair>>(
    rt: &R,
    pairs: Vec<(Pair, Room<'_, u8>)>,
) -> Pair {
    1
}
""",
    "machine.rt": "pub trait Step<T> {\n    type Error;\n\n    ghost leaves: { Self };\n\n    fn step(&mut "
                  "self, k: u64) -> Result<(), Self::Error>\n        ensures { self.new };\n}\n\npub fn "
                  "advance(step: &dyn Step<u32>) {}\n\npub struct Unit;\n",
}
HIGH = {"lib.rt": "pub use low::{\n    Kind, Pair as Two,\n};\npub use low::Room;\n"}
TABLE = """low
    enum Kind { First, Second(u32, Pair), Third { at: usize } }
    struct Pair { first: u32, second: Option<u32> }
    struct Room
    Room::bytes(&self, u32) -> Result<&[u8], Pair>
    fn make_pair(&R, Vec<(Pair, Room<u8>)>) -> Pair
    mod machine
    trait machine::Step { type Error; step(&mut self, u64) -> Result<(), Self::Error> }
    fn machine::advance(&dyn Step<u32>)
    struct machine::Unit;
high
    enum Kind { First, Second(u32, Pair), Third { at: usize } }
    Room::bytes(&self, u32) -> Result<&[u8], Pair>  # borrowed from the room
    struct Two { first: u32, second: Option<u32> }
"""


class Surface(unittest.TestCase):
    def wrong(self, low=LOW, table=TABLE, reasons="- **It is borrowed from the room**"):
        """The lines of the table that are found wrong, without the rest of what is said."""
        wrong, count = surface.wrong_in(table, surface.Sources({"low": low, "high": HIGH}), reasons)
        self.assertEqual(count, table.count("\n    "))
        return [it.split("\n")[1].strip() for it in wrong]

    def changed(self, old, new, file="kinds.rt"):
        self.assertIn(old, LOW[file])
        return self.wrong({**LOW, file: LOW[file].replace(old, new)})

    def test_what_stands_as_in_the_table(self):
        self.assertEqual(self.wrong(), [])

    def test_what_isnt_exported_any_more(self):
        lines = [it.strip() for it in TABLE.split("\n")]
        self.assertEqual(self.changed("Pair, Room, ", "Room, ", "lib.rt"), [lines[2], lines[13]])
        self.assertEqual(self.changed(", make_pair", "", "lib.rt"), lines[5:6])
        self.assertEqual(self.changed("pub mod machine", "mod machine", "lib.rt"), lines[6:10])
        self.assertEqual(self.changed("Kind, ", "", "lib.rt"), [lines[1], lines[11]])

    def test_a_deleted_or_renamed_item(self):
        self.assertEqual(self.changed("pub fn bytes", "pub fn all_bytes"),
                         ["Room::bytes(&self, u32) -> Result<&[u8], Pair>"] * 2)
        self.assertEqual(self.changed("pub fn bytes", "fn bytes"),
                         ["Room::bytes(&self, u32) -> Result<&[u8], Pair>"] * 2)
        self.assertEqual(len(self.changed("pub struct Pair", "pub struct Couple")), 2)
        self.assertEqual(self.changed("pub fn advance", "pub fn proceed",
                                      "machine.rt"), ["fn machine::advance(&dyn Step<u32>)"])

    def test_another_signature(self):
        bytes_of, make = ("Room::bytes(&self, u32) -> Result<&[u8], Pair>",
                          "fn make_pair(&R, Vec<(Pair, Room<u8>)>) -> Pair")
        self.assertEqual(self.changed("mut from: u32", "from: u64"), [bytes_of] * 2)
        self.assertEqual(self.changed("&self, mut", "&mut self, mut"), [bytes_of] * 2)
        self.assertEqual(self.changed("mut from: u32", "from: u32, to: u32"), [bytes_of] * 2)
        self.assertEqual(self.changed("Result<&'a [u8], Pair>", "&'a [u8]"), [bytes_of] * 2)
        self.assertEqual(self.changed("Room<'_, u8>)>,\n) -> Pair",
                                      "Room<'_, u8>)>,\n) -> Option<Pair>"), [make])
        self.assertEqual(self.changed("(step: &dyn Step<u32>)", "()",
                                      "machine.rt"), ["fn machine::advance(&dyn Step<u32>)"])
        self.assertEqual(self.changed("k: u64", "k: u32", "machine.rt"), [TABLE.split("\n")[7].strip()])

    def test_other_fields_and_variants(self):
        kind, pair = TABLE.split("\n")[1].strip(), TABLE.split("\n")[2].strip()
        for old, new in (("First,", "First,\n    Fourth,"), ("First,", ""), ("First,", "Primary,"),
                         ("{ at: usize }", "(usize)"), ("(u32, Pair)", "(u32)")):
            self.assertEqual(self.changed(old, new), [kind] * 2, new)
        for old, new in (("pub first: u32", "first: u32"), ("pub first: u32", "pub first: u64"),
                         ("pub first: u32,", ""), ("pub second", "pub other")):
            self.assertEqual(self.changed(old, new), [pair, pair.replace("Pair", "Two")], new)
        self.assertEqual(self.changed("pub struct Unit;", "pub struct Unit {\n    pub a: u32,\n}",
                                      "machine.rt"), ["struct machine::Unit;"])
        self.assertEqual(self.changed("    type Error;\n", "", "machine.rt"), [TABLE.split("\n")[7].strip()])

    def test_variants_in_another_order(self):
        self.assertEqual(
            len(self.changed("First,\n    Second(u32, Pair),", "Second(u32, Pair),\n    First,")), 2)

    def test_a_reason_that_isnt_given(self):
        self.assertEqual(self.wrong(reasons="- **Another**"),
                         ["Room::bytes(&self, u32) -> Result<&[u8], Pair>"])

    def test_a_crate_that_isnt_there(self):
        self.assertEqual(self.wrong(table="middle\n    struct Room\n"), ["struct Room"])

    def test_each_name_of_the_table_is_used(self):
        """What nothing calls would be found needless again: tests/calls is its user."""
        lines = [it for it in surface.TABLE.read_text().split("\n") if it.startswith(" ")]
        names = {re.match(r" +(?:(?:struct|enum|trait|fn|mod) )?(?:\w+::)*(\w+)", it)[1] for it in lines}
        names |= {name for it in lines if " trait " in it
                  for name in re.findall(r"(\w+)\(", it.partition("{")[2])}
        used = {it for file in (surface.ROOT / "tests/calls/src").glob("*.rt")
                for it in re.findall(r"\w+", file.read_text())}
        self.assertEqual(sorted(names - used), [])

    def test_the_table_has_the_librarys_crates(self):
        crates = [it.strip() for it in surface.TABLE.read_text().split("\n") if it and not it.startswith(" ")]
        wanted = ("shb_io shb_lines shb_discipline shb_links shb_clocks shb_nearest shb_scan shb_fan "
                  "shb_pairs shb_witness shb_replay shb_report shb_run shb")
        self.assertEqual(crates, wanted.split())


if __name__ == "__main__":
    unittest.main()


class Exports(unittest.TestCase):
    """What isn't in the table has to be listed, and a function without an edit too."""

    def setUp(self):
        laws = {"lib.rt": "pub mod laws;\npub use low::Room;\n", "laws.rt": "pub fn rooms_are_small() {}\n"}
        self.sources = surface.Sources({"low": LOW, "high": laws})

    def test_names_that_the_table_lacks(self):
        table = "low\n    struct Pair\n    Room::bytes(&self)\n    mod machine\n"
        self.assertEqual(exports.beyond(self.sources, table),
                         {"low": {"Kind", "make_pair", "go_on"}, "high": {"laws", "Room"}})

    def test_functions_without_an_edit(self):
        """Those of other crates have their edits there, and laws need none."""
        self.assertEqual(set(exports.functions(self.sources, "low")), {"make_pair", "Room::bytes", "advance"})
        self.assertEqual(exports.without_edit(self.sources, {"low": {"bytes"}}),
                         {"low": {"make_pair", "advance"}, "high": set()})

    def test_a_new_export_and_an_old_line(self):
        listed = exports.read("low\n    also Kind, Gone\n    unedited Room::bytes\n", "also")
        self.assertEqual(listed, {"low": {"Kind", "Gone"}})
        self.assertEqual(list(exports.differences({"low": {"Kind", "New"}}, listed, "is new", "is old")),
                         ["low: New is new", "low: Gone is old"])
        self.assertEqual(list(exports.differences({"low": {"Kind", "Gone"}}, listed, "is new", "is old")), [])
