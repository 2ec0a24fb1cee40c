"""What tests/refusals.py finds in the files of a crate, and that `NoMemory` and `Keys` can be made in their
own modules alone."""

import re
import unittest

import refusals

FILE = "shb_pairs/src/piece.rt"
NEEDLESS = """fn f(n: u32) -> Result<u32, NoMemory>
    ensures { OnErr result ⊤ }
{
    if n > 65_536 {
        return %s;
    }
    Ok(n)
}
"""


class Refusals(unittest.TestCase):
    def wrong(self, text, *wanted, name=FILE):
        self.assertEqual([where.split(":", 1)[1] for where in refusals.wrong_in(name, text)], list(wanted))

    def test_a_needless_refusal_by_the_kits_error(self):
        self.wrong(NEEDLESS % "Err(NoMemory::from(AllocError))", "5: AllocError")
        self.wrong(NEEDLESS % "Err(std::alloc::AllocFailed { value: 0 })?", "5: AllocFailed")

    def test_names_of_the_kit(self):
        self.wrong("use std::alloc::{AllocError, Global};\n", "1: AllocError")
        self.wrong("use std::collections::TryReserveError as Other;\n", "1: TryReserveError")
        self.wrong("let made = Err(SpawnError { value: 0 })?;\n", "1: SpawnError")
        self.wrong("let kind = ErrorKind::OutOfMemory;\n", "1: OutOfMemory")

    def test_an_allocator_and_a_random_source(self):
        self.wrong("unsafe impl Allocator for Refusing {}\nimpl<T> RandomSource\n    for Failing<T> {}\n",
                   "1: Allocator for", "2: RandomSource\n    for")

    def test_hashers(self):
        self.wrong("impl BuildHasher for Keyless {\n", "1: BuildHasher")
        self.wrong("impl Hasher for Keyless {\n", "1: Hasher for")
        self.wrong("    fn hash<H: Hasher>(&self, state: &mut H) {\n")
        self.wrong("let keys = RandomState::new();\n", "1: RandomState")
        self.wrong("rt.fill_bytes(&mut bytes);\n", "1: fill_bytes")
        self.wrong("return Err(NoMemory::of_random_source());\n", "1: of_random_source",
                   name="shb_io/src/page_sink.rt")
        self.wrong("IndexMap::with_hasher(alloc, HashKeys::new(rt)?);\n")

    def test_the_file_that_converts(self):
        self.wrong("impl From<AllocError> for NoMemory {\n    fn from(_error: AllocError) -> NoMemory {\n",
                   name=refusals.CONVERTS)
        self.wrong("impl From<AllocError> for WordsFault {\n", "1: AllocError", name="shb_words/src/plan.rt")

    def test_what_makes_none(self):
        self.wrong("/// `Err(NoMemory)` where none is left; AllocError.\n// OutOfMemory\n")
        self.wrong("use shb_io::{NoMemory, "
                   "Sink};\nErr(NoMemory::from(refused))\nErr(WriteError::Memory(refused))\n")

    def test_only_its_module_can_make_one(self):
        for file, name in ((refusals.CONVERTS, "NoMemory"), (refusals.KEYS, "Keys")):
            struct = re.search(rf"pub struct {name} \{{(.*?)\}}", (refusals.CRATES / file).read_text(), re.S)
            self.assertRegex(struct.group(1), r"^\s*\w+: ")
            self.assertNotIn("pub", struct.group(1))


CODE = """const ROOM: usize = usize::MAX;
const SOME: usize = 1 << 16;

fn room(alloc: Global, xs: &[u32], most: usize, count: u32) -> Result<Vec<u64>, NoMemory>
    requires {{ most = 1 }}
{{
    let long = 2 * xs.len() + 1;
    let shifted = 1 << 60;
    let mut growing = 4;
    growing *= growing;
    {}
}}
"""


class Sizes(unittest.TestCase):
    def wrong(self, code, *wanted, **others):
        files = {FILE: code, **{f"{name}/src/lib.rt": text for name, text in others.items()}}
        self.assertEqual(refusals.Sizes(files).all_wrong(), list(wanted))

    def test_a_size_that_no_machine_has(self):
        for request in (
            "with_capacity(alloc, usize::MAX)",
            "with_capacity(alloc, 0x0FFF_FFFF_FFFF_FFFF)",
            "with_capacity(alloc, !0)",
            "with_capacity(alloc, ROOM)",
            "with_capacity(alloc, UNKNOWN)",
            "with_capacity(alloc, if xs.len() == 31 { 0x0FFF_FFFF } else { 0 })",
            "with_capacity(alloc, most_of(xs))",
            "with_capacity(alloc, xs.len() * xs.len())",
            "with_capacity(alloc, xs[0] as usize)",
            "with_capacity(alloc, shifted)",
            "with_capacity(alloc, growing)",
            "with_capacity_and_hasher(alloc, usize::MAX, keys)",
            "reserve(1 << 60)",
            "reserve_exact(65_537)",
            "try_reserve(1_000_000_000_000)",
            "resize(xs.len().max(1 << 60), 0)",
            "repeat(alloc, usize::MAX)",
            "vec![in alloc; 0u64; !0usize]",
            "vec![in alloc; (); ROOM]",
        ):
            self.wrong(CODE.format(f"made.{request}?;" if request[0] != "v" else f"{request}?;"),
                       f"{FILE}:11: {request}")

    def test_a_request_that_is_handed_on(self):
        self.wrong(CODE.format("let make = Vec::with_capacity;"), f"{FILE}:11: with_capacity")
        self.wrong(CODE.format("Vec::with_capacity::<u64>(alloc, 1)?;"), f"{FILE}:11: with_capacity")

    def test_an_array_whose_length_is_asked_for(self):
        self.wrong("const NONE: [(); 4_294_967_295] = [(); 4_294_967_295];\n",
                   *[f"{FILE}:1: [(); 4_294_967_295]"])
        self.wrong(CODE.format("let none = [(); 1 << 40].len();"), f"{FILE}:11: [(); 1 << 40]")

    def test_sizes_that_are_needed(self):
        for size in ("0", "65_536", "SOME", "xs.len()", "long", "most", "count as usize + 1",
                     "8 * count as usize", "trace.variables() as usize",
                     "(linked.sizes.threads as usize)", "u64::from(count) as usize", "most.min(filled + 1)",
                     "xs.len().max(most + 1)"):
            self.wrong(CODE.format(f"Vec::with_capacity(alloc, {size})?;"))
            self.wrong(CODE.format(f"vec![in alloc; ROOM; {size}]?;"))
        self.wrong(CODE.format("let bytes = [0; 16];\n    let all: [u8; SOME] = made;"))

    def test_an_argument_is_looked_at_in_each_call(self):
        code = CODE.format("Vec::with_capacity(alloc, most)?;")
        call = "fn take(n: u64) {\n    room(alloc, &[1, 2], %s, 3)?;\n}\n"
        self.wrong(code, shb_run=call % "n as usize")
        self.wrong(code, "shb_run/src/lib.rt:2: room(alloc, &[1, 2], !0, 3)", shb_run=call % "!0")
        self.wrong(code, "shb_run/src/lib.rt:6: take(1 << 60)",
                   shb_run=call % "n as usize" + "\nfn far() {\n    take(1 << 60)?;\n}\n")

    def test_an_argument_that_is_changed(self):
        for change in ("most *= 2;", "let most = 1 << 60;", "for most in 0..9 {}"):
            self.wrong(CODE.format(f"{change} Vec::with_capacity(alloc, most)?;"),
                       f"{FILE}:11: with_capacity(alloc, most)")

    def test_methods(self):
        code = ("impl<T> Table<T> {\n    fn new(alloc: Global, room: usize) -> Self {\n"
                "        Vec::with_capacity(alloc, room)\n    }\n\n"
                "    fn grow(&mut self, more: usize) {\n        self.items.reserve(more);\n    }\n}\n")
        self.wrong(code, shb_run="fn f() {\n    Table::new(alloc, 9).grow(xs.len());\n    Other::new(alloc, "
                                 "!0);\n}\n")
        self.wrong(code, "shb_run/src/lib.rt:2: Table::new(alloc, !0)", "shb_run/src/lib.rt:2: .grow(1 << 9)",
                   shb_run="fn f() {\n    Table::new(alloc, !0).grow(1 << 9);\n}\n")

    def test_an_exception_that_stands_no_more(self):
        (file, size), *_ = refusals.OTHERS
        self.assertEqual(refusals.Sizes({file: "fn f() {}\n"}).all_wrong()[0],
                         f"{file}: {size} is no size there")


if __name__ == "__main__":
    unittest.main()
