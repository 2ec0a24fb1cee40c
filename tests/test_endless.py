"""What tests/endless.py finds in a file of a crate."""

import unittest

import endless

FILE = "shb_write/src/searched.rt"
SEARCH = """use std::sync::Wait;
use std::thread::Threads;

pub fn write_search<R: Threads + Wait + Sync>(rt: &R, races: u64) -> Result<u64, WriteError>
    ensures { IfOk result (λ n. n ≡ races) }
{
    %s
    Ok(races)
}
"""


class Endless(unittest.TestCase):
    def wrong(self, text, *wanted, name=FILE):
        self.assertEqual([where.split(":", 1)[1] for where in endless.wrong_in(name, text)], list(wanted))

    def test_a_loop_that_never_ends(self):
        self.wrong(SEARCH % "if races > 1 << 32 { for _ in rt.forever() {} }", "7: forever")

    def test_a_loop_of_years(self):
        for end, found in (
            ("u64::MAX", "u64::MAX"),
            ("=usize::MAX", "=usize::MAX"),
            ("(1 << 60)", "(1 <<"),
            ("1u64 << 60", "1u64 <<"),
            ("(u64::from(races) << 40)", "(u64::from(races) <<"),
            ("!0u64", "!0u64"),
            ("1_000_000_000_000", "1_000_000_000_000"),
            ("100000", "100000"),
            ("0xFFFF_FFFF_FFFF", "0xFFFF_FFFF_FFFF"),
            ("LONG", "LONG"),
            ("UNKNOWN", "UNKNOWN"),
            ("races.max(u64::MAX)", "races.max(u64::MAX"),
        ):
            code = "const LONG: u64 = 999_999_999;\n" + SEARCH
            self.wrong(code % f"for _ in 0..{end} {{}}", f"8: ..{found}")
        self.wrong(SEARCH % "for k in 0..races {}\n    for k in 0..1_000 {}\n    let none = u64::MAX;\n    "
                            "&bytes[1 << 3..];")
        self.wrong("const FEW: u64 = 1_000;\n" + SEARCH % "for _ in 0..=FEW {}")

    def test_a_loop_of_years_by_what_it_asks(self):
        for asked in ("n < u64::MAX", "n < !0", "n >> 3 < 1 << 60", "n < 0xFFFF_FFFF", "n != 4_294_967_296",
                      "n < LONG"):
            (found,) = endless.wrong_in(FILE, SEARCH % f"while {asked} {{ n += 1; }}")
            self.assertTrue(found.startswith(f"{FILE}:7: while n"), found)
        self.wrong(SEARCH % "while n < races && left >= 10_000 { n += 1; }\n    while let Some(k) = "
                            "next(u64::MAX) {}")

    def test_calls_that_wait(self):
        for line, found in (
            ("std::sync::Mutex::new(races).lock(rt);", "std::sync"),
            ("std::thread::sleep(rt, time);", "std::thread"),
            ("std::time::Instant::now(rt);", "std::time"),
            ("core::sync::Barrier::new(2).enter(rt);", "core::"),
            ("word.park(rt, 0);", "park"),
            ("word.park_timeout(rt, 0, time);", "park_timeout"),
            ("begun.wait(rt);", "wait("),
        ):
            self.wrong(SEARCH % line, f"7: {found}")

    def test_their_imports(self):
        for line, found in (
            ("use std::sync::{OnceLock, Wait};", "std::sync"),
            ("use std::sync;", "std::sync"),
            ("use std::sync::*;", "std::sync"),
            ("use std::sync::Wait as Other;", "std::sync"),
            ("use std::thread::{Threads, yield_now};", "std::thread"),
            ("use std::time::Clock;", "std::time"),
            ("use std::{sync, thread};", "std::{"),
            ("use std::*;", "std::*"),
            ("use std as other;", "std as"),
        ):
            self.wrong(f"{line}\n", f"1: {found}")

    def test_bounds_that_read_devices(self):
        self.wrong("pub fn run<R: Input + Files>(rt: &R)\n", "1: Input", "1: Files")
        self.wrong("pub fn run<R: Input + Files>(rt: &R)\n", name="shb/src/main.rt")

    def test_one_wait_more_and_one_less_where_some_stand(self):
        file = endless.SLEEPS
        text = (endless.CRATES / file).read_text()
        self.assertEqual(endless.wrong_in(file, text), [])
        planted = text + "park_timeout(rt)\n"
        lines = [n for n, line in enumerate(planted.splitlines(), 1) if "park_timeout" in line]
        wanted = rf"{file}: 1 of \bpark_timeout\b are wanted"
        self.assertEqual(endless.wrong_in(file, planted), [f"{file}:{n}: park_timeout" for n in lines]
                         + [wanted])
        (line,) = lines[:-1]
        self.assertEqual(
            endless.wrong_in(file, text.replace("park_timeout", "park")), [wanted, f"{file}:{line}: park"])

    def test_what_waits_for_nothing(self):
        self.wrong("// std::sync::Mutex, rt.forever()\n/// Waits for nothing: `park`.\n" + SEARCH
                   % "stream(rt, alloc, job)?;")


if __name__ == "__main__":
    unittest.main()
