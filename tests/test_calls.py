"""What tests/calls.py makes of what `rt try --test` says, and of the repository."""

import pathlib
import re
import tempfile
import unittest

import calls

SAID = ("test fan::tickets_in_turn ... ok\n    a warning\ntest words::help_is_asked_for ... %s\ntest result: "
        "%s\n")
WANTED = {"fan::tickets_in_turn", "words::help_is_asked_for"}


class Calls(unittest.TestCase):
    def test_what_is_said(self):
        self.assertEqual(calls.judged(WANTED, SAID % ("ok", "ok"), 0), (2, 0))
        self.assertEqual(calls.judged(WANTED, SAID % ("FAILED", "FAILED"), 1), (1, 1))
        self.assertEqual(calls.judged(WANTED, "src/fan.rt:3:1: error\n", 1), (0, 2))

    def test_a_test_that_is_left_out(self):
        self.assertEqual(calls.judged({*WANTED, "fan::another"}, SAID % ("ok", "ok"), 0), (2, 1))

    def test_a_run_that_fails_after_its_tests(self):
        self.assertEqual(calls.judged(WANTED, SAID % ("ok", "ok"), 1), (2, 1))

    def test_each_module_is_named_in_the_crates_root(self):
        modules = set(re.findall(r"(?m)^mod (\w+);", (calls.CALLS / "src/lib.rt").read_text()))
        self.assertEqual(modules, {file.stem for file in calls.CALLS.glob("src/*.rt")} - {"lib"})

    def test_the_copy(self):
        with tempfile.TemporaryDirectory() as room:
            folder = calls.make_copy(pathlib.Path(room))
            crates = {it.name for it in folder.parent.iterdir() if it.is_dir()}
            lines = {it.split(":")[0].split()[0]
                     for it in (folder.parent.parent / "crates.txt").read_text().splitlines() if ":" in it}
            self.assertEqual(crates, lines)
            self.assertIn("shb_calls", crates)
            self.assertFalse([*folder.parent.glob("*/out")])


if __name__ == "__main__":
    unittest.main()
