"""The step that looks at the layout complains of a line of Python or C that is too long."""

import pathlib
import subprocess
import tempfile
import unittest

import layout


class Lines(unittest.TestCase):
    def test_the_longest_line(self):
        """Characters count, not bytes."""
        fits = "\u00e9" * 110
        self.assertEqual(layout.too_long("a.py", f"\n{fits}\n"), [])
        self.assertEqual(layout.too_long("a.py", f"\n{fits}x\n"),
                         ["a.py:2: 111 characters, and 110 are allowed"])

    def test_sources(self):
        """By their names or by their first lines, in git or about to be."""
        with tempfile.TemporaryDirectory() as folder:
            for name, text in (("a.py", ""), ("a-command", "#!/usr/bin/env python3\n"),
                               ("b.sh", "#!/bin/sh\n"), ("b.c", ""), ("b.cc", "/* #!python */\n"),
                               ("gone.py", ""), ("ignored.py", "")):
                (pathlib.Path(folder) / name).write_text(text)
            git = ["git", "-C", folder]
            subprocess.run([*git, "init", "-q"], check=True)
            subprocess.run([*git, "add", "a.py", "gone.py"], check=True)
            (pathlib.Path(folder) / ".gitignore").write_text("ignored.py\n")
            (pathlib.Path(folder) / "gone.py").unlink()
            self.assertEqual(sorted(name for name, _ in layout.sources(pathlib.Path(folder))),
                             ["a-command", "a.py", "b.c"])
