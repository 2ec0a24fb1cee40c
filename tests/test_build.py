"""`make` alone, and what is said where the kit isn't there or has another logic. Nothing is proved."""

import pathlib
import re
import shutil
import subprocess

import side_by_side

TOP = pathlib.Path(__file__).resolve().parent.parent
TOOLS = ("cat", "cp", "dirname", "find", "grep", "make", "mkdir", "mktemp", "rm", "sh", "sha256sum", "tar")
LOGIC = re.search(r"^logic=([0-9a-f]{16})$", (TOP / "build.sh").read_text(), re.M)[1]
KIT = """\
#!/bin/sh
case $1 in
    version) echo '{version}' ;;
    ci) mkdir -p crates/shb/out; echo proved > crates/shb/out/shb ;;
esac
"""


class Build(side_by_side.Case):
    """A copy of what builds, without the crates; the kit on the PATH is a script, where there is one."""

    def setUp(self):
        super().setUp()
        self.top, self.tools = self.folder / "top", self.folder / "tools"
        (self.top / "crates").mkdir(parents=True)
        for name in ("Makefile", "build.sh", "crates.txt", "HANDLES"):
            shutil.copy(TOP / name, self.top)
        self.tools.mkdir()
        for name in TOOLS:
            (self.tools / name).symlink_to(shutil.which(name))

    def add_kit(self, version):
        """Puts a kit on the PATH whose `rt version` says this."""
        (self.tools / "rt").write_text(KIT.format(version=version))
        (self.tools / "rt").chmod(0o755)

    def run_it(self, *words):
        return subprocess.run(words, cwd=self.top, env={"PATH": str(self.tools)}, stdin=subprocess.DEVNULL,
                              stdout=subprocess.PIPE, stderr=subprocess.PIPE, universal_newlines=True,
                              timeout=120)

    def test_make_alone_says_what_can_be_made_and_makes_nothing(self):
        self.add_kit(f"a-kit logic {LOGIC}")
        before = sorted(self.top.rglob("*"))
        ran = self.run_it("make")
        self.assertEqual((ran.returncode, ran.stderr, sorted(self.top.rglob("*"))), (0, "", before))
        targets = re.search(r"^\.PHONY: help (.*)$", (TOP / "Makefile").read_text(), re.M)[1].split()
        shown = {line.split()[1]: line for line in ran.stdout.splitlines() if line.startswith("make ")}
        self.assertEqual(sorted(shown), sorted(targets))
        self.assertIn("half an hour; needs the Rattle kit", shown["build"])

    def test_a_missing_kit_is_said_with_what_to_do(self):
        for target in ("build", "run", "install", "dist", "bench"):
            ran = self.run_it("make", "-s", target)
            self.assertNotEqual(ran.returncode, 0, target)
            self.assertIn("build.sh: rt isn't on the PATH. It is in the folder bin of the Rattle kit",
                          ran.stderr)
            self.assertIn("make install SHB=PATH", ran.stderr)
            self.assertNotIn("not found", ran.stderr)
        self.assertFalse((self.top / "bin").exists())

    def test_a_kit_with_another_logic_is_refused(self):
        self.add_kit("a-kit logic 0123456789abcdef")
        ran = self.run_it("make", "-s", "build")
        self.assertNotEqual(ran.returncode, 0)
        self.assertIn("the kit on the PATH is 'a-kit logic 0123456789abcdef', and the proofs are for logic "
                      f"{LOGIC}", ran.stderr)
        self.assertFalse((self.top / "bin").exists())

    def test_a_kit_of_any_name_with_the_logic_builds(self):
        self.add_kit(f"another-kit-99 of another day logic {LOGIC}")
        ran = self.run_it("make", "-s", "build")
        self.assertEqual((ran.returncode, ran.stderr), (0, ""))
        self.assertEqual((self.top / "bin/shb").read_text(), "proved\n")
