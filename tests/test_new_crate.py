"""make new-crate, in a repository of one crate; nothing is proved."""

import pathlib
import shutil
import subprocess

import side_by_side

TOP = pathlib.Path(__file__).resolve().parent.parent


class NewCrate(side_by_side.Case):
    def setUp(self):
        super().setUp()
        self.top = self.folder
        for name in ("Makefile", "HANDLES", ".gitignore"):
            shutil.copy(TOP / name, self.top)
        (self.top / "crates.txt").write_text("shb_io:\n")
        shutil.copytree(TOP / "crates/shb_io/src", self.top / "crates/shb_io/src")
        shutil.copy(TOP / "crates/new.sh", self.top / "crates")

    def run_it(self, name="", *uses):
        return subprocess.run(["make", "-s", "new-crate", f"NAME={name}", f"USES={' '.join(uses)}"],
                              cwd=self.top, stdout=subprocess.PIPE, stderr=subprocess.PIPE, timeout=120)

    def files(self):
        return sorted(str(path.relative_to(self.top))
                      for path in self.top.rglob("*") if path.is_file() and "shb_io" not in path.parts)

    def test_a_crate(self):
        before = self.files()
        ran = self.run_it("shb_new", "shb_io", "memchr")
        self.assertEqual((ran.returncode, ran.stderr[-200:] if ran.returncode else b""), (0, b""))
        self.assertEqual((self.top / "crates.txt").read_text(), "shb_io:\nshb_new: shb_io memchr\n")
        self.assertIn("#![tactic(auto)]\n", (self.top / "crates/shb_new/src/lib.rt").read_text())
        made = set(self.files()) - set(before)
        self.assertEqual({name.split("/")[1] for name in made}, {"shb_new"})
        self.assertFalse([name for name in made if name.endswith("BUILD.bazel")])
        source = (self.top / "crates/shb_new/src/lib.rt").read_bytes()
        subprocess.run(["rt", "fmt"], cwd=self.top / "crates/shb_new", stdout=subprocess.DEVNULL, check=True,
                       timeout=120)
        # it is laid out as the gate wants it
        self.assertEqual((self.top / "crates/shb_new/src/lib.rt").read_bytes(), source)

    def test_a_crate_that_uses_nothing(self):
        self.assertEqual(self.run_it("shb_new").returncode, 0)
        self.assertEqual((self.top / "crates.txt").read_text(), "shb_io:\nshb_new:\n")

    def test_what_is_refused_changes_nothing(self):
        before = self.files()
        for words in ([], [""], ["shb"], ["shb_"], ["shb_X"], ["other"], ["shb_a/b"], ["../shb_a"],
                      ["shb_io"], ["shb_new", "shb_none"]):
            ran = self.run_it(*words)
            self.assertEqual((ran.returncode, ran.stdout), (2, b""), words)
            self.assertTrue(ran.stderr.startswith(b"new-crate: "), ran.stderr)
        self.assertEqual((self.files(), (self.top / "crates.txt").read_text()), (before, "shb_io:\n"))
