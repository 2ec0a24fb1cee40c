"""Which version a command prints: that of the installation, or the commit of its checkout."""

import os
import pathlib
import shutil
import subprocess
import sys

import side_by_side

TOP = pathlib.Path(__file__).resolve().parents[2]
WHEN = "2026-01-02T23:04:05 -0500"      # the next day at Greenwich


class Version(side_by_side.Case):
    def setUp(self):
        super().setUp()
        self.copy = self.folder / "top" / "copy"
        shutil.copytree(TOP / "python", self.copy / "python",
                        ignore=shutil.ignore_patterns("__pycache__", "tests"))

    def git(self, folder, *words):
        environment = {**os.environ, "GIT_AUTHOR_DATE": WHEN, "GIT_COMMITTER_DATE": WHEN,
                       "GIT_CONFIG_GLOBAL": "/dev/null"}
        ran = subprocess.run(["git", "-C", folder, "-c", "user.name=n", "-c", "user.email=e", *words],
                             env=environment, stdout=subprocess.PIPE, check=True)
        return ran.stdout.decode().strip()

    def commit(self, folder):
        for words in (["init", "-q"], ["add", "."], ["commit", "-q", "-m", "all"]):
            self.git(folder, *words)
        return self.git(folder, "rev-parse", "HEAD")[:12]

    def version(self, **settings):
        words = [sys.executable, "-B", self.copy / "python/shb-fix", "--version"]
        return subprocess.run(words, env={**os.environ, **settings}, stdout=subprocess.PIPE,
                              check=True).stdout.decode()

    def test_a_checkout(self):
        commit = self.commit(self.copy)
        self.assertEqual(self.version(TZ="America/New_York"), f"shb-fix 2026.01.03-{commit}\n")
        (self.copy / "untracked").touch()
        self.assertEqual(self.version(), f"shb-fix 2026.01.03-{commit}\n")
        with open(self.copy / "python/shb-fix", "a") as file:
            file.write("\n")
        self.assertEqual(self.version(), f"shb-fix 2026.01.03-{commit}-changed\n")

    def test_what_git_does_not_know(self):
        """No repository, a part of another one, and no git."""
        self.assertEqual(self.version(GIT_CEILING_DIRECTORIES=str(self.folder)), "shb-fix of a checkout\n")
        self.commit(self.folder / "top")
        self.assertEqual(self.version(), "shb-fix of a checkout\n")
        shutil.rmtree(self.folder / "top/.git")
        self.commit(self.copy)
        self.assertEqual(self.version(PATH="/nowhere"), "shb-fix of a checkout\n")

    def test_an_installation(self):
        (self.copy / "VERSION").write_text("2026.02.03-0123456789ab\n")
        for name in ("shb_common", "shb_fix", "shb-fix"):
            os.rename(self.copy / "python" / name, self.copy / name)
        said = subprocess.run([sys.executable, "-B", self.copy / "shb-fix", "--version"],
                              stdout=subprocess.PIPE, check=True).stdout
        self.assertEqual(said, b"shb-fix 2026.02.03-0123456789ab\n")
