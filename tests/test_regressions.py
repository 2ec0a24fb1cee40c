"""Bugs that were found once by strangers' files: each folder of regressions/ has the files of one, and `case`
with what is run on them in a copy of the folder, the status, and what is said."""

import os
import shutil
import subprocess
import sys

import program

CASES = program.HERE / "regressions"
TOP = program.HERE.parent
COMMANDS = {"shb-view": TOP / "python/shb-view", "shb-farm": TOP / "python/shb-farm",
            "shb-fix": TOP / "python/shb-fix"}


class Regressions(program.Case):
    def test_each_case(self):
        cases = sorted(CASES.iterdir())
        self.assertGreater(len(cases), 11)
        for case in cases:
            with self.subTest(case.name):
                self.run_case(case)

    def run_case(self, case):
        folder = shutil.copytree(case, self.folder / case.name)
        lines = [line.partition(" ")[::2] for line in (case / "case").read_text().splitlines()]
        [words], [status] = ([rest for word, rest in lines if word == wanted] for wanted in ("run", "status"))
        command, *words = words.replace("OUT", f"{self.folder}/out-{case.name}").split(" ")
        ran = subprocess.run([sys.executable, COMMANDS[command], *words], cwd=folder,
                             env={**os.environ, "SHB": str(program.PATH)},
                             stdout=subprocess.PIPE, stderr=subprocess.STDOUT, timeout=program.SECONDS)
        said = ran.stdout.decode()
        self.assertEqual(ran.returncode, int(status), said)
        for word, text in lines:
            if word == "says":
                self.assertIn(text, said)
