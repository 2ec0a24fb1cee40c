#!/usr/bin/env python3
"""Makes each public call of the library's crates, and compares the answers with worked examples. The calls
are a crate of their own, in tests/calls, which is put into a copy of the repository and run there without a
proof: it costs a minute, and so no proof is made dearer by an example. Ends with the line 'N passed, N
failed'.
"""

import pathlib
import re
import shutil
import subprocess
import sys
import tempfile

ROOT = pathlib.Path(__file__).resolve().parent.parent
CALLS = ROOT / "tests" / "calls"
SECONDS, STEPS = 100, 2_000_000_000  # for each test: a wrong body may go on for ever
TEST = re.compile(r"#\[test\]\nfn (\w+)")
RESULT = re.compile(r"(?m)^test (\S+) \.\.\. (\w+)")


def make_copy(room):
    """Copies the crates that the calls need into a folder, and adds theirs. Its folder."""
    kept = shutil.ignore_patterns("out", "must-fail")
    shutil.copytree(ROOT / "crates", room / "crates", ignore=kept)
    (room / "crates.txt").write_text((ROOT / "crates.txt").read_text() + (CALLS / "crates.line").read_text())
    shutil.copy(ROOT / "HANDLES", room)
    shutil.copytree(CALLS / "src", room / "crates" / "shb_calls" / "src")
    return room / "crates" / "shb_calls"


def wanted_tests():
    """The tests of the crate, each as its module and its name."""
    return {f"{file.stem}::{name}" for file in CALLS.glob("src/*.rt")
            for name in TEST.findall(file.read_text())}


def judged(wanted, said, status):
    """How many of the wanted tests passed and failed, by what `rt` said and its status. A run that failed
    otherwise is one that failed."""
    passed = {name for name, result in RESULT.findall(said) if result == "ok"} & wanted
    return len(passed), len(wanted - passed) or int(status != 0)


def main():
    with tempfile.TemporaryDirectory(prefix="calls-") as room:
        words = ["rt", "try", "--test", "--seconds", str(SECONDS), "--steps", str(STEPS)]
        ran = subprocess.run(words, cwd=make_copy(pathlib.Path(room)), stdin=subprocess.DEVNULL,
                             stdout=subprocess.PIPE, stderr=subprocess.STDOUT)
    said = ran.stdout.decode(errors="replace")
    passed, failed = judged(wanted_tests(), said, ran.returncode)
    if failed:
        print(said)
    print(f"{passed} passed, {failed} failed")
    return 1 if failed or not passed else 0


if __name__ == "__main__":
    sys.exit(main())
