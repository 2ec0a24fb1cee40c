#!/usr/bin/env python3
"""Says which files of crates 'rt fmt' would change, and which lines of Python and C are too long.

Each crate is formatted in a copy. `rt ci` refuses one that isn't, but only once it has proved those below it.
Ends with the line 'N passed, N failed'.
"""

import concurrent.futures
import filecmp
import itertools
import pathlib
import re
import shutil
import subprocess
import sys
import tempfile

ROOT = pathlib.Path(__file__).resolve().parent.parent
MOST = 110      # characters in a line of Python or C
C = re.compile(r"(?!recorder/tests/).*\.[chS]")     # tests name lines of their programs


def is_source(name, text):
    """Whether a file is Python, of which commands have no ending, or C."""
    return name.endswith(".py") or bool(re.match("#!.*python", text) or C.fullmatch(name))


def too_long(name, text):
    """The lines of a file that are too long."""
    return [f"{name}:{number}: {len(line)} characters, and {MOST} are allowed"
            for number, line in enumerate(text.split("\n"), 1) if len(line) > MOST]


def sources(root):
    """The files of Python and C that git tracks or would, each with its text."""
    listing = ["git", "-C", root, "ls-files", "-co", "--exclude-standard"]
    for name in subprocess.run(listing, capture_output=True, check=True, text=True).stdout.splitlines():
        if (root / name).is_file():
            text = (root / name).read_text(encoding="utf-8", errors="replace")
            if is_source(name, text):
                yield name, text


def changed(folder, copy):
    """The files of a crate that its formatted copy has otherwise."""
    files = [path.relative_to(copy) for path in sorted(copy.rglob("*")) if path.is_file()]
    return [folder / file for file in files if not filecmp.cmp(folder / file, copy / file, shallow=False)]


def misplaced(folder, copies):
    """The files of a crate that the formatter changes, or what it says where it fails."""
    copy = copies / folder.name
    shutil.copytree(folder, copy, ignore=shutil.ignore_patterns("out", "must-fail"))
    ran = subprocess.run(["rt", "fmt"], cwd=copy, capture_output=True, text=True)
    return changed(folder, copy) if ran.returncode == 0 else [f"{folder}: {ran.stdout}{ran.stderr}"]


def main():
    crates = [*sorted(path.parent for path in (ROOT / "crates").glob("*/src")), ROOT / "tests" / "calls"]
    passed = failed = 0
    for name, text in sources(ROOT):
        wrong = too_long(name, text)
        failed += bool(wrong)
        passed += not wrong
        print(*wrong, sep="\n", end="\n" * bool(wrong))
    with tempfile.TemporaryDirectory() as room:
        shutil.copy(ROOT / "crates.txt", room)
        copies = pathlib.Path(room) / "crates"
        with concurrent.futures.ThreadPoolExecutor() as pool:
            found = [*pool.map(misplaced, crates, itertools.repeat(copies))]
        for wrong in found:
            failed += bool(wrong)
            passed += not wrong
            for what in wrong:
                print(f"not as rt fmt lays it out: {what}")
    print(f"{passed} passed, {failed} failed")
    return 1 if failed or not passed else 0


if __name__ == "__main__":
    sys.exit(main())
