#!/usr/bin/env python3
"""Checks what a change can have broken, and says what it leaves out.

The gate alone (make test) is the verdict.

    changed.py [--quick] [BASE]     BASE is main where it is left out: what was committed since, and what
                                    isn't committed yet

- the form of the must-fail edits, the layout, the names in documents;
- `rt check` in each crate that changed and, without --quick, in those above it: over the work that
  earlier checks kept;
- without --quick: the must-fail edits of the crates that the record (tests/gate/refused.sums) doesn't
  answer for, and the crates' calls if a crate changed;
- the tests of the packages that changed (`TESTS` below), with --quick those of their own alone.

--quick is what takes less than five minutes after a small change, once the crates below have
been checked before.
"""

import argparse
import os
import pathlib
import re
import subprocess
import sys

sys.dont_write_bytecode = True

import joint
import kit
import record

ROOT = pathlib.Path(__file__).resolve().parent.parent.parent
SUMS = ROOT / "tests" / "gate" / "refused.sums"
FORMS = ("edits.py", "layout.py", "documents.py", "surface.py", "refusals.py", "endless.py", "weight.py")
# By the beginnings of a changed file's name: the tests of the package alone, which --quick runs too, and
# those that it may break besides. A test that changed runs in any case.
TESTS = (
    ("python/shb_view python/shb-view", "tests/test_view*.py tests/test_facts.py",
     "recorder/tests/test_blamed.py recorder/tests/test_results.py python/tests/test_calls.py"),
    ("python/shb_fix python/shb-fix", "tests/test_fix.py", ""),
    ("python/shb_farm python/shb-farm", "python/tests/test_*.py", ""),
    ("python/shb_record python/shb-record", "recorder/tests/test_results.py recorder/tests/test_parts.py",
     "recorder/tests/test_*.py"),
    ("python/shb_common", "python/tests/test_*.py", "tests/test_view*.py recorder/tests/test_*.py"),
    ("recorder/", "recorder/tests/test_parts.py recorder/tests/test_uses.py", "recorder/tests/test_*.py"),
    ("packaging/ Makefile", "packaging/tests/test_install.py", "packaging/tests/test_*.py"),
    ("crates/ reference/ examples/", "", "tests/test_*.py"),
)
SHARED = re.compile(r"(?:.+/)?tests/(?!test_|run)\w+\.py")


def git(*words):
    return subprocess.run(["git", "-C", ROOT, *words], capture_output=True, check=True, text=True).stdout


def files_since(base):
    """The files that differ from where the branch left the base, with those that aren't committed."""
    since = git("merge-base", base, "HEAD").strip()
    return {*git("diff", "--name-only", since).split("\n"),
            *git("ls-files", "-o", "--exclude-standard").split("\n")} - {""}


def crates_in(files, known, parts=("src/", "specs/", "proofs/")):
    """The crates in which a file of some parts changed."""
    split = (file.split("/", 2) for file in files if file.startswith("crates/"))
    return {it[1] for it in split if len(it) == 3 and it[1] in known and it[2].startswith(parts)}


class Steps:
    """The steps that were run, and those that failed."""

    def __init__(self):
        self.passed, self.failed = 0, []

    def note(self, what, is_well):
        print(f"{what}: {'passed' if is_well else 'FAILED'}", flush=True)
        self.passed += is_well
        self.failed += [what] * (not is_well)

    def run(self, what, words, cwd=ROOT):
        """Runs a command, whose output is shown where it fails."""
        ran = subprocess.run(words, cwd=cwd, stdin=subprocess.DEVNULL, stdout=subprocess.PIPE,
                             stderr=subprocess.STDOUT)
        if ran.returncode:
            print(ran.stdout.decode(errors="replace"), end="")
        self.note(what, ran.returncode == 0)
        return ran.returncode == 0


def try_edits(steps, layers, known):
    """Tries the edits of the crates that the record doesn't answer for, over the libraries
    that checks left."""
    sums = record.read(SUMS)
    stale = [it for it in known if layers.edits(it) and layers.state(it, kit.logic()) != sums.get(it)]
    print(f"the record doesn't answer for the edits of {len(stale)} crates: {' '.join(stale) or 'none'}")
    for name in stale:
        if steps.run(f"rt lib {name}", ["rt", "lib"], ROOT / "crates" / name):
            for is_refused, text in joint.tried(kit.crates_of(ROOT)[name], layers.edits(name)):
                steps.note(text, is_refused)


def tests_of(files, is_quick):
    """The tests that these changed files may break, by the folder whose run.py runs them."""
    patterns = [file for file in files if pathlib.PurePath(file).match("tests/test_*.py")]
    if not is_quick:    # what several tests of a folder share
        patterns += [f"{os.path.dirname(file)}/test_*.py" for file in files if SHARED.fullmatch(file)]
    for heads, own, further in TESTS:
        if any(file.startswith(tuple(heads.split())) and "/tests/" not in file for file in files):
            patterns += [*own.split(), *([] if is_quick else further.split())]
    names = {path.relative_to(ROOT) for it in patterns for path in ROOT.glob(it)}
    found = {}
    for path in sorted(names):
        found.setdefault(str(path.parent), []).append(path.stem)
    return found


def run_tests(steps, found):
    """Runs these tests, on the program if it is built, and says whether it is."""
    program = next((it for it in (pathlib.Path(os.environ.get("SHB", "none")), ROOT / "crates/shb/out/shb",
                                  ROOT / "bin/shb") if it.exists()), None)
    for folder, names in found.items() if program else ():
        what = f"{folder}: {len(names)} files of tests on {program}"
        steps.run(what, [sys.executable, f"{folder}/run.py", str(program.resolve()), *names])
    return program is not None


def check_change(base, is_quick):
    steps, files, layers = Steps(), files_since(base), record.Layers(ROOT)
    changed = crates_in(files, layers.uses)
    to_check = [it for it in layers.above(changed) if it in changed or not is_quick]
    left_out = ["the proofs of the other crates, which stand on nothing that changed"]
    for name in FORMS:
        steps.run(f"tests/{name}", [sys.executable, f"tests/{name}"])
    for name in to_check:
        steps.run(f"rt check {name}", ["rt", "check"], ROOT / "crates" / name)
    if is_quick:
        left_out += ["the crates above those that changed", "all must-fail edits", "the tests of the crates"]
    else:
        left_out.append("a tenth of the edits that the record answers for")
        if any(file.startswith(("crates/", "tests/calls")) for file in files):
            steps.run("tests/calls.py", [sys.executable, "tests/calls.py"])
        try_edits(steps, layers, layers.above({*layers.uses}))
    found = tests_of(files, is_quick)
    has_program = run_tests(steps, found)
    left_out.append("the tests of what didn't change" if has_program or not found else
                    "all tests, since no program is built: `make build`, or SHB=PATH")
    print("left out: " + "; ".join(left_out))
    print(f"{steps.passed} passed, {len(steps.failed)} failed")
    return 1 if steps.failed else 0


def main():
    parser = argparse.ArgumentParser(description=__doc__.splitlines()[0])
    parser.add_argument("--quick", action="store_true")
    parser.add_argument("base", nargs="?", default="main")
    options = parser.parse_args()
    return check_change(options.base, options.quick)


if __name__ == "__main__":
    sys.exit(main())
