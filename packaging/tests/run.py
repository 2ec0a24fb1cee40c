#!/usr/bin/env python3
"""The tests of the installation; ends with the line 'N passed, N failed'.

    run.py [SHB [TEST..]]

SHB is the built program, ../../crates/shb/out/shb where it is left out. TESTs name single ones, as
test_package or test_manual.Pages. What needs a shell or a reader of manual pages that isn't installed is
skipped with a word.
"""

import pathlib
import sys

HERE = pathlib.Path(__file__).resolve().parent
sys.dont_write_bytecode = True
sys.path[:0] = [str(HERE), str(HERE.parent), str(HERE.parents[1] / "python")]
sys.path.append(str(HERE.parents[1] / "tests"))

import installing
import side_by_side

if __name__ == "__main__":
    if len(sys.argv) > 1:
        installing.SHB = pathlib.Path(sys.argv[1]).resolve()
    sys.exit(side_by_side.run_all(HERE, sys.argv[2:], at_once=1))   # they share an installation
