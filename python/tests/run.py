#!/usr/bin/env python3
"""The tests of what the commands share, and of the farm, two at a time; ends with the line 'N
passed, N failed'.

    run.py [SHB [TEST..]]

SHB is the analyser, ../../crates/shb/out/shb where it is left out. TESTs name single ones, as test_known or
test_stacks.Readers.
"""

import pathlib
import sys

HERE = pathlib.Path(__file__).resolve().parent
TOP = HERE.parents[1]
sys.dont_write_bytecode = True
sys.path[:0] = [str(HERE), str(HERE.parent)]
sys.path.append(str(TOP / "tests"))

import farm
import side_by_side

if __name__ == "__main__":
    if len(sys.argv) > 1:
        farm.SHB = pathlib.Path(sys.argv[1]).resolve()
    sys.exit(side_by_side.run_all(HERE, sys.argv[2:]))
