#!/usr/bin/env python3
"""The recorder's tests, two at a time; ends with the line 'N passed, N failed'.

    run.py [SHB [TEST..]]

SHB is the analyser, ../../crates/shb/out/shb where it is left out. TESTs name single ones, as test_programs
or test_record.Canned. The recorder is built from nothing in a folder of its own.
"""

import pathlib
import sys
import tempfile

HERE = pathlib.Path(__file__).resolve().parent
sys.dont_write_bytecode = True
sys.path.insert(0, str(HERE))
sys.path += [str(HERE.parents[1] / name) for name in ("tests", "python")]

import recorder
import side_by_side

if __name__ == "__main__":
    if len(sys.argv) > 1:
        recorder.SHB = pathlib.Path(sys.argv[1]).resolve()
    with tempfile.TemporaryDirectory() as folder:
        recorder.build_recorder(pathlib.Path(folder))
        sys.exit(side_by_side.run_all(HERE, sys.argv[2:]))
