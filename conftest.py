"""Runs tests by pytest, as `SHB=bin/shb pytest tests/test_view.py -k lock`; the gate runs each folder's
run.py. SHB is the built program, and RECORDER=recorder takes the recorder that `make recorder` built."""

import os
import pathlib
import sys
import tempfile

import pytest

TOP = pathlib.Path(__file__).resolve().parent
sys.dont_write_bytecode = True
sys.path[:0] = [str(TOP / name) for name in ("tests", "recorder/tests", "python/tests", "packaging/tests",
                                             "reference", "python", "packaging", "tests/gate")]

import farm
import installing
import program
import recorder

BUILT = next((path for path in (program.PATH, TOP / "bin/shb") if path.exists()), program.PATH)
program.PATH = farm.SHB = installing.SHB = recorder.SHB = pathlib.Path(os.environ.get("SHB", BUILT)).resolve()


@pytest.fixture(scope="session")
def built_recorder():
    with tempfile.TemporaryDirectory() as folder:
        recorder.build_recorder(pathlib.Path(folder))
        yield


@pytest.fixture(autouse=True)
def with_what_it_needs(request):
    if TOP / "recorder" in request.path.parents:
        request.getfixturevalue("built_recorder")
