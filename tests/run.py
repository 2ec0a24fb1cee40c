#!/usr/bin/env python3
"""Runs the built program as a user would, and ends with the line 'N passed, N failed'.

    run.py [--traces N] [--seed N] [PROGRAM [WORD..]]

PROGRAM is crates/shb/out/shb where it is left out, as `rt ci` and `rt run` leave it. WORDs name single
tests, as test_words or test_words.Words.test_help; by_hand names a list of some 300 GB, which is read only
when it is named. The traces are the made ones that are compared with the plain program of the definitions
(300 of seed 1).
"""

import argparse
import pathlib
import sys
import unittest

HERE = pathlib.Path(__file__).resolve().parent
sys.dont_write_bytecode = True
sys.path[:0] = [str(HERE), str(HERE.parent / "reference")]

import program
import test_made_traces


def arguments():
    parser = argparse.ArgumentParser(description=__doc__.splitlines()[0])
    parser.add_argument("--traces", type=int, default=test_made_traces.HOW_MANY)
    parser.add_argument("--seed", type=int, default=test_made_traces.SEED)
    parser.add_argument("program", nargs="?", default=program.PATH, type=pathlib.Path)
    parser.add_argument("tests", nargs="*")
    return parser.parse_args()


def main():
    options = arguments()
    program.PATH = options.program.resolve()
    test_made_traces.HOW_MANY, test_made_traces.SEED = options.traces, options.seed
    loader = unittest.TestLoader()
    tests = loader.loadTestsFromNames(options.tests) if options.tests else loader.discover(str(HERE))
    result = unittest.TextTestRunner(stream=sys.stdout, verbosity=2).run(tests)
    return conclude(result)


def conclude(result):
    """Prints the last line, and gives the status. A test with several failing parts failed once."""
    bad = {test.id().split(" ")[0] for test, _ in [*result.failures, *result.errors]}
    bad |= {test.id() for test in result.unexpectedSuccesses}
    passed = result.testsRun - len(bad)
    well = not bad and not result.skipped and passed > 0
    print(f"{passed} passed, {len(bad) + len(result.skipped)} failed")
    return 0 if well else 1


if __name__ == "__main__":
    sys.exit(main())
