"""What all tests share: a test with a folder of its own, and a run of tests that ends with the line 'N
passed, N failed'."""

import concurrent.futures
import pathlib
import tempfile
import unittest


class Case(unittest.TestCase):
    """A test with a folder of its own."""

    maxDiff = None

    def setUp(self):
        room = tempfile.TemporaryDirectory()
        self.addCleanup(room.cleanup)
        self.folder = pathlib.Path(room.name)


def each(tests):
    for test in tests:
        if isinstance(test, unittest.TestSuite):
            yield from each(test)
        else:
            yield test


def run(test):
    """Runs one test, prints how it went, and says whether it passed; nothing of one that is skipped."""
    result = unittest.TestResult()
    test.run(result)
    if result.skipped:
        print("skip", test.id(), *(reason for _, reason in result.skipped), flush=True)
        return None
    trouble = [f"{part.id()}\n{text}" for part, text in [*result.failures, *result.errors]]
    passed = not trouble and result.testsRun == 1
    print("ok  " if passed else "FAIL", test.id(), *trouble, flush=True)
    return passed


def run_all(folder, names, at_once=2):
    """Runs the tests of these names, or all of the folder, so many at a time, and gives the status."""
    loader = unittest.TestLoader()
    found = loader.loadTestsFromNames(names) if names else loader.discover(str(folder))
    with concurrent.futures.ThreadPoolExecutor(at_once) as pool:
        passed = [done for done in pool.map(run, each(found)) if done is not None]
    print(f"{sum(passed)} passed, {len(passed) - sum(passed)} failed")
    return 0 if passed and all(passed) else 1
