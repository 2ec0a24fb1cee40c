"""Threads that wait for one another: how they wait changes no byte, so it is seen from outside."""

import contextlib
import pathlib
import re
import threading
import time

import program
import test_large
import test_refusals

WORKERS = 4
SLEEPS = 200


def sleeps_of(process, thread="*"):
    """How often each thread of a process has slept, the most first."""
    counted = []
    for status in pathlib.Path(f"/proc/{process.pid}/task").glob(f"{thread}/status"):
        with contextlib.suppress(FileNotFoundError, ProcessLookupError):  # a thread that has ended meanwhile
            counted.append(
                int(re.search(r"^voluntary_ctxt_switches:\s*(\d+)", status.read_text(), re.M).group(1)))
    return sorted(counted, reverse=True)


class Waits(test_refusals.Refusing):
    def expect_sleeps(self, started, count, thread="*"):
        """So many threads of a program that runs sleep again and again."""
        end = time.monotonic() + program.SECONDS
        while len(sleeps := sleeps_of(started, thread)) < count or sleeps[count - 1] < SLEEPS:
            self.assertLess(time.monotonic(), end, f"the threads have slept so often: {sleeps}")
            time.sleep(0.01)

    def test_workers_that_wait_sleep_and_look_again(self):
        """Nobody reads the report, so workers find no free slot for their schedules: each sleeps again and
        again, and not for ever longer. Then it is read, and is whole."""
        trace, report, _ = test_large.many_races()
        with program.start(["races", "--workers", str(WORKERS), self.file(trace)]) as started:
            self.expect_sleeps(started, WORKERS)
            written = started.stdout.read()
            self.assertEqual((started.stderr.read(), started.wait(program.SECONDS)), (b"", 0))
        self.assertTrue(written == report, "the reports differ")

    def test_that_the_caller_sleeps_while_it_waits(self):
        """The worker is held where it asks for memory, so the first thread waits for a schedule. All that it
        writes is read meanwhile. Then the worker goes on, and the report is whole."""
        trace, report, _ = test_large.many_races()
        held, written = self.file(b"", "held"), []
        settings = program.with_settings(LD_PRELOAD=self.shim, REFUSED=self.note, HELD=held)
        with program.start(["races", "--workers", "1", self.file(trace)], env=settings) as started:
            reader = threading.Thread(target=lambda: written.append(started.stdout.read()))
            reader.start()
            try:
                self.expect_sleeps(started, 1, started.pid)
            finally:
                held.unlink()
            reader.join(program.SECONDS)
            self.assertEqual((started.stderr.read(), started.wait(program.SECONDS)), (b"", 0))
        self.assertTrue(written == [report], "the reports differ")
