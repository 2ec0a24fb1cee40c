"""The lines stand in the order of the accesses: each value read is that of the last write before it
in the trace."""

import re
import sys

import recorder

THREADS, STEPS = 6, 3000  # as in order.c
SLICES = [200, 7, 1, 50]
ON_ONE_CORE = """
import os, sys
os.sched_setaffinity(0, {min(os.sched_getaffinity(0))})
os.execv(sys.argv[1], sys.argv[1:])
"""


def accesses(thread, values):
    """What the thread does, in its order: writes (w), atomic writes (a) and reads (r), with their values."""
    random = (thread * 7919 + 1) & 0xFFFFFFFF
    for step in range(STEPS):
        random = (random * 1103515245 + 12345) & 0xFFFFFFFF
        if random >> 16 & 1:
            yield "w", thread << 32 | step
        elif random >> 17 & 1:
            yield "a", thread << 32 | step
        yield "r", values[step]


def copies(thread, values):
    """The same of a thread of copies.c: a copy into the shared structure, and a read of it."""
    for step, value in enumerate(values):
        yield "w", thread << 32 | step
        yield "r", value


def reads(trace, output, accesses=accesses):
    """For each read in the trace: the value that it got, and the one that stood there by the trace."""
    values = [[] for _ in range(THREADS)]
    for line in output.splitlines():
        thread, value = line.split()
        values[int(thread)].append(int(value))
    programs = [accesses(thread, values[thread]) for thread in range(THREADS)]
    now = 0
    for thread, kind in trace:
        expected, value = next(programs[thread])
        assert kind == expected, "the trace is out of step"
        if kind == "r":
            yield value, now
        else:
            now = value


def steps(text):
    """The accesses of x in a trace of `shb-std -a`. An atomic store is an acq, a read and a rel:
    the acq counts."""
    storing = set()
    for name, operation, version in re.findall(r"^T(\d+)\.work\|(w|r|acq|rel)\(x(@\d+)?\)\|", text, re.M):
        thread = int(name) - 1
        if operation == "acq":
            storing.add(thread)
            yield thread, "a"
        elif operation == "rel":
            storing.discard(thread)
        elif thread not in storing:
            yield thread, operation


class Order(recorder.Case):
    def check_order(self, option, built=None, before=()):
        program, path = self.folder / "order", self.folder / "order.rec"
        recorder.build(recorder.PROGRAMS / "order.c", option, program, built)
        for seed in range(len(SLICES)):
            settings = recorder.settings(path, seed + 1, SLICES[seed], SHB_CELLS="0")
            ran = recorder.must(recorder.call(*before, program, env=settings))
            text = recorder.must(recorder.convert(path, "-a")).stdout.decode()
            pairs = list(reads(steps(text), ran.stdout.decode()))
            self.assertEqual(len(pairs), THREADS * STEPS)
            self.assertEqual([pair for pair in pairs if pair[0] != pair[1]], [])

    def test_unoptimised(self):
        self.check_order("-O0")

    def test_optimised(self):
        self.check_order("-O2")

    def test_more_threads_than_cores(self):
        self.check_order("-O2", before=(sys.executable, "-c", ON_ONE_CORE))

    def record(self, name, option, seed, slice=200):
        """The trace with all accesses, and what the program printed."""
        program, path = self.folder / "app", self.folder / "app.rec"
        recorder.build(recorder.PROGRAMS / name, option, program)
        ran = recorder.must(recorder.call(program, env=recorder.settings(path, seed, slice, SHB_CELLS="0")))
        return recorder.must(recorder.convert(path, "-a")).stdout.decode(), ran.stdout.decode()

    def test_copies_of_structures(self):
        """No other thread comes between the two hooks of a copy."""
        for seed, slice in ((1, 200), (2, 7), (3, 1)):
            text, printed = self.record("copies.c", "-O0", seed, slice)
            trace = [(int(name) - 1, kind)
                     for name, kind in re.findall(r"^T(\d+)\.work\|(w|r)\(shared\[1\]\[3\]\)", text, re.M)]
            pairs = list(reads(trace, printed, copies))
            self.assertEqual(len(pairs), 4 * 2000)
            self.assertEqual([pair for pair in pairs if pair[0] != pair[1]], [])

    def test_threads_change_places_after_reads_and_after_writes(self):
        """In a loop of count++, of which a read follows each write. How often they change hangs on
        the machine's load."""
        last, lengths, seed = [], [], 0
        while (len(last) < 100 or not lengths) and seed < 30:
            text, _ = self.record("loop.c", "-O1", seed)
            steps = re.findall(r"^(T\d)\.work\|(w|r)\(count\)", text, re.M)
            changes = [at for at in range(1, len(steps)) if steps[at - 1][0] != steps[at][0]]
            last += [steps[at - 1][1] for at in changes]
            lengths += [end - begin for begin, end in zip(changes, changes[1:])]
            seed += 1
        self.assertGreater(len(last), 50)
        for kind in "rw":
            self.assertGreater(last.count(kind), len(last) / 5)
        # an even run loses no update of its own, or begins and ends inside count++
        odd = sum(length % 2 for length in lengths)
        self.assertTrue(len(lengths) / 5 < odd < len(lengths) * 4 / 5, lengths)

    def test_each_thread_is_forked_once_and_before_it_starts(self):
        """Threads that fork may sleep in the system and lose the turn: each child has a number of its own
        all the same."""
        program, path = self.folder / "forks", self.folder / "forks.rec"
        hasty = recorder.taking_turns("HASTY")
        recorder.build(recorder.PROGRAMS / "forks.c", "-O2", program, hasty)
        for seed in range(8):
            settings = recorder.settings(path, seed + 1, SLICES[seed % len(SLICES)], SHB_CELLS="0")
            recorder.must(recorder.call(program, env=settings))
            trace = recorder.must(recorder.convert(path)).stdout
            self.assertGreater(len(set(re.findall(rb"\|fork\((\S+)\)", trace))), 400)
            self.assertEqual(recorder.places(trace), set())

    def test_turns_that_are_taken_over_in_haste(self):
        hasty = recorder.taking_turns("HASTY")
        self.check_order("-O2", hasty)
