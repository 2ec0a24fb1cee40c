#!/usr/bin/env python3
"""Gives readers of strangers' files changed files for some time, and keeps those that they don't answer.

    fuzz.py SECONDS [SEED [READER..]]

Each READER has so many seconds; all have where none is named. A changed file by which lines of the readers
ran one after the other that hadn't before is changed further. What is found is put into files/, which
test_readers.py reads. It says how many files each reader had.
"""

import pathlib
import random
import sys
import time

HERE = pathlib.Path(__file__).resolve().parent
sys.dont_write_bytecode = True
sys.path[:0] = [str(HERE), str(HERE.parent), str(HERE.parents[1] / "tests")]

import test_readers

READ = "/shb_common/", "/shb_fix/"
MOST_BYTES = 4_000


class Ways:
    """Which lines ran one after the other."""

    def __init__(self):
        self.known, self.new = set(), False

    def call(self, frame, event, argument):
        """The tracer of a call: only the readers' own code is looked at."""
        if not any(part in frame.f_code.co_filename for part in READ):
            return None
        last = 0

        def line(frame, event, argument):
            nonlocal last
            way = frame.f_code, last, frame.f_lineno
            last = frame.f_lineno
            if way not in self.known:
                self.known.add(way)
                self.new = True
            return line
        return line

    def of(self, read, text):
        """Reads a file, and says whether it went a new way."""
        self.new = False
        sys.settrace(self.call)
        try:
            read(text)
        finally:
            sys.settrace(None)
        return self.new


def keep(name, fault, count, text):
    (HERE / "files").mkdir(exist_ok=True)
    (HERE / "files" / f"{name}-{type(fault).__name__}-{count}").write_bytes(text)
    print(f"{name}: {type(fault).__name__}: {fault}", flush=True)


def fuzz(name, read, text, end, pick):
    """Reads changed files until the time is over. Returns how many there were, and how many of them went
    a new way."""
    ways, pool, count, found = Ways(), [text], 0, set()
    ways.of(read, text)
    while time.monotonic() < end:
        changed = test_readers.mutated(pick, pick.choice(pool))
        count += 1
        try:
            if ways.of(read, changed) and len(changed) < MOST_BYTES:
                pool.append(changed)
        except Exception as fault:
            if repr(fault) not in found:
                keep(name, fault, count, changed)
            found.add(repr(fault))
    return count, len(pool) - 1


def main(seconds, seed, names):
    pick = random.Random(seed)
    for name in names or test_readers.READERS:
        count, ways = fuzz(name, *test_readers.READERS[name], time.monotonic() + seconds, pick)
        print(f"{name}: {count:,} files in {seconds:.0f} s, {ways:,} of them by a new way", flush=True)


if __name__ == "__main__":
    main(float(sys.argv[1]), int(sys.argv[2]) if len(sys.argv) > 2 else 1, sys.argv[3:])
