#!/usr/bin/env python3
"""Shows how time grows with a trace.

For each shape of traces the processor time for a number of events and for four times as many, with one
worker, and the ratio, which is about 4 where time is linear. By hand, on the built program. `list` is `shb
races --list`, `places` is `shb places`, and `check` checks what `places` wrote.

    growth.py [--events N] [--only WORD] [PROGRAM]
"""

import argparse
import os
import pathlib
import tempfile

import measure

FORMS = {"list": ["races", "--list"], "places": ["places"]}


def under_a_lock(threads, access):
    """Threads in turn take one lock for an access of one variable."""
    return lambda n: ("T{0}|acq(l)\nT{0}|{1}(x)\nT{0}|rel(l)\n".format(k % threads, access)
                      for k in range(n // 3))


def after_a_race(threads, access):
    """The same after two writes without the lock, which race with what follows."""
    return lambda n: ["A|w(x)\n", "B|w(x)\n", *under_a_lock(threads, access)(n)]


def random_locks(n):
    """1,000 threads take locks by fixed numbers, each time for the lock's own variable."""
    number = 1
    for _ in range(n // 3):
        number = (number * 1_103_515_245 + 12_345) % 2**31
        thread, lock = (number >> 8) % 1000, (number >> 16) % 1000
        yield f"T{thread}|acq(l{lock})\nT{thread}|w(v{lock})\nT{thread}|rel(l{lock})\n"


def forked(n):
    """A thread forks others one after the other, and joins each."""
    for k in range(1, 1000):
        yield f"T0|fork(T{k})\n" + f"T{k}|w(x)\n" * (n // 1000) + f"T0|join(T{k})\n"


def handed_over(n):
    """What a thread wrote, many forked threads read."""
    written = n // 4
    yield from (f"T0|w(v{k})\n" for k in range(written))
    yield from (f"T0|fork(T{k})\n" for k in range(1, 500))
    yield from (f"T{1 + k % 499}|r(v{k % written})\n" for k in range(n - written))


SHAPES = {
    "one thread": lambda n: ("T|w(x)\n" for _ in range(n)),
    "begin and end": lambda n: ("T|begin\nT|end\n" for _ in range(n // 2)),
    "an empty line before each event": lambda n: (f"\nT{k % 4}|w(v{k % 4})\n" for k in range(n)),
    "a fault in the last line, and empty lines": lambda n: [*("\nT|r(x)\n" for _ in range(n)), "T|rel(l)\n"],
    "lines end in carriage returns": lambda n: (f"T{k % 4}|w(v{k % 4})|p\r\n" for k in range(n)),
    "names of 60 bytes": lambda n: (f"T{k % 4}|w({k}{'a' * 60}{k % 4})|p\n" for k in range(n)),
    "a variable for each event": lambda n: (f"T{k % 8}|w(v{k})\n" for k in range(n)),
    "a lock for each acquire": lambda n: (f"T{k % 4}|acq(l{k})\nT{k % 4}|rel(l{k})\n" for k in range(n // 2)),
    "a lock acquired again and again": lambda n: ["T|acq(l)\n" * (n // 2), "T|rel(l)\n" * (n // 2)],
    "1,000 threads read": lambda n: (f"T{k % 1000}|r(x)\n" for k in range(n)),
    "1,000 threads read what one wrote": lambda n: ["T0|w(x)\n", *(f"T{k % 1000}|r(x)\n" for k in range(n))],
    "one writes what 1,000 threads read": lambda n: [*(f"T{k % 1000}|r(x)\n" for k in range(n)), "T0|w(x)\n"],
    "each reads what the one before wrote": lambda n: (f"T{k % 250}|r(c{k})\n"
                                                       f"T{k % 250}|w(c{k + 1})\n" for k in range(n // 2)),
    "1,000 threads write under a lock": under_a_lock(1000, "w"),
    "8 threads write under a lock, after a race": after_a_race(8, "w"),
    "64 threads write under a lock, after a race": after_a_race(64, "w"),
    "256 threads write under a lock, after a race": after_a_race(256, "w"),
    "256 threads read under a lock, after a race": after_a_race(256, "r"),
    "a race on each variable": lambda n: (f"A|w(v{k})\nB|w(v{k})\nB|r(v{k})\n" for k in range(n // 3)),
    "1,000 locks at random": random_locks,
    "forked and joined": forked,
    "handed over to forked threads": handed_over,
}


def seconds(command, output, given=os.devnull):
    """The least processor time of two runs. A run that refuses its trace counts as well."""
    return min(measure.timed(command, output, given, (0, 2)).processor for _ in range(2))


def measured(program, shape, events, folder):
    """The processor time of each form for so many events."""
    text, report = folder / "trace.std", folder / "report"
    with open(text, "w", encoding="ascii") as out:
        out.writelines(shape(events))
    times = {form: seconds([program, *words, "--workers", "1", text], report)
             for form, words in FORMS.items()}
    if report.stat().st_size:
        times["check"] = seconds([program, "check", text], folder / "verdict", report)
    return times


def main():
    parser = argparse.ArgumentParser(description=__doc__.splitlines()[0])
    parser.add_argument("--events", type=int, default=100_000)
    parser.add_argument("--only", default="", help="shapes whose names have this word")
    parser.add_argument("program", nargs="?", default=measure.HERE.parent / "bin" / "shb", type=pathlib.Path)
    options = parser.parse_args()
    program = options.program.resolve()
    print("| shape | form | s | s, four times the events | ratio |\n|---|---|---|---|---|")
    with tempfile.TemporaryDirectory() as room:
        for name, shape in SHAPES.items():
            if options.only in name:
                few, many = (measured(program, shape, k * options.events, pathlib.Path(room)) for k in (1, 4))
                for form, time in few.items():
                    print(f"| {name} | {form} | {time:.3f} | {many[form]:.3f} | "
                          f"{many[form] / max(time, 0.001):.1f} |", flush=True)


if __name__ == "__main__":
    main()
