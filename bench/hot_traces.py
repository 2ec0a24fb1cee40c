#!/usr/bin/env python3
"""Writes a trace whose number of races grows with the square of its length to standard output.

    hot_traces.py counter N T SEED     T threads add 1 to a variable N times each, without a lock; they change
                                       places between a read and its write, as in a recorded run, so
                                       that updates are lost
    hot_traces.py progress N T SEED    one thread writes a variable N times, T - 1 others read it each time
    hot_traces.py mixed N T SEED       N locked updates of 160 variables; 4 unlocked variables of statistics
    hot_traces.py array N T SEED       N variables, each written by two of T threads at one of 20 locations
    hot_traces.py places N T SEED      T threads access one variable N times in all, at 1,000 locations

The same words give the same bytes.
"""

import random
import sys


def counter(pick, times, threads):
    left = dict.fromkeys(threads, times)
    has_read = set()
    while left:
        thread = pick.choice(list(left))
        burst = min(left[thread], pick.randint(1, 50))
        left[thread] -= burst
        if thread in has_read:
            yield f"{thread}|w(count)|count.c:5"
            has_read.discard(thread)
        for _ in range(burst):
            yield f"{thread}|r(count)|count.c:5"
            yield f"{thread}|w(count)|count.c:5"
        if left[thread]:
            left[thread] -= 1
            yield f"{thread}|r(count)|count.c:5"
            has_read.add(thread)
        if not left[thread]:
            del left[thread]


def progress(pick, times, threads):
    writer, *readers = threads
    for k in range(times):
        yield f"{writer}|w(progress)|work.c:{20 + k % 3}"
        for thread in readers:
            yield f"{thread}|r(progress)|poll.c:{30 + pick.randint(0, 1)}"


def mixed(pick, times, threads):
    for _ in range(times):
        thread, lock = pick.choice(threads), pick.randint(0, 15)
        variable = lock * 10 + pick.randint(0, 9)
        yield f"{thread}|acq(L{lock})|lib.c:{lock}"
        yield f"{thread}|r(V{variable})|lib.c:{100 + variable % 7}"
        yield f"{thread}|w(V{variable})|lib.c:{200 + variable % 7}"
        yield f"{thread}|rel(L{lock})|lib.c:{lock}"
        if pick.random() < 0.3:
            yield f"{thread}|w(stat{pick.randint(0, 3)})|stat.c:{pick.randint(1, 40)}"
        if pick.random() < 0.3:
            yield f"{thread}|r(stat{pick.randint(0, 3)})|stat.c:{pick.randint(50, 90)}"


def array(pick, times, threads):
    for k in range(times):
        for thread in pick.sample(threads, 2):
            yield f"{thread}|w(a[{k}])|array.c:{pick.randint(1, 20)}"


def places(pick, times, threads):
    for _ in range(times):
        yield f"{pick.choice(threads)}|{pick.choice('rw')}(x)|big.c:{pick.randint(1, 1000)}"


SHAPES = {"counter": counter, "progress": progress, "mixed": mixed, "array": array, "places": places}


def lines(shape, times, threads, seed):
    """The lines of a trace: a first thread forks the others, these access the variables, and
    it joins them."""
    names = [f"T{k}" for k in range(1, threads + 1)]
    for name in names:
        yield f"main|fork({name})|main.c:9\n"
    for line in SHAPES[shape](random.Random(seed), times, names):
        yield line + "\n"
    for name in names:
        yield f"main|join({name})|main.c:10\n"


def main():
    if len(sys.argv) != 5 or sys.argv[1] not in SHAPES:
        sys.exit(__doc__)
    sys.stdout.writelines(lines(sys.argv[1], *map(int, sys.argv[2:])))


if __name__ == "__main__":
    main()
