#!/usr/bin/env python3
"""Counts what the built program costs on some traces, in instructions or memory, against bounds.

No clause of a contract speaks of cost, so only this step notices a table that isn't found again, or a search
that looks twice.

    costs.py [--only WORD] [--write] [PROGRAM]

Each shape of traces (shapes.py) is analysed with a number of events and with twice as many, by valgrind's
callgrind, with one worker. The first count has its own bound, in costs.tsv; the second may be at most 2.3
times the first. Of recorded traces there is the first count alone. Of some shapes the most memory that the
program has at a time is bounded in the same way; that of a stream whose events are of names that are known
may grow by 15 % alone. Where a change makes a trace dearer, its bound is changed in the same commit, with the
reason in the commit's message; --write writes bounds a tenth above what this program costs, and half above it
for a list that is cut. Ends with the line 'N passed, N failed'; a machine without valgrind fails.
"""

import argparse
import concurrent.futures
import lzma
import pathlib
import re
import resource
import shutil
import subprocess
import sys
import tempfile
import typing

HERE = pathlib.Path(__file__).resolve().parent
sys.dont_write_bytecode = True
sys.path[:0] = [str(HERE), str(HERE.parent / "bench")]

import growth
import hot_traces
import shapes

BOUNDS = HERE / "costs.tsv"
RECORDED = HERE / "recorded"
GROWTH = 2.3
SAME = 1.15  # the growth of memory that doesn't depend on how long a trace is
ROOM = 1.1
# of a list that is cut: on a machine of two cores a worker made a fifth more before the write failed
CUT_ROOM = 1.5
FIRST = 65_536  # of a list that is too long, so many bytes are written
CUT_RUNS = 3
AT_ONCE = 2
SECONDS = 600
ENDED = (0, 2)  # a report was written, or the trace was refused
COLLECTED = re.compile(rb"Collected : (\d+)")
PEAK = """
import os, sys
_, status, usage = os.wait4(os.spawnv(os.P_NOWAIT, sys.argv[1], sys.argv[1:]), 0)
print("Collected :", usage.ru_maxrss, file=sys.stderr)
sys.exit(status >> 8)
"""


class Unit(typing.NamedTuple):
    """What is counted: the words before those of the program, after which standard error has the count; and
    how much is one of the unit."""

    name: str
    words: tuple
    size: int


INSTRUCTIONS = Unit("thousand instructions", ("valgrind", "--tool=callgrind", "--fair-sched=yes",
                                              "--callgrind-out-file=/dev/null"), 1000)
# by a small process, since what starts another counts too
MEMORY = Unit("KiB", (sys.executable, "-I", "-S", "-c", PEAK), 1)


class Cost(typing.NamedTuple):
    """A trace of `events` events, and the program's words for it."""

    name: str
    words: tuple
    parts: typing.Callable
    events: int
    grows: bool = True
    cut: bool = False
    unit: Unit = INSTRUCTIONS
    growth: float = GROWTH

    def bound(self, once):
        """What a program may take from which this one takes `once`."""
        room = CUT_ROOM if self.cut and self.unit is INSTRUCTIONS else ROOM
        return round(once * room / self.unit.size)


ONE_WORKER = "--workers", "1"
STREAM, PLACES = ("places", "--list"), ("places", *ONE_WORKER)
RACES, SCHEDULES = ("races", "--list", *ONE_WORKER), ("races", *ONE_WORKER)


def hot(shape, threads, per_event):
    """A shape of hot_traces, for a number of events: each of `threads` threads has its part."""
    return lambda n: hot_traces.lines(shape, max(n // per_event, 1), threads, 1)


def recorded(path):
    return lambda _: [lzma.open(path, "rt", encoding="latin-1").read()]


def costs():
    """All that is counted."""
    for name, parts in growth.SHAPES.items():
        yield Cost(name, STREAM, parts, 10_000)
    ours = {
        "8 threads write under a lock": shapes.under_a_lock(8),
        "256 threads write under a lock": shapes.under_a_lock(256),
        "64 threads write under a lock at 100 locations": shapes.under_a_lock(64, 100),
        "256 threads read under a lock": shapes.read_under_a_lock,
        "one location, then many": shapes.one_location_then_many,
        "locations of one thread": shapes.locations_of_one_thread,
        "locations under a lock": shapes.locations_under_a_lock,
        "a location for each access": shapes.a_location_for_each_access,
        "many locations against one": shapes.many_against_one,
        "locations without order": shapes.unordered_locations,
        "turns at many locations": shapes.turns_at_many,
        "locations and learning": shapes.learning,
        "both kinds at one location": shapes.both_kinds,
        "turns at one location": shapes.turns_at_a_location,
        "places of many variables": shapes.variables_forwards,
        "places of many variables, the last one first": shapes.variables_backwards,
        "1,000 threads without order": shapes.crowd,
        "a chain of 250 threads": shapes.chain,
        "1,000 readers, few writes": shapes.many_readers,
    }
    for name, parts in ours.items():
        yield Cost(name, STREAM, parts, 20_000)
    for name in ("8 threads write under a lock", "256 threads write under a lock",
                 "256 threads read under a lock"):
        yield Cost(name, RACES, ours[name], 20_000)
    for name in ("8 threads write under a lock", "turns at one location", "a chain of 250 threads"):
        yield Cost(name, PLACES, ours[name], 20_000)
    yield Cost("places of many variables, the last one first", RACES, shapes.variables_backwards, 6_000,
               cut=True, unit=MEMORY)
    yield Cost("few and many races by turns", RACES, shapes.few_and_many_races, 40_000, cut=True)
    yield Cost("40 variables with many races each", RACES, shapes.many_hot_variables, 20_000, cut=True)
    yield Cost("a counter of 2 threads", RACES, hot("counter", 2, 4), 20_000, cut=True)
    yield Cost("a counter of 64 threads", RACES, hot("counter", 64, 128), 20_000, cut=True)
    yield Cost("a counter of 64 threads", STREAM, hot("counter", 64, 128), 20_000)
    yield Cost("a counter of 64 threads", PLACES, hot("counter", 64, 128), 20_000)
    yield Cost("locks and statistics", STREAM, hot("mixed", 8, 5), 20_000)
    yield Cost("memory in the order of addresses", STREAM, shapes.memory_in_order, 20_000)
    yield Cost("new threads at one location", STREAM, shapes.new_threads, 20_000)
    yield Cost("two variables that 1,000 threads wrote in other orders", STREAM, shapes.two_orders, 10_000)
    yield Cost("locks and statistics", RACES, hot("mixed", 8, 5), 20_000, cut=True)
    yield Cost("locks and statistics of 200 threads", RACES, hot("mixed", 200, 5), 20_000)
    yield Cost("schedules of 20 late races", SCHEDULES, shapes.late_races, 10_000)
    for words in (SCHEDULES, PLACES):
        yield Cost("schedules of 780 races after threads alone", words, shapes.late_crowd, 10_000)
        yield Cost("schedules of 780 races, with threads alone in between", words, shapes.early_crowd, 10_000)
    yield Cost("an array", RACES, hot("array", 8, 2), 20_000)
    yield Cost("one hot location beside many of a thread alone", RACES, shapes.hot_beside_alone, 20_000,
               cut=True)
    yield Cost("200 threads at 200 locations", RACES, shapes.crowd_at_locations, 10_000, cut=True)
    yield Cost("numbers that are far apart", STREAM, shapes.far_numbers, 20_000)
    yield Cost("numbers that are far apart", STREAM, shapes.far_numbers, 50_000, unit=MEMORY)
    yield Cost("settled reads beside writes whose numbers are far apart", STREAM, shapes.far_writes, 60_000)
    yield Cost("variables whose reads waited for a write", STREAM, shapes.opened_late, 20_000)
    yield Cost("2,500 threads forked and joined", STREAM, shapes.forked_and_joined, 7_500, unit=MEMORY)
    yield Cost("a lock handed on by 3,000 threads", STREAM, shapes.handed_on, 6_000, unit=MEMORY)
    yield Cost("a variable for each section of 1,000 threads under a lock", STREAM,
               shapes.variables_of_many_threads, 180_000, unit=MEMORY)
    yield Cost("variables that 200 threads write under a lock again and again", STREAM,
               shapes.variables_under_a_lock, 4_000_000,
               unit=MEMORY, growth=SAME)
    yield Cost("turns at many locations", STREAM, shapes.turns_at_many, 500_000, unit=MEMORY, growth=SAME)
    yield Cost("long sections at 100 locations", STREAM, shapes.long_sections, 8_000_000, unit=MEMORY,
               growth=SAME)
    yield Cost("crowds beside a hot pair", RACES, shapes.crowds_beside_a_hot_pair, 24_000, cut=True,
               unit=MEMORY)
    yield Cost("another variable has many locations", RACES, shapes.other_locations, 40_000, cut=True)
    # 2.23 to 2.32 times: a worker makes more or less before the write fails
    yield Cost("1,000 threads with variables of their own", RACES, shapes.other_threads, 40_000, cut=True,
               growth=2.5)
    yield Cost("60 threads that come late", RACES, shapes.late_threads, 40_000, cut=True)
    yield Cost("one thread", RACES, growth.SHAPES["one thread"], 400_000, unit=MEMORY)
    yield Cost("races of one that joined 500 threads", SCHEDULES, shapes.races_after_joined, 10_000,
               unit=MEMORY)
    for path in sorted(RECORDED.glob("*.std.xz")):
        for words in (STREAM, PLACES, RACES):
            yield Cost(path.name, words, recorded(path), 0, grows=False)


def limit_files():
    """Lets a write fail that makes a file longer than FIRST, so that a count doesn't depend on when
    a reader leaves."""
    resource.setrlimit(resource.RLIMIT_FSIZE, (FIRST, FIRST))


def counted_once(program, cost, times):
    """What one analysis takes, of a trace with so many times the events."""
    with tempfile.TemporaryDirectory() as room:
        trace, said = pathlib.Path(room) / "trace.std", pathlib.Path(room) / "said"
        with open(trace, "w", encoding="latin-1") as out:
            out.writelines(cost.parts(times * cost.events))
        with open(pathlib.Path(room) / "written", "wb") as out, open(said, "wb") as err:
            ran = subprocess.run([*cost.unit.words, program, *cost.words, trace], stdout=out, stderr=err,
                                 cwd=room, timeout=SECONDS,
                                 restore_signals=False, preexec_fn=limit_files if cost.cut else None)
        found = COLLECTED.search(said.read_bytes())
        if not found or (ran.returncode not in ENDED and not cost.cut):
            raise RuntimeError(f"{cost.name}: status {ran.returncode}: "
                               f"{said.read_bytes()[-400:].decode(errors='replace')}")
        return int(found[1])


def counted(program, cost, times):
    """The least of some counts of a list that is cut: how much more a worker makes before the write fails
    differs with load."""
    return min(counted_once(program, cost, times) for _ in range(CUT_RUNS if cost.cut else 1))


def key(cost):
    command, memory = (" ".join(word for word in cost.words if word not in ONE_WORKER),
                       ", memory" if cost.unit is MEMORY else "")
    return f"{command}: {cost.name}{memory}"


def bounds():
    return {name: int(bound) for name, bound in (line.split("\t") for line in BOUNDS.read_text().splitlines()
                                                 if line)} if BOUNDS.exists() else {}


def complaints(cost, once, twice, bound):
    """What is wrong with the counts of a trace, and of twice as many events where there is such a one."""
    if bound is None:
        yield "has no bound in costs.tsv"
    elif once > bound * cost.unit.size:
        yield f"takes {once // cost.unit.size} {cost.unit.name}, and may take {bound}"
    if twice is not None and twice > cost.growth * once:
        yield f"takes {twice / once:.2f} times as much for twice the events, and may take {cost.growth}"


def measured(program, cost):
    return counted(program, cost, 1), counted(program, cost, 2) if cost.grows else None


def main():
    parser = argparse.ArgumentParser(description=__doc__.splitlines()[0])
    parser.add_argument("--only", default="")
    parser.add_argument("--write", action="store_true")
    parser.add_argument("program", nargs="?", default=HERE.parent / "bin" / "shb", type=pathlib.Path)
    options = parser.parse_args()
    if not shutil.which("valgrind"):
        print("costs.py: valgrind isn't on the PATH (Debian: apt-get install valgrind)\n0 passed, 1 failed")
        return 1
    chosen = [cost for cost in costs() if options.only in key(cost)]
    known, failed = bounds(), 0
    with concurrent.futures.ThreadPoolExecutor(AT_ONCE) as pool:
        for cost, (once, twice) in zip(
            chosen, pool.map(lambda cost: measured(options.program.resolve(), cost), chosen)):
            if options.write:
                known[key(cost)] = cost.bound(once)
            wrong = [*complaints(cost, once, twice, known.get(key(cost)))]
            failed += bool(wrong)
            growing = f", {twice / once:.2f} times for twice the events" if twice else ""
            print(f"{'FAIL' if wrong else 'ok  '} {key(cost)}: {once // cost.unit.size} "
                  f"{cost.unit.name}{growing}", *wrong, sep="\n     ", flush=True)
    if options.write:
        BOUNDS.write_text("".join(f"{name}\t{bound}\n" for name, bound in known.items()))
    print(f"{len(chosen) - failed} passed, {failed} failed")
    return 1 if failed or not chosen else 0


if __name__ == "__main__":
    sys.exit(main())
