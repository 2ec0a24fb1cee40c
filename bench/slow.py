#!/usr/bin/env python3
"""Looks for traces that are slow to analyse.

It draws traces of few parameters, counts instructions for each byte that is read or written (valgrind's
callgrind, one worker), and climbs from the dearest to its neighbours. By hand, on the built program.

    slow.py [--minutes N] [--events N] [--seed N] [--form places|races] [PROGRAM]

It prints each trace that is dearer than all before. `slow.py --write EVENTS PARAMETERS` writes the trace of
printed parameters to standard output.
"""

import argparse
import ast
import pathlib
import random
import re
import subprocess
import sys
import tempfile
import time

HERE = pathlib.Path(__file__).resolve().parent
COLLECTED = re.compile(rb"Collected : (\d+)")
SCALES = {
    "threads": [2, 3, 8, 64, 250, 1000],
    "variables": [1, 2, 30, 1000],
    "locations": [1, 2, 50, 1000, 100_000],
    "locks": [0, 1, 2, 20, 1000],
    "phases": [1, 2, 4, 20],
    "run": [1, 2, 30, 1000],
    "reads": [0, 10, 50, 90, 100],
    "locked": [0, 1, 50, 99, 100],
    "by_turns": [0, 1],
    "own_locations": [0, 1],
    "backwards": [0, 1],
}


def drawn(pick):
    return {name: pick.choice(values) for name, values in SCALES.items()}


def neighbour(pick, point):
    """The same point but for one or two parameters."""
    changed = dict(point)
    for name in pick.sample(sorted(SCALES), pick.randint(1, 2)):
        changed[name] = pick.choice(SCALES[name])
    return changed


def access(pick, point, phase, k):
    """An access of the trace: its thread, operation and location."""
    numbers = range(point["threads"])
    thread = numbers[(k // point["run"]) % len(numbers)] if point["by_turns"] else pick.choice(numbers)
    variable = (k // point["run"]) % point["variables"]
    if point["backwards"] and phase % 2:
        variable = point["variables"] - 1 - variable
    location = pick.randrange(point["locations"])
    if point["own_locations"]:
        location = f"{thread}.{location}"
    kind = "r" if pick.randrange(100) < point["reads"] else "w"
    return f"T{thread}", f"{kind}(v{variable})|l{location}"


def lines(point, events):
    """The trace: in each phase other threads take locks; what isn't locked races."""
    pick = random.Random(1)
    written = 0
    for phase in range(point["phases"]):
        for k in range(events // point["phases"]):
            thread, what = access(pick, point, phase, k)
            if point["locks"] and pick.randrange(100) < point["locked"]:
                lock = f"m{(k // point['run']) % point['locks']}"
                yield f"{thread}|acq({lock})|a\n{thread}|{what}\n{thread}|rel({lock})|b\n"
                written += 3
            else:
                yield f"{thread}|{what}\n"
                written += 1
            if written >= events:
                return


def cost(program, form, point, events, folder):
    """Instructions for each byte that is read or written; 0 where no analysis came to an end."""
    trace, report = folder / "trace.std", folder / "report"
    trace.write_text("".join(lines(point, events)))
    words = ["valgrind", "--tool=callgrind", "--callgrind-out-file=/dev/null", program, form, "--list",
             "--workers", "1", trace]
    with open(report, "wb") as out:
        ran = subprocess.run(words, stdout=out, stderr=subprocess.PIPE, timeout=600)
    counted = COLLECTED.search(ran.stderr)
    size = trace.stat().st_size + report.stat().st_size
    return int(counted[1]) / size if counted and ran.returncode == 0 else 0


def climb(options, folder):
    pick = random.Random(options.seed)
    best, end = [], time.monotonic() + 60 * options.minutes
    while time.monotonic() < end:
        point = neighbour(pick, pick.choice(best)[1]) if best and pick.random() < 0.8 else drawn(pick)
        dear = cost(options.program.resolve(), options.form, point, options.events, folder)
        if not best or dear > best[0][0]:
            print(f"{dear:.0f} instructions a byte: {point}", flush=True)
        best = sorted([*best, (dear, point)], key=lambda it: -it[0])[:8]


def main():
    parser = argparse.ArgumentParser(description=__doc__.splitlines()[0])
    parser.add_argument("--minutes", type=float, default=60)
    parser.add_argument("--events", type=int, default=6_000)
    parser.add_argument("--seed", type=int, default=1)
    parser.add_argument("--form", choices=("places", "races"), default="places")
    parser.add_argument("--write", nargs=2, metavar=("EVENTS", "PARAMETERS"))
    parser.add_argument("program", nargs="?", default=HERE.parent / "bin" / "shb", type=pathlib.Path)
    options = parser.parse_args()
    if options.write:
        sys.stdout.writelines(lines(ast.literal_eval(options.write[1]), int(options.write[0])))
        return
    with tempfile.TemporaryDirectory() as room:
        climb(options, pathlib.Path(room))


if __name__ == "__main__":
    main()
