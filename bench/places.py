#!/usr/bin/env python3
"""Measures `places --list` on traces with more races than could be listed, and prints time and memory.

    places.py [--repeats N] [--only WORD] [--beside COMMAND] [PROGRAM] [TRACE ..]

With --beside the ratios to another analyser are printed too: COMMAND is a program and its words, to which the
trace is added. Both run in turn.
"""

import argparse
import pathlib
import tempfile

import hot_traces
import measure

MADE = [
    ("counter", 100_000, 2),
    ("counter", 1_000_000, 2),
    ("counter", 15_000, 64),
    ("counter", 3_750, 256),
    ("counter", 937, 1023),
    ("progress", 200_000, 2),
    ("progress", 10_000, 64),
    ("mixed", 300_000, 8),
    ("mixed", 100_000, 200),
    ("array", 500_000, 8),
    ("places", 400_000, 8),
    ("places", 20_000, 8),
]


def made(folder, shape, times, threads):
    path = folder / f"{shape} {times} {threads}"
    with open(path, "w", encoding="ascii") as out:
        out.writelines(hot_traces.lines(shape, times, threads, 1))
    return path


def row(options, folder, path):
    """The row of one trace: the least of several runs, in turn with the other analyser."""
    commands = [[options.program.resolve(), "places", "--list", "--workers", "1", path]]
    if options.beside:
        commands.append([*options.beside.split(), path])
    best = [None] * len(commands)
    for _ in range(options.repeats):
        for k, command in enumerate(commands):
            ran = measure.timed(command, folder / "report")
            best[k] = ran if best[k] is None else measure.Timed(*map(min, best[k], ran))
    cells = [f"{best[0].processor:.3f}", f"{best[0].megabytes:.0f}"]
    if options.beside:
        cells += [f"{best[0].processor / best[1].processor:.2f}",
                  f"{best[0].megabytes / best[1].megabytes:.2f}"]
    with open(path, "rb") as text:
        events = sum(1 for _ in text)
    print(f"| {path.stem} | {events} | {path.stat().st_size / 1e6:.1f} | {' | '.join(cells)} |", flush=True)


def main():
    parser = argparse.ArgumentParser(description=__doc__.splitlines()[0])
    parser.add_argument("--repeats", type=int, default=5)
    parser.add_argument("--only", default="", help="made traces whose names have this word")
    parser.add_argument("--beside", default="", help="another analyser, with its words")
    parser.add_argument("program", nargs="?", default=measure.HERE.parent / "bin" / "shb", type=pathlib.Path)
    parser.add_argument("traces", nargs="*", type=pathlib.Path, help="traces, in place of the made ones")
    options = parser.parse_args()
    print(f"| trace | lines | MB | processor s | peak MB |{' times | memory |' if options.beside else ''}")
    print(f"|---|---|---|---|---|{'---|---|' if options.beside else ''}")
    with tempfile.TemporaryDirectory() as room:
        folder = pathlib.Path(room)
        for path in options.traces:
            row(options, folder, path)
        for shape in [] if options.traces else MADE:
            if options.only in " ".join(map(str, shape)):
                path = made(folder, *shape)
                row(options, folder, path)
                path.unlink()


if __name__ == "__main__":
    main()
