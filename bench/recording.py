#!/usr/bin/env python3
"""Prints what recording costs beside ThreadSanitizer, for docs/BENCHMARKS.md.

    recording.py [RUNS [KIND..]]                 each of the kinds of recording.c, or these, built by gcc -O2
                                                 -fsanitize=thread
    recording.py RUNS -- PROGRAM [WORD..]        a program that was built with the flag, with these words

Each is run with gcc's library, which reports nothing, and with the recorder's, in turn. Seconds are of the
processor (user and system) and wall time, the least of RUNS runs (5); memory is the most that was resident; a
ratio is of the processor's seconds. The record isn't in it, which is mapped: its pages are counted apart, as
records of 16 bytes. Build the recorder before.
"""

import os
import pathlib
import subprocess
import sys
import tempfile
import time

TOP = pathlib.Path(__file__).resolve().parent.parent
LIBRARY = TOP / "recorder" / "lib"
HEADER_BYTES, RECORD_BYTES = 65536, 16
ROUNDS = {"own_array": 2000, "private_writes": 6_000_000, "shared_table": 2000, "mutex": 200_000,
          "atomics": 600_000, "own_atomics": 300_000,
          "atomic_lock": 150_000, "blocks": 100_000, "random_order": 1_000_000, "calls": 200_000}


def measured(words, more):
    """The processor's seconds, wall seconds and MB of one run."""
    begin = time.monotonic()
    running = subprocess.Popen([str(word) for word in words], env={**os.environ, **more},
                               stdout=subprocess.DEVNULL, stderr=subprocess.DEVNULL)
    _, status, usage = os.wait4(running.pid, 0)
    running.returncode = status
    if status:
        print(f"{words}: status {status}", file=sys.stderr)
    return usage.ru_utime + usage.ru_stime, time.monotonic() - begin, usage.ru_maxrss / 1024


def least(words, runs, record):
    """The least of each figure with either library, and how many records there are."""
    settings = {"tsan": {"TSAN_OPTIONS": "report_bugs=0"},
                "recorded": {"LD_LIBRARY_PATH": str(LIBRARY), "SHB_RECORD": str(record), "SHB_SEED": "1"}}
    figures = {name: [] for name in settings}
    for _ in range(runs):
        for name, more in settings.items():
            figures[name].append(measured(words, more))
    return *([min(column) for column in zip(*figures[name])]
             for name in settings), (record.stat().st_size - HEADER_BYTES) // RECORD_BYTES


def print_row(name, words, runs, folder):
    record = pathlib.Path(folder) / "app.rec"
    record.unlink(missing_ok=True)
    tsan, recorded, count = least(words, runs, record)
    cells = [cell for pair in zip(tsan, recorded) for cell in pair]
    texts = [f"{cell:.2f}" for cell in cells[:4]] + [f"{cell:.0f}" for cell in cells[4:]]
    print(f"| {name} | {' | '.join(texts)} | {recorded[0] / max(tsan[0], 0.001):.2f} | {count:,} |",
          flush=True)


def build(folder):
    program = pathlib.Path(folder) / "recording"
    subprocess.run(["gcc", "-O2", "-g", "-w", "-fsanitize=thread", "-pthread", TOP / "bench" / "recording.c",
                    "-o", program], check=True)
    return program


def main(runs="5", *words):
    print("| Program | CPU s, ThreadSanitizer | Recording | Wall s | Recording | MB | Recording | Ratio | "
          "Records |\n|" + "---|" * 9)
    with tempfile.TemporaryDirectory() as folder:
        if words[:1] == ("--",):
            print_row(" ".join(os.path.basename(word) for word in words[1:]), words[1:], int(runs), folder)
            return
        program = build(folder)
        for kind in words or ROUNDS:
            print_row(kind, (program, kind, ROUNDS[kind]), int(runs), folder)


if __name__ == "__main__":
    main(*sys.argv[1:])
