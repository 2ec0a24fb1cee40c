#!/usr/bin/env python3
"""Prints what all of shb-record costs beside ThreadSanitizer, for docs/BENCHMARKS.md.

    whole.py [RUNS [KIND..]]                     whole.c and examples/account.c, built by gcc -O2
                                                 -fsanitize=thread
    whole.py RUNS -- PROGRAM [WORD..]            a program that was built with the flag, with these words

Each is run with gcc's library, which reports nothing, and by shb-record with seed 1, in turn, in a folder
of its own; shb-record as its first line starts it (-S); the built analyser is bin/shb, or what SHB names.
The first run compiles Python's modules; an installation has compiled ones. CPU seconds are user and
system time with those of all processes that were started, the least of RUNS runs (3); memory is the most
that one of them had. The phases are run by themselves: recording, shb-std's coarse trace of the run, and
the analyser on it; what the whole takes besides is the rest, with a finer trace if the program needs one.
"""

import os
import pathlib
import subprocess
import sys
import tempfile

TOP = pathlib.Path(__file__).resolve().parent.parent
ROUNDS = {"account": None, "compressor": 48, "table": 560_000, "atomic_lock": 150_000}
SHB = os.environ.get("SHB", TOP / "bin" / "shb")
A_PLACE = 66  # the status where there is one that isn't known


def processor_seconds(words, status=0, out=subprocess.DEVNULL, **how):
    """What one run takes, and the most memory of one of its processes, in MB."""
    running = subprocess.Popen([str(word) for word in words], stdout=out, stderr=subprocess.DEVNULL, **how)
    _, ended, usage = os.wait4(running.pid, 0)
    running.returncode = ended
    if os.WEXITSTATUS(ended) not in (0, status):
        sys.exit(f"{words}: status {os.WEXITSTATUS(ended)}")
    return usage.ru_utime + usage.ru_stime, usage.ru_maxrss >> 10


def build(kind, folder):
    """The words that run a program of this kind."""
    source, rounds = ((TOP / "examples/account.c", []) if kind == "account"
                      else (TOP / "bench/whole.c", [kind, ROUNDS[kind]]))
    subprocess.run(["gcc", "-O2", "-g", "-w", "-fsanitize=thread", "-pthread", source, "-o", folder / kind],
                   check=True)
    return folder / kind, *rounds


def whole(words, runs, folder, environment):
    """The least seconds of ThreadSanitizer and of shb-record, and the most memory of the latter."""
    least, memory = {}, 0
    ways = {"tsan": (words, {"TSAN_OPTIONS": "report_bugs=0"}),
            "all": ([sys.executable, "-S", TOP / "python/shb-record", "-o", folder / "results",
                     *words], {"SHB_SEED": "1"})}
    for _ in range(runs):
        for way, (command, more) in ways.items():
            taken, had = processor_seconds(command, A_PLACE, cwd=folder, env={**environment, **more})
            least[way] = min(taken, least.get(way, 1e9))
            memory = max(memory, had) if way == "all" else memory
    return least["tsan"], least["all"], memory


def phases(words, runs, folder, environment):
    """The least seconds of the recording, of the making of the run's trace, and of the analyser on it; and
    how many events it has."""
    record, trace = folder / "app.rec", folder / "app.std"
    recording = {**environment, "SHB_SEED": "1", "SHB_RECORD": str(record),
                 "LD_LIBRARY_PATH": str(TOP / "recorder/lib")}
    taken = [[], [], []]
    for _ in range(runs):
        record.unlink(missing_ok=True)
        taken[0].append(processor_seconds(words, env=recording)[0])
        with open(trace, "wb") as file, open(os.devnull, "wb") as finer:
            making = [TOP / "recorder/shb-std", "--list", "--finer", finer.fileno(), "--only", os.devnull,
                      "--page", os.devnull, record]
            taken[1].append(processor_seconds(making, out=file, pass_fds=[finer.fileno()])[0])
        taken[2].append(processor_seconds([SHB, "places", "--list", "--variables", trace])[0])
    with open(trace, "rb") as file:
        return *map(min, taken), sum(1 for _ in file)


def print_row(name, words, runs, folder):
    environment = {**os.environ, "PYTHONPYCACHEPREFIX": str(folder / "compiled")}
    environment.pop("PYTHONDONTWRITEBYTECODE", None)
    tsan, all_, memory = whole(words, runs, folder, environment)
    recording, making, analysing, events = phases(words, runs, folder, environment)
    seconds = recording, making, analysing, all_ - recording - making - analysing, all_
    cells = " | ".join(f"{it:.2f}" for it in seconds)
    print(f"| {name} | {events:,} | {tsan:.3f} | {cells} | {all_ / tsan:.1f} | {memory:,} |", flush=True)


def main(runs="3", *words):
    heads = ("Program", "Events", "ThreadSanitizer", "Recording", "shb-std", "Analyser", "Rest", "Whole",
             "Ratio", "Memory, MB")
    print(f"| {' | '.join(heads)} |\n{'|---' * len(heads)}|")
    for kind in ["--"] if words[:1] == ("--",) else words or ROUNDS:
        with tempfile.TemporaryDirectory() as name:
            folder = pathlib.Path(name)
            if kind == "--":
                print_row(" ".join(os.path.basename(word) for word in words[1:]), words[1:], int(runs),
                          folder)
            else:
                print_row(kind, build(kind, folder), int(runs), folder)


if __name__ == "__main__":
    main(*sys.argv[1:])
