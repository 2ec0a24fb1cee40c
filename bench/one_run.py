#!/usr/bin/env python3
"""Prints which share of the races of small programs one run finds, and ten, beside ThreadSanitizer's.

    one_run.py [ROWS]

The programs are those of recorder/tests/programs with a comment RACE at each line that races, which run
without words, end with status 0 (or ThreadSanitizer's) within ten seconds, and in which either found a race.
Each is built with -O1, recorded with seeds 1 to 10 and the slices that the recorder draws, and run as often
with gcc's library, in turn. Lines are those of places, and of reports the innermost ones in the program's
file. An interleaving is a trace. ROWS gets a line for each program, with these shares of shb,
ThreadSanitizer's, the places of ten runs that one has, and the interleavings. The built analyser is bin/shb,
or what SHB names.
"""

import os
import pathlib
import re
import statistics
import subprocess
import sys
import tempfile

TOP = pathlib.Path(__file__).resolve().parent.parent
CONVERTER, LIBRARY = TOP / "recorder" / "shb-std", TOP / "recorder" / "lib"
ANALYSER = os.environ.get("SHB") or TOP / "bin" / "shb"
SEEDS, SECONDS, REPORTED = range(1, 11), 10, 66
ACCESS = re.compile(r"^  [A-Z][a-z ]* of size \d+ at .*\n((?:    #.*\n)+)", re.M)


def build(source, program):
    compiler = "g++" if source.suffix == ".cc" else "gcc"
    more = ["-fopenmp"] * source.name.startswith("openmp")
    return subprocess.run([compiler, "-w", "-g", "-O1", "-fsanitize=thread", "-pthread", *more, source, "-o",
                           program], stderr=subprocess.DEVNULL).returncode == 0


def said(program, **settings):
    """What a run printed on standard error; nothing if it failed or took too long."""
    try:
        ran = subprocess.run(["setarch", "-R", program], stdin=subprocess.DEVNULL, stdout=subprocess.DEVNULL,
                             stderr=subprocess.PIPE, timeout=SECONDS, env={**os.environ, **settings},
                             cwd=program.parent)
    except subprocess.TimeoutExpired:
        return None
    return ran.stderr.decode(errors="replace") if ran.returncode in (0, REPORTED) else None


def output(words, **how):
    return subprocess.run(words, stdout=subprocess.PIPE, stderr=subprocess.DEVNULL, **how).stdout


def reported(program, name):
    """The lines of ThreadSanitizer's reports, and nothing of the interleaving."""
    text = said(program)
    if text is None:
        return None
    frames = (re.search(rf"{re.escape(name)}:(\d+)", stack) for stack in ACCESS.findall(text))
    return {int(frame[1]) for frame in frames if frame}, set(), None


def recorded(program, name, seed):
    """The lines of the places of a recorded run's processes, the places, and the traces."""
    how = {"SHB_RECORD": f"{program}.%p.rec", "SHB_SEED": str(seed), "LD_LIBRARY_PATH": str(LIBRARY)}
    if said(program, **how) is None:
        return None
    places, traces = set(), []
    for record in program.parent.glob("*.rec"):
        traces.append(output([CONVERTER, record]))
        listed = output([ANALYSER, "places", "--list"], input=traces[-1]).decode()
        places |= {tuple(sorted(pair)) for pair in re.findall(r"^at (.*)\nand (.*)$", listed, re.M)}
        record.unlink()
    lines = re.findall(rf"{re.escape(name)}:(\d+)$", "\n".join(sum(places, ())), re.M)
    return set(map(int, lines)), places, tuple(sorted(traces))


def measured(source, folder):
    """The program's lines that race; of ten runs by either what they found, or nothing."""
    racing = {number for number, line in enumerate(source.read_text().splitlines(), 1) if "RACE" in line}
    program = folder / source.stem
    if not racing or not build(source, program):
        return None
    ours, theirs = [], []
    for seed in SEEDS:
        ours.append(recorded(program, source.name, seed))
        theirs.append(reported(program, source.name))
        if None in (ours[-1], theirs[-1]):
            return None
    return (racing, ours, theirs) if any(lines & racing for lines, _, _ in ours + theirs) else None


def shares(found, whole):
    """How much of a set each run has, and all of them."""
    return statistics.mean(len(one & whole) / len(whole) for one in found), len(
        set().union(*found) & whole) / len(whole)


def row(racing, ours, theirs):
    """Of a program: the shares of runs with a race, of lines in one run and ten, and of places in one."""
    cells = []
    for runs in ours, theirs:
        lines = [lines for lines, _, _ in runs]
        cells += [statistics.mean(bool(one & racing) for one in lines), *shares(lines, racing)]
    places = [places for _, places, _ in ours]
    every = set().union(*places)
    cells.append(shares(places, every)[0] if every else 1)
    return [*cells, len({trace for _, _, trace in ours})]


def table(rows, said):
    means = [statistics.mean(column) for column in zip(*rows)]
    print(f"| {len(rows)} programs{said} | A race | Its lines | Lines, ten runs |\n|---|---|---|---|")
    for name, cells in ("shb", means[:3]), ("ThreadSanitizer", means[3:6]):
        print(f"| {name} | {' | '.join(f'{cell:.2f}' for cell in cells)} |")
    print(f"One run has {means[6]:.2f} of ten runs' places; ten have {means[7]:.1f} interleavings.\n")


def main():
    rows = {}
    with tempfile.TemporaryDirectory() as folder:
        for source in sorted((TOP / "recorder/tests/programs").glob("*.c*")):
            found = measured(source, pathlib.Path(folder))
            if found:
                rows[source.name] = row(*found)
    if sys.argv[1:]:
        pathlib.Path(sys.argv[1]).write_text("".join(
            f"{name}\t{' '.join(f'{cell:.2f}' for cell in cells)}\n" for name, cells in rows.items()))
    table(rows.values(), "")
    table([cells for cells in rows.values() if cells[5] == 1], ", all lines of which ThreadSanitizer had")


if __name__ == "__main__":
    main()
