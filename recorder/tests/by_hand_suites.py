#!/usr/bin/env python3
"""Compares two versions of the recorder on the suites of other race detectors: which places each finds, and
how a run ends. It takes an hour or more, so the gate doesn't run it.

    by_hand_suites.py [--seeds N] OLD SHB NEW SHB FOLDER..

OLD and NEW are checkouts with a built recorder, SHB is the analyser of each. Each program of the folders, or
each file that is named, is built by gcc or g++ with the words of CPPFLAGS, with the arguments that a .vgtest
beside it has, and recorded by both with each of the seeds 1 to N (3). Of a program that differs it prints a
row for each difference: a place, or a status, and with how many seeds either version has it. What one seed
shows and another doesn't is often chance; read the program, and try it with more seeds. Status 1 is a
traceback, or the program's own. The sources, in a Debian with a line `deb-src`:

    apt-get source --download-only gcc-12 valgrind llvm-toolchain-14       # 240 MB
    tar -xzOf gcc-12_*.orig.tar.gz --wildcards '*/gcc-*-dfsg.tar.xz' |
        tar -xJ --wildcards '*/c-c++-common/tsan' '*/g++.dg/tsan'
    tar -xf valgrind_*.orig.tar.bz2 --wildcards '*/helgrind' '*/drd' '*/include' '*/VEX/pub' '*/config.h' \\
        '*/tests'
    tar -xf llvm-toolchain-14_*.orig.tar.xz --wildcards '*/compiler-rt/test'
    CPPFLAGS='-Ivalgrind-3.19.0 -Ivalgrind-3.19.0/include' by_hand_suites.py .. gcc-*/gcc/testsuite/*/tsan \\
        valgrind-*/*/tests
    CPPFLAGS=-Illvm-toolchain-14_14.0.6/compiler-rt/test by_hand_suites.py .. llvm-*/compiler-rt/test/tsan
"""

import argparse
import collections
import os
import pathlib
import re
import resource
import shlex
import subprocess
import sys
import tempfile

SECONDS = 60
KINDS = {".c": "gcc", ".cc": "g++", ".cpp": "g++", ".C": "g++"}


def built(source, program):
    """Whether the program could be built: what is a part of another one, or of another system, can't."""
    more = ["-fopenmp"] * ("omp.h" in source.read_text(errors="replace"))
    return not subprocess.run([KINDS[source.suffix], "-w", "-g", "-O1", "-fsanitize=thread", "-pthread",
                               *more, *shlex.split(os.environ.get("CPPFLAGS", "")),
                               source, "-o", program, "-ldl", "-lrt", "-lm"],
                              stderr=subprocess.DEVNULL).returncode


def arguments(source):
    given = source.with_suffix(".vgtest")
    found = re.search("^args:(.*)", given.read_text(), re.M) if given.exists() else None
    return shlex.split(found[1]) if found else []


def findings(program, words, checkout, shb, seed, folder):
    """The places of one recording, as two locations and the variables, and how the command ended."""
    results = folder / "results"
    subprocess.run(["rm", "-rf", results], check=True)
    status = subprocess.run(["timeout", "-k", "20", str(SECONDS), checkout / "python/shb-record", "-o",
                             results, program, *words], cwd=folder,
                            stdin=subprocess.DEVNULL, stdout=subprocess.DEVNULL, stderr=subprocess.DEVNULL,
                            env={**os.environ, "SHB": str(shb), "SHB_SEED": str(seed)}).returncode
    table = results / "places.tsv"
    rows = ([row.split("\t") for row in table.read_text(errors="replace").splitlines()[1:]] if table.exists()
            else [])
    return [f"status {status}", *(" and ".join(sorted(row[:2])) for row in rows)]


def compared(source, versions, seeds, folder):
    """With how many seeds each version has each finding, and what its runs took."""
    counts, taken = collections.defaultdict(lambda: [0] * len(versions)), [0.0] * len(versions)
    for seed in range(1, seeds + 1):
        for at, (checkout, shb) in enumerate(versions):
            before = resource.getrusage(resource.RUSAGE_CHILDREN)
            for finding in findings(folder / "program", arguments(source), checkout, shb, seed, folder):
                counts[finding][at] += 1
            after = resource.getrusage(resource.RUSAGE_CHILDREN)
            taken[at] += after.ru_utime + after.ru_stime - before.ru_utime - before.ru_stime
    return counts, taken


def sources_of(folders):
    for folder in map(pathlib.Path, folders):
        yield from [folder] if folder.is_file() else sorted(path
                                                            for path in folder.iterdir()
                                                            if path.suffix in KINDS)


def main():
    words = argparse.ArgumentParser(description="compares two versions of the recorder on suites of programs")
    words.add_argument("--seeds", type=int, default=3)
    for name in ("old", "old_shb", "new", "new_shb"):
        words.add_argument(name, type=lambda text: pathlib.Path(text).resolve())
    words.add_argument("folders", nargs="+")
    given = words.parse_args()
    versions, sums, same, left_out = (((given.old, given.old_shb), (given.new, given.new_shb)), [0.0, 0.0], 0,
                                      [])
    print(f"| Program | Finding | Old, of {given.seeds} | New | Old, CPU s | New |\n|" + "---|" * 6)
    for source in sources_of(given.folders):
        with tempfile.TemporaryDirectory() as folder:
            if not built(source.resolve(), pathlib.Path(folder) / "program"):
                left_out.append(source.name)
                continue
            counts, taken = compared(source, versions, given.seeds, pathlib.Path(folder))
        sums = [sum(pair) for pair in zip(sums, taken)]
        differing = {finding: row for finding, row in sorted(counts.items()) if row[0] != row[1]}
        same += not differing
        for finding, (old, new) in differing.items():
            print(f"| {source.name} | {finding} | {old} | {new} | {taken[0]:.1f} | {taken[1]:.1f} |",
                  flush=True)
        if max(taken) > 3 * given.seeds and not differing:
            print(f"| {source.name} | the same, slow | | | {taken[0]:.1f} | {taken[1]:.1f} |", flush=True)
    print(f"\n{same} programs with the same findings; CPU s of all: {sums[0]:.0f}, {sums[1]:.0f}\nnot built: "
          f"{', '.join(left_out)}")


if __name__ == "__main__":
    sys.exit(main())
