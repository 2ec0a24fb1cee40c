#!/usr/bin/env python3
"""Prints a row on what recording a program costs, for docs/BENCHMARKS.md.

    recorder.py PLAIN TSAN [WORD..]

The two are the same program, built without -fsanitize=thread and with it; the second is run by itself and
recorded. Each is run with the WORDs, its output thrown away. The trace is then made and analysed. Times are
wall and processor seconds, the least of three runs. The built analyser is bin/shb, or what SHB names.
"""

import os
import pathlib
import re
import resource
import subprocess
import sys
import tempfile
import time

TOP = pathlib.Path(__file__).resolve().parent.parent
CONVERTER, LIBRARY = TOP / "recorder" / "shb-std", TOP / "recorder" / "lib"
ANALYSER = os.environ.get("SHB") or TOP / "bin" / "shb"
RUNS = 3
CUT = 3  # the converter's status for a part of a run


def processor_seconds():
    usage = resource.getrusage(resource.RUSAGE_CHILDREN)
    return usage.ru_utime + usage.ru_stime


def measure(words, **how):
    """The least wall and processor time of some runs of a command, and what the last one said
    on standard error."""
    wall, processor = [], []
    for _ in range(RUNS):
        begin, before = time.monotonic(), processor_seconds()
        ran = subprocess.run(words, stdout=subprocess.DEVNULL, stderr=subprocess.PIPE, **how)
        if ran.returncode not in (0, CUT):
            sys.exit(f"{words[0]}: status {ran.returncode}")
        wall.append(time.monotonic() - begin)
        processor.append(processor_seconds() - before)
    return f"{min(wall):.2f}, {min(processor):.2f}", ran.stderr.decode()


def main():
    plain, tsan, *words = sys.argv[1:]
    with tempfile.TemporaryDirectory() as folder:
        record, trace = os.path.join(folder, "app.rec"), os.path.join(folder, "app.std")
        quiet = {**os.environ, "TSAN_OPTIONS": "report_bugs=0"}
        times = [measure([plain, *words])[0], measure([tsan, *words], env=quiet)[0]]
        recording = {**os.environ, "SHB_RECORD": record, "LD_LIBRARY_PATH": str(LIBRARY)}
        times.append(measure([tsan, *words], env=recording)[0])
        converting, said = measure(["sh", "-c", f"exec {CONVERTER} {record} > {trace}"])
        analysing = measure([ANALYSER, "places", "--list", trace])[0]
    records, threads, events = re.search(r"(\d+) records, (\d+) threads, (\d+) events", said).groups()
    cut = " (cut)" if " cut " in said or "not the whole" in said else ""
    cells = [pathlib.Path(plain).name, *times, threads, records, events + cut, converting, analysing]
    print("| " + " | ".join(cells) + " |")


if __name__ == "__main__":
    main()
