#!/usr/bin/env python3
"""Times the built program on made traces, or on the given ones, and prints a table.

For each trace, form of the report and number of workers it has the least wall time of some runs, its ratio to
that with one worker, the processor time of that run and the most memory; and, of one worker, the ratio to
`wc -l` of the trace. All is of this one run. Of given traces list reports are made, or with --full full ones.

    measure.py [--large] [--repeats N] [--only WORD] [PROGRAM]
    measure.py [--full] [--repeats N] PROGRAM TRACE..
"""

import argparse
import os
import pathlib
import subprocess
import sys
import tempfile
import time
import typing

HERE = pathlib.Path(__file__).resolve().parent
WORKERS = (1, 2, 4)
SOME_RACES = ["--races", "1000"]


class Trace(typing.NamedTuple):
    name: str
    options: list
    forms: tuple = ("list",)
    is_large: bool = False


def million(*options):
    return ["--events", "1000000", *options]


TRACES = [
    Trace("a hundred thousand events", ["--events", "100000", *SOME_RACES], ("list", "full")),
    Trace("a million, 64 locks", million(*SOME_RACES)),
    Trace("a million, 4 locks", million("--locks", "4", *SOME_RACES)),
    Trace("a million, one hot variable", million("--hot")),
    Trace("a million, 200,000 variables", million("--variables", "200000", *SOME_RACES)),
    Trace("a million, names as recorded, 260,000 variables",
          million("--threads", "8", "--variables", "200000", "--own", "8000", "--recorded", *SOME_RACES)),
    Trace("a million, mostly reads", million("--reads", "95", *SOME_RACES)),
    Trace("a million, 32 threads", million("--threads", "32", *SOME_RACES)),
    Trace("a million, 1,024 threads", million("--threads", "1024", *SOME_RACES)),
    Trace("a million, 1,000 threads forked and joined, 16 at once",
          million("--threads", "1000", "--alive", "16", *SOME_RACES)),
    Trace("a million, one late race", million("--late"), ("full",)),
    Trace("a hundred thousand, many races, long schedules", ["--events", "100000", "--races", "20000"],
          ("list", "full")),
    Trace("four million", ["--events", "4000000", *SOME_RACES], is_large=True),
    Trace("four million, 32 threads", ["--events", "4000000", "--threads", "32", *SOME_RACES], is_large=True),
]


class Timed(typing.NamedTuple):
    wall: float
    processor: float
    megabytes: float


def timed(command, output, given=os.devnull, wanted=(0,)):
    """What the command takes, with this file as its input. It has to end with one of the wanted statuses."""
    with open(given, "rb") as text, open(output, "wb") as out:
        start = time.perf_counter()
        process = subprocess.Popen(command, stdin=text, stdout=out, stderr=subprocess.PIPE)
        said = process.stderr.read().decode(errors="replace")
        _, status, usage = os.wait4(process.pid, 0)
        wall = time.perf_counter() - start
    if not os.WIFEXITED(status) or os.WEXITSTATUS(status) not in wanted:
        sys.exit(f"{command}: status {status}\n{said}")
    return Timed(wall, usage.ru_utime + usage.ru_stime, usage.ru_maxrss / 1024)


def number_of_races(report):
    with open(report, "rb") as lines:
        return next(int(line.split()[1]) for line in lines if line.startswith(b"races "))


def made(folder, trace):
    """The text of a made trace, in a file."""
    text = folder / "trace.std"
    with open(text, "wb") as out:
        subprocess.run([sys.executable, HERE / "generate.py", *trace.options], stdout=out, check=True)
    return text


def measure(program, folder, name, text, forms, repeats):
    report = folder / "report"
    for form in forms:
        runs = {workers: [] for workers in WORKERS}
        counts = []
        # in turn, so that a busy machine disturbs all alike
        for _ in range(repeats):
            counts.append(timed(["wc", "-l", text], folder / "count").wall)
            for workers in WORKERS:
                words = ["races", "--workers", str(workers), *(["--list"] if form == "list" else []), text]
                runs[workers].append(timed([program, *words], report))
        best = {workers: min(of) for workers, of in runs.items()}
        events = int((folder / "count").read_text().split()[0])
        for workers in WORKERS:
            wall, processor, megabytes = best[workers]
            counted = f"{wall / min(counts):.0f}" if workers == 1 else ""
            print(
                f"| {name} | {events} | {text.stat().st_size / 1e6:.1f} | {form} | {number_of_races(report)} "
                f"| {report.stat().st_size / 1e6:.2f} | {workers} | {wall:.3f} | {wall / best[1].wall:.2f} "
                f"| {processor:.3f} | {megabytes:.0f} | {counted} |",
                flush=True,
            )


def arguments():
    parser = argparse.ArgumentParser(description=__doc__.splitlines()[0])
    parser.add_argument("--large", action="store_true", help="four million events too")
    parser.add_argument("--full", action="store_true", help="schedules too, of given traces")
    parser.add_argument("--repeats", type=int, default=3)
    parser.add_argument("--only", default="", help="traces whose names have this word")
    parser.add_argument("program", nargs="?", default=HERE.parent / "bin" / "shb", type=pathlib.Path)
    parser.add_argument("traces", nargs="*", type=pathlib.Path,
                        help="recorded traces, in place of the made ones")
    return parser.parse_args()


def main():
    options = arguments()
    print("| trace | events | MB | form | races | report MB | workers | wall s | x 1 worker | processor s | "
          "peak MB | x wc -l |")
    print("|---|---|---|---|---|---|---|---|---|---|---|---|")
    program = options.program.resolve()
    with tempfile.TemporaryDirectory() as room:
        folder = pathlib.Path(room)
        for path in options.traces:
            measure(program, folder, path.stem, path, ["full"] if options.full else ["list"], options.repeats)
        for trace in [] if options.traces else TRACES:
            if options.only in trace.name and (options.large or not trace.is_large):
                measure(program, folder, trace.name, made(folder, trace), trace.forms, options.repeats)


if __name__ == "__main__":
    main()
