#!/usr/bin/env python3
"""Measures time and memory of `shb places --list` on streams of any length, which are made meanwhile.

    streams.py [--events N,..] [--beside COMMAND] [PROGRAM]

A stream is one round of a made-up program again and again: threads take locks, use what these protect and
memory of their own, and now and then what nothing protects. Its first and its last event race. So its places
are those of two rounds and one more, whatever its length; that is checked. With --beside another program is
given the same streams, as words to which nothing is added; what it writes isn't looked at.
"""

import argparse
import os
import pathlib
import re
import shlex
import subprocess
import tempfile
import time

import measure
from generate import Numbers

THREADS, LOCKS, SHARED, OWN, OPEN, STEPS = 16, 64, 64, 256, 40, 100_000
FIRST, LAST = b"early|w(far)|far.c:1\n", b"late|w(far)|far.c:2\n"
PLACE = re.compile(rb"^at ([^\n]*)\nand ([^\n]*)$", re.M)


def step(draw):
    """What a thread does before another one goes on."""
    thread, lock, number = draw.below(THREADS), draw.below(LOCKS), draw.below(SHARED)
    yield f"T{thread}|acq(lock{lock})|door.c:{lock}"
    for kind in "rw":
        yield f"T{thread}|{kind}(shared{lock}.{number})|shared.c:{number}"
    yield f"T{thread}|rel(lock{lock})|door.c:{lock + LOCKS}"
    yield f"T{thread}|w(own{thread}.{draw.below(OWN)})|own.c:{thread}"
    if draw.below(1000) == 0:
        yield f"T{thread}|{'rw'[draw.below(2)]}(open{draw.below(OPEN)})|open.c:{draw.below(OPEN)}"


def round_of_steps():
    draw = Numbers(1)
    lines = [line for _ in range(STEPS) for line in step(draw)]
    return "".join(line + "\n" for line in lines).encode(), len(lines)


def feed(pipe, text, rounds):
    pipe.write(FIRST)
    for _ in range(rounds):
        pipe.write(text)
    pipe.write(LAST)


def megabytes(process):
    """The most that a process had until now. (What the system says of an ended one counts this program, too,
    which started it.)"""
    status = pathlib.Path(f"/proc/{process.pid}/status").read_text()
    return int(re.search(r"VmHWM:\s+(\d+)", status)[1]) / 1024


def analyse(command, text, rounds, out):
    """The processor seconds of a command on a stream of so many rounds, and its megabytes when nearly
    all was read."""
    process = subprocess.Popen(command, stdin=subprocess.PIPE, stdout=out)
    feed(process.stdin, text, rounds)
    most = megabytes(process)
    process.stdin.close()
    _, status, usage = os.wait4(process.pid, 0)
    if status:
        raise SystemExit(f"{shlex.join(map(str, command))} ended with status "
                         f"{os.waitstatus_to_exitcode(status)}")
    return usage.ru_utime + usage.ru_stime, most


def places(file):
    file.seek(0)
    return sorted(PLACE.findall(file.read()))


def main():
    parser = argparse.ArgumentParser(description=__doc__.splitlines()[0])
    parser.add_argument("--events", default="5000000,10000000,20000000",
                        help="how many events, about, with commas between")
    parser.add_argument("--beside", default="", help="another program, with its words")
    parser.add_argument("program", nargs="?", default=measure.HERE.parent / "bin" / "shb", type=pathlib.Path)
    options = parser.parse_args()
    text, count = round_of_steps()
    commands = [[options.program.resolve(), "places", "--list"],
                *[shlex.split(options.beside)] * bool(options.beside)]
    with tempfile.TemporaryFile() as out:
        analyse(commands[0], text, 2, out)
        wanted = places(out)
        print("| events | GB | wall s | processor s | peak MB |" + " times | memory |" * bool(options.beside))
        for events in map(int, options.events.split(",")):
            rounds = max(2, events // count)
            out.seek(0)
            out.truncate()
            start = time.monotonic()
            seconds, most = analyse(commands[0], text, rounds, out)
            cells = [f"{rounds * count + 2}", f"{rounds * len(text) / 1e9:.2f}",
                     f"{time.monotonic() - start:.1f}", f"{seconds:.1f}", f"{most:.0f}"]
            if places(out) != wanted:
                raise SystemExit(f"of {rounds} rounds it lists other places than of 2")
            if options.beside:
                with open(os.devnull, "wb") as nowhere:
                    others = analyse(commands[1], text, rounds, nowhere)
                cells += [f"{seconds / others[0]:.2f}", f"{most / others[1]:.2f}"]
            print(f"| {' | '.join(cells)} |", flush=True)


if __name__ == "__main__":
    main()
