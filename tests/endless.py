#!/usr/bin/env python3
"""Finds where code could wait without an end. No contract speaks of that: what it promises holds for a call
that returns. Ends with the line 'N passed, N failed'.

A function of Rattle waits only by a runtime with the bound `Wait`, sleeps by one with `Clock`, and reads a
device by one with `Input` or `Files`. All functions through which a run starts threads have the bound `Wait`,
so it doesn't tell which of them wait. But each call of the standard library that waits is one of `std::sync`,
`std::thread` or `std::time`, and a loop without an end is `rt.forever()`. So these are refused but in the
files below, where they stand just so often: the two waits for the ring, the loop of a worker, the wait for a
refusal that was told, the sleep in a wait, and the start of threads, which waits for their end. A loop needs
no bound to go round 2^64 times: so the end of a range and what a `while` asks may have no greatest number of
a type of 64 bits, no turned or shifted one, none in hexadecimal, none of six digits and more, and no constant
that is greater than 65,536 or isn't a number as it stands; a loop that ends with its source is listed. A
number that is computed or handed on isn't seen, nor are ranges in one another.

Looked for in the crates of the program, and not in those of tests.
"""

import functools
import pathlib
import re
import sys

CRATES = pathlib.Path(__file__).resolve().parent.parent / "crates"
COMMENT = re.compile(r"//.*")
WAITS = "shb_fan/src/streaming.rt"
SLEEPS = "shb_fan/src/ring.rt"
STARTS = "shb_fan/src/sides.rt"
PROGRAM = ("shb/src/main.rt", "shb/src/traces.rt", "shb/src/checks.rt")

# What stands in no file but these, and how often.
ANY_NUMBER = None
NAMED = {
    r"\bforever\b": {WAITS: 3},
    r"\bwait\s*\(": {WAITS: 1},
    r"\bstd::sync\b(?!::Wait;)": {WAITS: 1},
    r"\bpark_timeout\b": {SLEEPS: 1},
    r"\bpark\b": {},
    r"\bstd::thread\b(?!::Threads;)": {SLEEPS: 1, STARTS: 1},
    r"\b(?:join_mut|for_each_mut)\s*\(": {STARTS: 2},
    r"\bstd::time\b(?!::Duration;)": {},
    r"\b(?:Input|Files)\b": dict.fromkeys(PROGRAM, ANY_NUMBER),
    # Other names of the same calls.
    r"\bcore::": {},
    r"\bstd\s*(?:::\s*[{*]|\bas\b|;)": {},
}

# Loops that could take years: what ends a range or is asked by a `while`, and what may not stand there.
ENDS = re.compile(r"\.\.=?[^{};\n]*|\bwhile\b(?! let\b)[^{;]*")
LONG = re.compile(
    r"(?:u64|u128|usize|i64|i128|isize)::MAX\b|![0-9]\w*|[\w)]+\s*<<|\b0x\w+|\b[0-9](?:_?[0-9]){5,}")
NAME = re.compile(r"(?<!::)\b[A-Z][A-Z0-9_]+\b")
CONSTANT = re.compile(r"\bconst (\w+): \w+ = ([0-9_]+);")
MOST_ROUNDS = 65_536
# Loops that may: of each file what ends them, and why they end.
LOOPS = {("shb_lines/src/event_reader.rt", "while self.line < u64::MAX"): "each round reads a line, so it "
         "ends where the source does"}


def constants_in(code):
    return {name: int(value.replace("_", "")) for name, value in CONSTANT.findall(code)}


@functools.lru_cache(maxsize=None)
def constants_of_all():
    """The constants of all files: of those with one name the greatest."""
    all_of = [constants_in(file.read_text()) for file in CRATES.glob("*/src/**/*.rt")]
    return {name: max(it.get(name, 0) for it in all_of) for name in {name for it in all_of for name in it}}


def long_loops(code):
    """The places of a code where a loop could be told to go round for years, and what stands there."""
    known = {**constants_of_all(), **constants_in(code)}
    small = {name for name, value in known.items() if value <= MOST_ROUNDS}
    for end in ENDS.finditer(code):
        found = (LONG.search(end.group())
                 or next((it for it in NAME.finditer(end.group()) if it.group() not in small), None))
        if found:
            yield end.start() + found.start(), " ".join(end.group()[: found.end()].split())


def wrong_in(name, text):
    """Where a file of this name below crates/ has what it may not have, or not so often as it must."""
    code = COMMENT.sub("", text)
    wrong = [f"{name}:{code.count(chr(10), 0, place) + 1}: {what}"
             for place, what in long_loops(code) if (name, what) not in LOOPS]
    for word, files in NAMED.items():
        found = list(re.finditer(word, code))
        wanted = files.get(name, 0)
        if wanted in (ANY_NUMBER, len(found)):
            continue
        wrong += [f"{name}:{code.count(chr(10), 0, place.start()) + 1}: {place.group()}" for place in found]
        wrong += [f"{name}: {wanted} of {word} are wanted"] if wanted else []
    return wrong


def main():
    files = sorted(CRATES.glob("*/src/**/*.rt"))
    wrong = 0
    for file in files:
        found = wrong_in(file.relative_to(CRATES).as_posix(), file.read_text())
        wrong += bool(found)
        for what in found:
            print(f"code could wait without an end: {what}")
    print(f"{len(files) - wrong} passed, {wrong} failed")
    return 1 if wrong or not files else 0


if __name__ == "__main__":
    sys.exit(main())
