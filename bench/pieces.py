#!/usr/bin/env python3
"""Prints what a piece of work costs through `gather`: nanoseconds a piece, the least and the median of some
calls, and the processor time of a piece, for some numbers of pieces and workers. A piece turns a loop so
many times; with 0 turns it is trivial, with 20,000 it takes some microseconds.

It makes a program in a temporary folder from crates/shb_io and crates/shb_fan as they stand here, proves
and builds it with `rt`, and runs it.

    pieces.py [CALLS]
"""

import os
import pathlib
import shutil
import statistics
import subprocess
import sys
import tempfile

TOP = pathlib.Path(__file__).resolve().parent.parent
BELOW = ["shb_io", "shb_fan"]
ROWS = [(1_000, 0), (100_000, 0), (1_000_000, 0), (20_000, 20_000)]
WORKERS = [1, 2, 4, 64]

CRATES = """shb_io:
shb_fan tests_may=Threads+Wait: shb_io atomic_table
measure: shb_io shb_fan
"""

MAIN = r"""//! Says what a piece of work costs through `gather`.
#![tactic(auto)]

ghost use Rattle.std.specs.Prelude.{◌≡◌, ◌≤◌, ◌^◌};

use shb_fan::{FreeGate, Job, Workers, gather};
use shb_io::NoMemory;
use std::alloc::Global;
use std::env;
use std::io;
use std::rt::Env;
use std::sync::Wait;
use std::thread::Threads;
use std::time::{Clock, Instant};

/// A job of so many pieces, each of which turns a loop so many times.
#[derive(Drop)]
struct Turns {
    pieces: u64,
    turns: u64,
    ghost few: { pieces ≤ 2 ^ 60 },
}

impl Job for Turns {
    type Out = u64;

    type Meaning = ();

    ghost meaning = { λ _. tt };

    ghost value = { λ _ _. tt };

    ghost count = { λ job. job.pieces };

    fn pieces(&self) -> u64 {
        self.pieces
    }

    fn run(&self, _alloc: Global, k: u64) -> Result<u64, NoMemory> {
        let mut number = k;
        for _ in 0..self.turns {
            number = number
                .wrapping_mul(6364136223846793005)
                .wrapping_add(1442695040888963407);
        }
        Ok(number)
    }
}

/// The nanoseconds that a piece took, once.
fn once<R: Threads + Wait + Sync + Clock>(
    rt: &R,
    alloc: Global,
    job: &Turns,
    workers: Workers,
) -> io::Result<u64> {
    let start = Instant::now(rt)?;
    let Ok(values) = gather(rt, alloc, job, &FreeGate, workers) else {
        return Ok(u64::MAX);
    };
    let taken = u64::try_from(start.elapsed(rt)?.as_nanos()).unwrap_or(u64::MAX);
    let mut sum = 0u64;
    for value in &values {
        sum = sum.wrapping_add(*value);
    }
    Ok(taken.wrapping_add(sum / u64::MAX) / job.pieces.max(1))
}

fn number(word: &str) -> u64 {
    word.parse().unwrap_or(0)
}

fn main(rt: HostRuntime) -> io::Result<()> {
    let words: Vec<String> = env::args(&rt)?.skip(1).collect(rt.alloc())?;
    if words.len() != 4 {
        return println!(rt; "PIECES TURNS WORKERS TIMES");
    }
    let pieces = number(words[0].as_str()).min(1 << 30);
    let turns = number(words[1].as_str());
    let Some(workers) = Workers::new(number(words[2].as_str()).min(1 << 20) as u32) else {
        return println!(rt; "1 to 64 workers");
    };
    let job = Turns { pieces, turns };
    for _ in 0..number(words[3].as_str()) {
        let taken = once(&rt, rt.alloc(), &job, workers)?;
        println!(rt; "{taken}")?;
    }
    Ok(())
}
"""


def build(folder):
    """The program, proved and built in the folder."""
    (folder / "crates.txt").write_text(CRATES)
    shutil.copy(TOP / "HANDLES", folder / "HANDLES")
    for name in BELOW:
        shutil.copytree(TOP / "crates" / name, folder / "crates" / name)
    measure = folder / "crates" / "measure"
    (measure / "src").mkdir(parents=True)
    (measure / "src" / "main.rt").write_text(MAIN)
    done = subprocess.run(["rt", "run", "--jobs", "2", "--", "1", "0", "1", "1"], cwd=measure,
                          capture_output=True, text=True)
    if done.returncode != 0:
        sys.exit(done.stdout + done.stderr)
    return measure / "out" / "measure"


def measured(program, pieces, turns, workers, calls):
    """The nanoseconds a piece of each call, and the processor time of a piece."""
    reading, writing = os.pipe()
    process = subprocess.Popen([program, str(pieces), str(turns), str(workers), str(calls)], stdout=writing)
    os.close(writing)
    with os.fdopen(reading) as lines:
        times = [int(line) for line in lines]
    _, status, usage = os.wait4(process.pid, 0)
    if status != 0:
        sys.exit(f"status {status}")
    return times, (usage.ru_utime + usage.ru_stime) / (pieces * calls) * 1e9


def main():
    calls = int(sys.argv[1]) if len(sys.argv) > 1 else 5
    with tempfile.TemporaryDirectory(prefix="pieces-") as folder:
        program = build(pathlib.Path(folder))
        print("| pieces | turns | workers | least | median | processor time |")
        print("|---|---|---|---|---|---|")
        for pieces, turns in ROWS:
            for workers in WORKERS:
                times, processor = measured(program, pieces, turns, workers, calls)
                print(f"| {pieces} | {turns} | {workers} | {min(times)} | {statistics.median(times):.0f} | "
                      f"{processor:.0f} |", flush=True)


if __name__ == "__main__":
    main()
