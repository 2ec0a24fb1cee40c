"""What runs the jobs of a pass: xargs on this machine, or Slurm on a cluster.

An engine may lose a job, run it twice, or end early: what has no outcome is stated as missing, and the next
run of the farm takes it up. So nothing depends on an engine's own status, but that it takes jobs at all.
"""

import os
import pathlib
import shlex
import signal
import subprocess
import sys
import tempfile

from shb_common.children import apart
from shb_common.standard import Progress, tell
from shb_common.words import Refused, counted
from shb_farm import passes, running

# Without a PATH Python doesn't know its own name. A job needs none of this machine's packages (-S).
JOB = [sys.executable or "python3", "-I", "-S", str(pathlib.Path(__file__).resolve().with_name("job.py"))]
TRACES_A_JOB = 50       # at most: so Python's start is a small part of a job
MOST_TASKS = 1000       # of an array, below Slurm's own bound of 1,001
BESIDE_MIB = 64         # what a job needs beside the program, where a cluster counts memory
LOOK_SECONDS = 0.2


def run_xargs(work, path, options):
    """Runs a pass here, as many traces at once as there are processors and memory for."""
    count = len(work.names)
    at_once = max(1, min(options.jobs, count, running.free_memory() // work.memory))
    jobs = min(count, max(8 * at_once, count // TRACES_A_JOB))
    say(f"{counted(count, 'trace')} with {work.memory} MiB each, {at_once} at once")
    numbers = "".join(f"{number}\n" for number in range(jobs))
    words = ["xargs", "-n", "1", "-P", str(at_once), *JOB, path, str(jobs)]
    run_group(work, words, numbers)


def run_slurm(work, path, options):
    """Runs a pass as a job array, which `sbatch --wait` waits for. What a node loses is missing: requeued,
    Slurm could hold it without end."""
    count, name = len(work.names), f"shb-farm-{pathlib.Path(work.room).name}"
    tasks = min(count, MOST_TASKS, max(100, count // TRACES_A_JOB))
    log = pathlib.Path(work.out) / "log"
    log.mkdir(exist_ok=True)
    words = ["sbatch", "--wait", "--parsable", "--no-requeue", f"--job-name={name}", f"--array=0-{tasks - 1}",
             "--ntasks=1", "--cpus-per-task=1", f"--mem={work.memory + BESIDE_MIB}", f"--output={log}/%A_%a",
             *options.sbatch, "--wrap", f"exec {shlex.join([*JOB, path, str(tasks)])}"]
    say(f"{counted(count, 'trace')} with {work.memory} MiB each, in {counted(tasks, 'task')}")
    with tempfile.TemporaryFile() as number:
        try:
            status = run_group(work, words, "", number)
        except (KeyboardInterrupt, SystemExit):
            subprocess.run(["scancel", f"--name={name}"])
            raise
        if not os.fstat(number.fileno()).st_size:
            raise Refused(f"sbatch took no job: it ended with status {status}")


ENGINES = {"xargs": run_xargs, "slurm": run_slurm}


def run_group(work, words, given, out=None):
    """Runs a command with all that it starts in a process group, which ends when this process ends, and says
    on a terminal how many traces of the pass are done. Returns its status."""
    path, whole = pathlib.Path(work.room) / passes.DONE, len(work.names)
    path.write_bytes(b"")
    progress = Progress("shb-farm", sys.stderr)
    with tempfile.TemporaryFile("w+") as numbers:
        numbers.write(given)
        numbers.seek(0)
        try:
            started = subprocess.Popen(words, stdin=numbers, stdout=out or sys.stderr, **apart())
        except FileNotFoundError:
            raise Refused(f"{words[0]} isn't installed")
    try:
        while True:
            try:
                return started.wait(LOOK_SECONDS)
            except subprocess.TimeoutExpired:
                done = min(path.stat().st_size, whole)
                progress.step(f"{done:,} of {counted(whole, 'trace')}", done, whole)
    except BaseException:
        os.killpg(started.pid, signal.SIGTERM)
        started.wait()
        raise
    finally:
        progress.clear()


def say(text):
    tell(f"shb-farm: {text}")
