"""The gate's longest part: every proof, the must-fail edits, and the tests of the program beside them.

    python3 tests/gate [--all] [--anew] [--record] [--room FOLDER] [--steps LOG]
        --all     tries every edit, and not those alone that the record asks for
        --anew    proves everything, also what an earlier run on this machine has proved of the same files
        --record  writes tests/gate/refused.sums where nothing failed
        --room    works in this empty folder and leaves it, with the built program in crates/shb/out/shb
        --steps   writes what each check costs (steps.py)

`rt ci` proves the crates in a copy of the repository that has no must-fail edits; it takes over what an
earlier run on this machine has proved of the same files over the same libraries. As soon as a crate is proved
its edits are tried over the libraries that are built by then (joint.py), those that the record (record.py)
doesn't answer for and of the others a tenth; as soon as the program is linked the tests of tests/, recorder/,
python/ and packaging/ run on it, and what it costs is counted (tests/costs.py), two of these at once. The
first proofs leave room for worked examples as calls of the crates (tests/calls.py). Each part ends with a
line 'N passed, N failed', and so does the whole.
"""

import argparse
import concurrent.futures
import os
import pathlib
import re
import resource
import shutil
import subprocess
import sys
import tempfile
import threading
import time

sys.dont_write_bytecode = True

import joint
import kit
import record
import steps

ROOT = pathlib.Path(__file__).resolve().parent.parent.parent
SUMS = ROOT / "tests" / "gate" / "refused.sums"
MEMORY = 3_000_000_000  # a check of edits waits until so many bytes are free; most take less than 2.5 GB
CALLS = "tests/calls.py"  # of the crates, unproved: beside the first proofs
# on the built program, the longest first
SUITES = ("recorder/tests/run.py", "tests/run.py", "tests/costs.py", "packaging/tests/run.py",
          "python/tests/run.py")
AT_ONCE = 2  # suites
CLOSING = re.compile(r"(\d+) passed, (\d+) failed(?:, \d+ skipped)?")


def git(*words):
    return subprocess.run(["git", "-C", ROOT, *words], capture_output=True, check=True, text=True).stdout


# edits, and a crate that has no proof: `rt ci` would refuse its files
LEFT_OUT = re.compile(r"/must-fail/|^tests/calls/")


def copy_without_edits(room):
    """Copies what git tracks, and what it would, into a folder."""
    for name in git("ls-files", "-coz", "--exclude-standard").split("\0"):
        if name and not LEFT_OUT.search(name) and (ROOT / name).is_file():
            (room / name).parent.mkdir(parents=True, exist_ok=True)
            shutil.copy2(ROOT / name, room / name)


class Count:
    """How much of the gate passed and failed so far."""

    def __init__(self):
        self.passed = self.failed = 0

    def add(self, passed, failed):
        self.passed += passed
        self.failed += failed

    def add_command(self, status, said):
        """Adds the last line of a command, which fails too where it says so by its status alone."""
        closing = CLOSING.fullmatch(said.rstrip().rpartition("\n")[2])
        passed, failed = map(int, closing.groups()) if closing else (0, 0)
        self.add(passed, failed or int(status != 0 or not closing))


class Edits:
    """The edits that are tried, each crate's in turn, as many crates side by side as there are processors
    and memory for."""

    def __init__(self, room, tries_all):
        self.crates, self.tries_all = kit.crates_of(room), tries_all
        self.layers = record.Layers(ROOT)
        every = [edit for name in self.layers.uses for edit in self.layers.edits(name)]
        self.drawn = record.drawn(git("rev-parse", "HEAD").strip(), every)
        self.known = record.read(SUMS)
        self.sums = {name: self.layers.state(name, kit.logic()) for name in self.layers.uses}
        self.running, self.at_work, self.guard = [], 0, threading.Lock()
        self.pool = concurrent.futures.ThreadPoolExecutor(kit.processors())

    def chosen(self, name):
        """The edits of a crate to try: all where the record doesn't answer for them, else those that
        the commit draws."""
        edits = self.layers.edits(name)
        is_known = not self.tries_all and self.sums[name] == self.known.get(name)
        return [edit for edit in edits if not is_known or edit in self.drawn]

    def begin(self, name):
        chosen = self.chosen(name)
        print(f"{name}: {len(chosen)} of {len(self.layers.edits(name))} must-fail edits", flush=True)
        self.running.append(self.pool.submit(self.try_edits, self.crates[name], chosen))

    def try_edits(self, crate, edits):
        began = time.monotonic()
        self.wait_for_memory()
        try:
            told = [*joint.tried(crate, edits)]
        finally:
            with self.guard:
                self.at_work -= 1
        if edits:
            print(f"{crate.name}: its edits took {time.monotonic() - began:.0f} s", flush=True)
        return told

    def wait_for_memory(self):
        """Waits until a check has the memory that it may take, or no other check of edits runs."""
        while True:
            with self.guard:
                if not self.at_work or kit.free_memory() > MEMORY * self.at_work:
                    self.at_work += 1
                    return
            time.sleep(5)

    def ended(self, count):
        """Waits for all, says how each ended, and adds what passed and failed."""
        told = [it for ran in self.running for it in ran.result()]
        print("== must-fail edits")
        print("".join(f"{text}\n" for _, text in told), end="")
        passed = sum(is_refused for is_refused, _ in told)
        print(f"{passed} passed, {len(told) - passed} failed", flush=True)
        count.add(passed, len(told) - passed)


def environment(room):
    """In it Python compiles the modules of the commands once, into a room; in the machine's own each of the
    many calls of a command might compile them anew."""
    own = {name: value for name, value in os.environ.items() if name != "PYTHONDONTWRITEBYTECODE"}
    return {**own, "PYTHONPYCACHEPREFIX": str(room / "compiled")}


def run_suite(script, room, program=""):
    """Runs tests, on the built program if they need it. The script's name, its status and output."""
    words = [sys.executable, "-u", str(ROOT / script), str(program)]
    ran = subprocess.run(words, cwd=ROOT, env=environment(room), stdin=subprocess.DEVNULL,
                         stdout=subprocess.PIPE, stderr=subprocess.STDOUT)
    return script, ran.returncode, ran.stdout.decode(errors="replace")


def prove(room, command, edits, pool, count):
    """Runs `rt ci` in the room, and begins what waits for its steps. Gives the results of the suites, which
    are there later."""
    suites, last, began = [], "", time.monotonic()
    how = {"stdout": subprocess.PIPE, "text": True, "errors": "replace",
           "env": {**os.environ, "PYTHONUNBUFFERED": "1"}}
    with subprocess.Popen(command, cwd=room, stdin=subprocess.DEVNULL, **how) as proofs:
        for line in proofs.stdout:
            print(line, end="", flush=True)
            last = line if line.strip() else last
            built = kit.built_in(line)
            if built:
                print(f"{built}: built after {time.monotonic() - began:.0f} s", flush=True)
                edits.begin(built)
            if built == "shb":
                program = room / "crates/shb/out/shb"
                suites = [pool.submit(run_suite, script, room, program) for script in SUITES]
    count.add_command(proofs.returncode, last)
    return suites


def run_gate(room, options):
    count, began = Count(), time.monotonic()
    copy_without_edits(room)
    words = kit.proofs_from(options.anew)
    command = ["rt", *words]
    if options.steps:
        command = [sys.executable, str(ROOT / "tests/gate/steps.py"), options.steps, *words]
        subprocess.Popen = steps.measured(options.steps, "edits")
    edits = Edits(room, options.all)
    with concurrent.futures.ThreadPoolExecutor(AT_ONCE) as pool:
        calls = pool.submit(run_suite, CALLS, room)
        suites = prove(room, command, edits, pool, count)
        edits.ended(count)
        if not suites:
            count.add(0, 1)
            print("the program wasn't built, so its tests didn't run")
        for script, status, said in (it.result() for it in (calls, *suites)):
            print(f"== {script}\n{said}", end="" if said.endswith("\n") else "\n", flush=True)
            count.add_command(status, said)
    if options.record and not count.failed:
        record.write(SUMS, edits.sums)
    used = resource.getrusage(resource.RUSAGE_CHILDREN)
    wall, cpu = (time.monotonic() - began) / 60, (used.ru_utime + used.ru_stime) / 60
    print(f"wall {wall:.0f} minutes, CPU {cpu:.0f} minutes, {kit.processors()} processors")
    print(f"{count.passed} passed, {count.failed} failed")
    return 1 if count.failed or not count.passed else 0


def main():
    parser = argparse.ArgumentParser(description=__doc__.splitlines()[0])
    parser.add_argument("--all", action="store_true")
    parser.add_argument("--anew", action="store_true")
    parser.add_argument("--record", action="store_true")
    parser.add_argument("--room", type=pathlib.Path)
    parser.add_argument("--steps", type=os.path.abspath)
    options = parser.parse_args()
    if options.room:
        return run_gate(options.room.resolve(), options)
    with tempfile.TemporaryDirectory(prefix="gate-") as room:
        return run_gate(pathlib.Path(room), options)


if __name__ == "__main__":
    sys.exit(main())
