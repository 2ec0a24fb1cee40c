"""What the tests of the farm share: folders, traces, stand-ins of programs, runs of the command."""

import os
import pathlib
import shutil
import subprocess
import sys
import typing

import side_by_side

HERE = pathlib.Path(__file__).resolve().parent
TOP = HERE.parents[1]
COMMAND = HERE.parent / "shb-farm"
SHB = TOP / "crates" / "shb" / "out" / "shb"
SECONDS = 600       # after so long a command hangs

RACE = b"T1|w(x)|a.c:1\nT2|w(x)|b.c:2\n"            # one place
OTHER_ORDER = b"T2|w(x)|b.c:2\nT1|w(x)|a.c:1\n"     # the same place, the other access first
CLEAN = b"T1|w(x)|a.c:1\nT1|w(x)|b.c:2\n"           # one thread
BAD = b"oops\n"
BAD_WORDS = ("line 1: the line has no operation field; it is `oops`: a line is THREAD|OPERATION|LOCATION, "
             "with bars between; there are no comments")


class Answer(typing.NamedTuple):
    status: int
    out: str
    err: str


def put_program(source, target, text=None):
    """Copies a program by a process of its own: tests run side by side, and one that is just starting a
    program would still hold a file that this process writes, which the system then refuses to run."""
    subprocess.run(["install", "-m", "755", source, target], input=text, check=True)


class Case(side_by_side.Case):
    """A test with a folder of its own, in which are the folders of traces and of outcomes."""

    command = COMMAND

    def setUp(self):
        super().setUp()
        self.traces, self.out = self.folder / "traces", self.folder / "out"
        self.traces.mkdir()

    def trace(self, name, text):
        path = self.traces / name
        path.parent.mkdir(parents=True, exist_ok=True)
        path.write_bytes(text)
        return path

    def run_alone(self):
        """Runs a copy of the command from now on. Of the checkout nothing but the packages is beside it, so a
        recorder that was built isn't."""
        self.command = self.folder / "alone" / "python" / "shb-farm"
        shutil.copytree(HERE.parent, self.command.parent,
                        ignore=shutil.ignore_patterns("tests", "__pycache__", "shb-farm"))
        put_program(HERE.parent / "shb-farm", self.command)

    def script(self, name, text):
        """An executable file."""
        path = self.folder / name
        path.parent.mkdir(parents=True, exist_ok=True)
        put_program("/dev/stdin", path, ("#!/bin/sh\n" + text).encode())
        return path

    def counting(self):
        """A program that does what SHB does, and notes each run."""
        return self.script("counting", f"echo run >> {self.folder}/runs\nexec {SHB} \"$@\"\n")

    def runs(self):
        """How often it was run since the last call."""
        path = self.folder / "runs"
        count = len(path.read_text().splitlines()) if path.exists() else 0
        path.unlink() if path.exists() else None
        return count

    def words(self, *words, out=None):
        return [sys.executable, str(self.command), *map(str, words), str(self.traces), str(out or self.out)]

    def environment(self, shb=None, **settings):
        """The environment of a run, in which Python writes as it does for a user."""
        own = {name: value for name, value in os.environ.items() if name != "PYTHONUNBUFFERED"}
        return {**own, "SHB": str(shb or SHB), **{name: str(value) for name, value in settings.items()}}

    def farm(self, *words, shb=None, out=None, **settings):
        """Runs the farm to its end."""
        ran = subprocess.run(self.words(*words, out=out), env=self.environment(shb, **settings),
                             capture_output=True, timeout=SECONDS)
        return Answer(ran.returncode, ran.stdout.decode(), ran.stderr.decode())

    def table(self, name, out=None):
        """The lines of a table as lists of fields, without the head."""
        lines = ((out or self.out) / name).read_bytes().decode("utf-8", "surrogateescape").splitlines()
        return [line.split("\t") for line in lines[1:]]

    def ends(self, out=None):
        """How each trace ended: its outcome and its words."""
        return {line[0]: (line[1], line[3]) for line in self.table("traces.tsv", out)}

    def known(self, text):
        path = self.folder / "known"
        path.write_bytes(text)
        return path
