"""The built program, run with a time limit."""

import os
import pathlib
import subprocess
import threading
import typing

import side_by_side

HERE = pathlib.Path(__file__).resolve().parent
PATH = HERE.parent / "crates" / "shb" / "out" / "shb"
SECONDS = 120  # after so long a command hangs, also where proofs run beside it
LONG_SECONDS = 1200


class Answer(typing.NamedTuple):
    status: int
    out: bytes
    err: bytes


def run(words, given=b"", **how):
    """Runs the program, and gives what it answered. One that hangs fails the test."""
    how = {"stdout": subprocess.PIPE, "stderr": subprocess.PIPE, **how}
    ran = subprocess.run([PATH, *words], input=given, timeout=SECONDS, **how)
    return Answer(ran.returncode, ran.stdout, ran.stderr)


def start(words, seconds=LONG_SECONDS, **how):
    """Starts the program, whose output is read in parts. One that still runs after so long is killed, which
    ends its output and gives it a status that no test wants."""
    started = subprocess.Popen([PATH, *words], stdout=subprocess.PIPE, stderr=subprocess.PIPE, **how)
    limit = threading.Timer(seconds, started.kill)
    limit.daemon = True
    limit.start()
    return started


def run_over(words, file):
    """Runs the program with an open file as its standard input."""
    ran = subprocess.run([PATH, *words], stdin=file, capture_output=True, timeout=SECONDS)
    return Answer(ran.returncode, ran.stdout, ran.stderr)


def with_settings(**settings):
    """The environment of a run with these settings."""
    return {**os.environ, **{name: str(value) for name, value in settings.items()}}


class Case(side_by_side.Case):
    """A test of the program, with files of its own."""

    def file(self, text, name="t.std"):
        path = self.folder / name
        path.write_bytes(text)
        return path

    def expect(self, answer, status, out=b"", err=b""):
        self.assertEqual(answer, Answer(status, out, err))

    def expect_refused(self, answer, first):
        """The trace is refused: nothing was written, and this is the first line that is said. What follows it
        tells of the line."""
        self.assertEqual((answer.status, answer.out, answer.err.split(b"\n")[0]), (2, b"", first))
