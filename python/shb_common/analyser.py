"""Runs `shb` on traces, and reads what it says of their places."""

import collections
import contextlib
import os
import subprocess

from shb_common import variables
from shb_common.refused import without_note
from shb_common.report import BadReport

MOST_SAID = 65_536  # bytes of what a program says that are kept
MOST_WORDS = 500    # of these, those that are told as words of one line
FULL, LIST = ["places"], ["places", "--list"]
VARIABLES, LIST_VARIABLES = [*FULL, "--variables"], [*LIST, "--variables"]
REFUSED = 2         # the status of `shb` for a refused trace

# A place of a trace: its two locations, that of the first access first; by variable a race of it; and whether
# it has more variables than these.
Place = collections.namedtuple("Place", "first second variables has_more")


class Answer(collections.namedtuple("Answer", "status said seconds kib", defaults=(0.0, 0))):
    """How a run of the program ended: status, words, seconds of processor time and KiB of memory."""

    @property
    def words(self):
        return " ".join(without_note(self.said)[:MOST_WORDS].decode(errors="backslashreplace").split())


class Run:
    """A running command. `given` is an open file that it reads, and `out` one that it writes; both may be a
    PIPE."""

    def __init__(self, words, given, out, **how):
        self.said = unnamed_file()
        try:
            self.process = subprocess.Popen(words, stdin=given, stdout=out, stderr=self.said, **how)
        except BaseException:
            self.said.close()
            raise
        self.out = self.process.stdout

    def __enter__(self):
        return self

    def say(self, texts):
        """Writes a part of what it reads from a pipe. If it reads no more, its status says how it ended."""
        with contextlib.suppress(BrokenPipeError):
            self.process.stdin.writelines(texts)
            self.process.stdin.flush()

    def give(self, texts):
        """Writes all that it reads from a pipe, or the rest."""
        with contextlib.suppress(BrokenPipeError):
            with self.process.stdin as given:
                given.writelines(texts)

    def answer(self):
        """Waits for the end. What it writes to a pipe isn't read any more."""
        if self.out:
            self.out.close()
        _, status, usage = os.wait4(self.process.pid, 0)
        self.process.returncode = -os.WTERMSIG(status) if os.WIFSIGNALED(status) else os.WEXITSTATUS(status)
        self.said.seek(0)
        return Answer(self.process.returncode, self.said.read(MOST_SAID), usage.ru_utime + usage.ru_stime,
                      usage.ru_maxrss)

    def __exit__(self, *_):
        self.close()

    def close(self):
        if self.out:
            self.out.close()
        if self.process.returncode is None:
            self.process.kill()
            self.process.wait()
        self.said.close()


def unnamed_file():
    """A new open file for some words: in memory, if this Python was built for that."""
    if hasattr(os, "memfd_create"):
        return open(os.memfd_create("words"), "w+b")
    import tempfile  # is slow to import
    return tempfile.TemporaryFile()


def rewound(file):
    """An open file at its beginning, also for a child: Python's own `seek` may move in its buffer alone."""
    os.lseek(file.fileno(), 0, os.SEEK_SET)
    return file


def places_in(races):
    """The places of races of each variable at each place, each with its first so many variables."""
    found, more = {}, set()
    for race in races:
        name, by_variable = race.accesses[0].name, found.setdefault(race.place, {})
        if name in by_variable:
            raise BadReport(
                f"race {race.number} of the report: its variable has a race at this place already")
        if len(by_variable) == variables.MOST_VARIABLES:
            more.add(race.place)
        else:
            by_variable[name] = race
    return [Place(*place, by_variable, place in more) for place, by_variable in found.items()]
