"""One run of the program within limits, and how it ended."""

import collections
import os
import resource
import signal

from shb_common import analyser
from shb_common.children import end_with

MIB = 1 << 20
# How a run ended: the kind, the words and the places of an outcome.
End = collections.namedtuple("End", "kind words places", defaults=((),))


def free_memory():
    """The MiB that this machine has left, by the kernel's estimate."""
    with open("/proc/meminfo", encoding="ascii") as lines:
        for line in lines:
            if line.startswith("MemAvailable:"):
                return int(line.split()[1]) // 1024
    return 0


class NotHere(Exception):
    """This machine can't give what the pass promises; another one may."""


class Meter:
    """What the runs for a trace took: the sum of their processor time, and the most memory of one."""

    def __init__(self):
        self.clear()

    def clear(self):
        self.seconds, self.kib, self.text = 0.0, 0, 0

    def add(self, seconds, kib):
        self.seconds, self.kib = self.seconds + seconds, max(self.kib, kib)


METER = Meter()


def limits_of(work):
    """Each limit of a pass: its name, its value, and what to call it."""
    return ((resource.RLIMIT_AS, work.memory * MIB, "memory"),
            (resource.RLIMIT_FSIZE, work.size * MIB, "file sizes"),
            (resource.RLIMIT_CPU, work.seconds, "processor time"))


def check_machine(work):
    """An outcome names the limits that a trace was given, so a machine that gives less makes none."""
    for name, limit, what in limits_of(work):
        most = resource.getrlimit(name)[1]
        if most != resource.RLIM_INFINITY and most < limit:
            raise NotHere(f"the machine's limit of {what} is lower than that of the pass")


def set_limits(work, parent):
    end_with(parent)
    resource.setrlimit(resource.RLIMIT_CORE, (0, 0))
    for name, limit, _ in limits_of(work):
        resource.setrlimit(name, (limit, resource.getrlimit(name)[1]))


def run(work, words, given, out, **how):
    """Runs a command to its end on an open file, from its beginning; returns its `Answer`."""
    check_machine(work)
    parent = os.getpid()
    begin = lambda: set_limits(work, parent)
    with analyser.Run(words, analyser.rewound(given), out, preexec_fn=begin, **how) as ran:
        answer = ran.answer()
    METER.add(answer.seconds, answer.kib)
    return answer


def end_of(work, status, said, written):
    """How a run of the program ended, by its status, its words and the bytes that it wrote."""
    if status == 0:
        return End("report", "")
    if status == analyser.REFUSED and said:
        return End("refused", said)
    # refused without words: no memory was left for them
    if status == analyser.REFUSED or (status == 4 and said == "out of memory"):
        return End("memory", str(work.memory))
    if status == -signal.SIGXCPU:
        return End("time", str(work.seconds))
    if status == -signal.SIGXFSZ or (said.startswith("cannot write") and written >= work.size * MIB):
        return End("size", str(work.size))
    how = f"status {status}" if status >= 0 else f"signal {-status}"
    return End("failed", f"{how} {said}")


def analyse(work, given, out):
    """Runs the program on an open trace as its standard input: it takes no file name that isn't UTF-8."""
    answer = run(work, [work.shb, *analyser.LIST_VARIABLES], given, out)
    return end_of(work, answer.status, answer.words, os.fstat(out.fileno()).st_size)
