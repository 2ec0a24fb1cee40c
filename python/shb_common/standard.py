"""Standard input, output and error, and what is said of a fault of the system."""

import contextlib
import os
import sys
import time

from shb_common.words import printable

WAIT = 1.0  # seconds before the first words on how far a work is
PAUSE = 0.2  # seconds between further ones


def open_standard_files():
    """Opens those standard files that are closed, so that no other takes their place. Was output open?"""
    is_open = sys.stdout is not None
    for number in range(3):
        try:
            os.fstat(number)
        except OSError:
            os.set_inheritable(os.open(os.devnull, os.O_RDWR), True)
    sys.stdin = sys.stdin or open(os.devnull, encoding="utf-8")
    sys.stdout, sys.stderr = sys.stdout or nowhere(), sys.stderr or nowhere()
    return is_open


def nowhere():
    return open(os.devnull, "w", encoding="utf-8")


def tell(text):
    """Prints a text on standard error. A fault of that is passed over: the status says what was found."""
    try:
        print(text, file=sys.stderr, flush=True)
    except OSError:
        leave_standard_error()


def leave_standard_error():
    """What is still said is lost. Programs that are started later have the old one."""
    sys.stderr = nowhere()


def leave_standard_output():
    """After a fault of standard output: else Python tries again at its end, with a status of its own."""
    os.dup2(os.open(os.devnull, os.O_WRONLY), sys.stdout.fileno())


@contextlib.contextmanager
def faults_of(name):
    """Faults of the system are said with this name of a file."""
    try:
        yield
    except OSError as fault:
        raise OSError(fault.errno, fault.strerror, name) from None


def write_texts(texts, out):
    """Writes texts to standard output or error one after the other, whatever signs they have. A fault of
    standard error is passed over."""
    out.reconfigure(errors="backslashreplace")
    try:
        with faults_of("standard output"):
            out.writelines(texts)
            out.flush()
    except OSError:
        if out is not sys.stdout:
            return leave_standard_error()
        leave_standard_output()
        raise


def words_of(fault):
    """What a fault says; one of the system with the file that it names."""
    words, name = getattr(fault, "strerror", None) or str(fault), getattr(fault, "filename", None)
    return (f"{printable(name)}: {words}" if isinstance(name, (str, bytes, os.PathLike))
            else words)


class Progress:
    """How far a long work is, on standard error where that is a terminal."""

    def __init__(self, command, out):
        self.command, self.out, self.is_terminal = command, out, out.isatty()
        self.next = time.monotonic() + WAIT if self.is_terminal else float("inf")
        self.said = False

    def step(self, doing, done, whole):
        now = time.monotonic()
        if now < self.next:
            return
        self.next, self.said = now + PAUSE, True
        part = f" {100 * min(done, whole) // whole}%" if whole else ""
        self.out.write(f"\r\x1b[K{self.command}: {doing}{part}")
        self.out.flush()

    def clear(self):
        if self.said:
            self.out.write("\r\x1b[K")
            self.out.flush()
            self.said = False
