"""The locks that a thread holds while its events are read."""

import functools
import itertools
import re

MOST_COUNTED = 64  # locks held at an access, if their names are to be counted
MOST_SHOWN = 8  # locks held at an event that are shown
READ_LOCK = rb"(?s)(.+)@reader\..+"  # as the recorder names what a reader holds of a lock
# as it names a lock that tells the order of an atomic, none of the program's: what it stands for, and the one
# thread that it is given to (>) or by, if any
GIVEN = rb"(?s)(.+)@[0-9]+(?:([<>])(.+))?"


@functools.lru_cache(maxsize=65_536)
def read_lock(name):
    """The reader-writer lock that is held for reading under this name, or None."""
    found = re.fullmatch(READ_LOCK, name) if b"@" in name else None
    return found[1] if found else None


def called(lock, locals):
    """A lock as the program has it: one on a stack by the local that it is."""
    base, sign, rest = lock.partition(b"@")
    return locals[base] + sign + rest if base in locals else lock


def operations(locals):
    """Tells of an operation of the trace whether it is an acquire, and its lock as the program has it; None
    for what is no acquire or release of a lock that the program has. `locals` has the names of locks on
    stacks."""
    @functools.lru_cache(maxsize=None)
    def lock_of(operation):
        word, _, name = operation[:-1].partition(b"(")
        lock = called(name, locals)
        is_lock = word in (b"acq", b"rel") and not (b"@" in lock and re.fullmatch(GIVEN, lock))
        return (word == b"acq", lock) if is_lock else None

    return lock_of


class Held:
    """The program's locks that a thread holds, oldest first. Of nested acquires the outermost counts."""

    def __init__(self):
        self.locks = {}  # by name: the acquire since which it is held, and how often it was acquired since
        self.kept_names = self.kept_newest = None  # answers, until the locks change

    def take(self, is_acquire, lock, event):
        if lock in self.locks and (is_acquire or not self.is_last_release(lock)):
            self.locks[lock][1] += 1 if is_acquire else -1
            return
        self.kept_names = self.kept_newest = None
        if is_acquire:
            self.locks[lock] = [event, 1]
        else:
            self.locks.pop(lock, None)

    def is_last_release(self, lock):
        """Whether one release more makes the lock free."""
        return lock in self.locks and self.locks[lock][1] == 1

    def names(self):
        """The names, or None where they are too many to be counted."""
        if self.kept_names is None and len(self.locks) <= MOST_COUNTED:
            self.kept_names = tuple(self.locks)
        return self.kept_names

    def newest(self):
        """The locks that are shown, oldest first, each with its acquire; and how many are held in all."""
        if self.kept_newest is None:
            newest = list(itertools.islice(reversed(self.locks), MOST_SHOWN))
            locks = tuple((lock, self.locks[lock][0]) for lock in reversed(newest))
            self.kept_newest = locks, len(self.locks)
        return self.kept_newest
