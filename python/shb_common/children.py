"""Processes that end with the one that started them, and those whose parent is gone."""

import ctypes
import os
import signal

SET_PARENT_DEATH_SIGNAL, BECOME_PARENT_OF_ORPHANS = 1, 36   # of prctl
LIBRARY = ctypes.CDLL(None)     # loaded before a fork, since after it that may wait for ever


def end_with(parent):
    """Has the system kill this process when its parent ends, in whatever way. `parent` is the number of the
    process that started it, which may have ended already: then it ends here."""
    LIBRARY.prctl(SET_PARENT_DEATH_SIGNAL, signal.SIGKILL, 0, 0, 0)
    if os.getppid() != parent:
        os._exit(1)


def adopt_orphans():
    """Makes processes children of this one if their parent, further down, is gone."""
    LIBRARY.prctl(BECOME_PARENT_OF_ORPHANS, 1, 0, 0, 0)


def apart():
    """How a helper is started: it ends with this process, and what the terminal or `timeout` sends to a whole
    group is for this one to take. With a function to call, a child begins as a copy of the command, so what
    comes before its session is new meets the command's handlers. With `start_new_session` it would end the
    child."""
    parent = os.getpid()

    def begin():
        os.setsid()
        end_with(parent)
    return {"preexec_fn": begin}
