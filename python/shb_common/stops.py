"""SIGINT and SIGTERM while a command makes its results."""

import contextlib
import os
import signal
import time

STOPS = {signal.SIGINT, signal.SIGTERM}
# `timeout` sends its signal to the command and to the whole group: so soon the same one again is that one
SAME_SECONDS = 1


class Stops:
    """The first of these signals lets what is there be shown, which `say` announces; the next one ends the
    command at once, by KeyboardInterrupt, and further ones do nothing; so does the end of so many `seconds`
    after the first, if there are. `first` is the number of the first, or None."""

    def __init__(self, say, seconds=None):
        self.say, self.seconds, self.first, self.since, self.is_late = say, seconds, None, 0.0, False
        for number in STOPS if seconds is None else (*STOPS, signal.SIGALRM):
            signal.signal(number, self.take)

    def note(self, number, since):
        """Takes a signal that another part has met, or None."""
        if self.first is None and number:
            self.first, self.since = number, since
            if self.seconds is not None:
                signal.setitimer(signal.ITIMER_REAL, self.seconds or 1e-6)  # 0 would be never

    def close(self):
        """All is shown that is to be."""
        signal.setitimer(signal.ITIMER_REAL, 0)

    def take(self, number, _frame):
        self.is_late = number == signal.SIGALRM
        if self.first is None:
            self.note(number, time.monotonic())
            with contextlib.suppress(OSError):
                # print may be in the middle of another line
                os.write(2, self.say(signal.Signals(number).name).encode())
            return
        if number == self.first == signal.SIGTERM and time.monotonic() < self.since + SAME_SECONDS:
            return
        for other in (*STOPS, signal.SIGALRM):
            signal.signal(other, signal.SIG_IGN)
        raise KeyboardInterrupt
