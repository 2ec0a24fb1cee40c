#!/usr/bin/env python3
"""What each check of the gate costs, for docs/GATE.md.

    steps.py LOG ci [--anew]  runs `rt ci` in this folder; the gate's option --steps LOG does so
    steps.py --sum LOG        prints the sums by crate and kind, and the ten dearest steps

A line of LOG is a check: CPU seconds, wall seconds, MB, what it was (proof, tests or edits), the crate.
Written by the processes that the kit's command starts, which is read as a module (kit.py).
"""

import collections
import os
import subprocess
import sys
import threading
import time

GUARD = threading.Lock()


def measured(log, kind=None):
    """Popen that writes a line to the log when a check ends, of this kind or as its words tell."""

    class Measured(subprocess.Popen):
        def __init__(self, args, *given, **named):
            self.began = time.time()
            self.words = [str(it) for it in args] if isinstance(args, list) else [str(args)]
            super().__init__(args, *given, **named)

        def _try_wait(self, flags):
            try:
                pid, status, used = os.wait4(self.pid, flags)
            except ChildProcessError:
                return self.pid, 0
            if pid == self.pid and "--crate-name" in self.words:
                crate = self.words[self.words.index("--crate-name") + 1]
                what = kind or ("tests" if "--test" in self.words else "proof")
                cpu, wall = used.ru_utime + used.ru_stime, time.time() - self.began
                with GUARD, open(log, "a", encoding="utf-8") as it:
                    it.write(f"{cpu:8.1f} {wall:8.1f} {used.ru_maxrss // 1024:6d} {what} {crate}\n")
            return pid, status

    return Measured


def print_sums(log):
    with open(log, encoding="utf-8") as it:
        steps = [line.split() for line in it]
    sums = collections.defaultdict(lambda: collections.defaultdict(list))
    for cpu, _, _, kind, crate in steps:
        sums[crate][kind].append(float(cpu))
        sums["all"][kind].append(float(cpu))
    for crate, kinds in sorted(sums.items()):
        print(crate, *[f"{kind} {sum(all_of):.0f} s ({len(all_of)})" for kind, all_of in kinds.items()],
              sep="  ")
    print(f"all: {sum(float(step[0]) for step in steps) / 60:.0f} CPU minutes")
    for step in sorted(steps, key=lambda step: -float(step[0]))[:10]:
        print(f"{float(step[0]):6.0f} s", *step[3:])


def main(words):
    if len(words) == 2 and words[0] == "--sum":
        print_sums(words[1])
        return 0
    if words[1:2] != ["ci"]:
        print(__doc__, file=sys.stderr)
        return 2
    import kit

    subprocess.Popen = measured(os.path.abspath(words[0]))
    return kit.command().main(words[1:])


if __name__ == "__main__":
    sys.exit(main(sys.argv[1:]))
