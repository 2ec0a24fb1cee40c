#!/usr/bin/env python3
"""Prints a line `FORWARD NAME` for each function that the run-time library has to hand on to the C library.

    forwarded.py LIBTSAN LIBC LIBM

gcc links a program with LIBTSAN first, and what LIBTSAN exports is asked for without a version. Where the C
library has such a name in several versions, the loader would give the oldest, and not the one that a program
gets that was linked without LIBTSAN. Nothing is printed where gcc has no LIBTSAN.
"""

import collections
import pathlib
import subprocess
import sys


def versions(library):
    """The names that a library exports, each with its versions."""
    found = collections.defaultdict(set)
    listed = subprocess.run(["nm", "-D", "--defined-only", library], check=True,
                            stdout=subprocess.PIPE).stdout.decode()
    for line in listed.splitlines():
        name, _, version = line.split()[-1].partition("@")
        found[name].add(version.lstrip("@"))
    return found


def main(tsan, *c_library):
    if pathlib.Path(tsan).is_absolute():
        of_c_library = [versions(library) for library in c_library]
        for name in sorted(versions(tsan)):
            if any(len(of_this.get(name, ())) > 1 for of_this in of_c_library):
                print("FORWARD", name)


if __name__ == "__main__":
    main(*sys.argv[1:])
