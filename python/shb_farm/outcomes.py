"""The outcome of one trace: a file that is put in place whole and last. It has a line with its version, an
`Outcome` as JSON, and the sum of both lines: an outcome without it isn't whole, and doesn't count."""

import collections
import json
import os
import pathlib

from shb_common.analyser import Place
from shb_common.sums import blake2b

FIRST = b"shb-farm 3\n"

# What the runs took (seconds of processor time, the most memory), and how many bytes the trace's text has.
Cost = collections.namedtuple("Cost", "seconds kib text")

# The trace's name below the folder of the traces; the sums of the program that was run and of the trace that
# it read; the trace's size and time of change (`stamp`). `kind` and `words` are `report` and what the trace
# has; `refused` and the program's words; `memory`, `time` or `size` and the limit that didn't suffice (MiB,
# seconds of processor time, MiB); or `failed` and why: then it is tried again. `places` have by variable a
# race's events.
Outcome = collections.namedtuple("Outcome", "name program trace stamp cost kind words places")


def stamp_of(state):
    """What tells that a file is as it was, from its `stat`."""
    return f"{state.st_size}:{state.st_mtime_ns}"


def checksum_of(text):
    return blake2b(text, digest_size=32).hexdigest()


def checksum_of_file(file):
    """The checksum of what is left of an open file."""
    found = blake2b(digest_size=32)
    for part in iter(lambda: file.read(1 << 20), b""):
        found.update(part)
    return found.hexdigest()


def text_of(outcome):
    places = [[os.fsdecode(first), os.fsdecode(second),
               [[os.fsdecode(name), *events] for name, events in its.items()], has_more]
              for first, second, its, has_more in outcome.places]
    found = outcome._replace(words=" ".join(outcome.words.split()), places=places)
    lines = FIRST + json.dumps(found).encode() + b"\n"
    return lines + f"sum {checksum_of(lines)}\n".encode()


def read(path, name):
    """The outcome of a trace in a file, or None where there is none or it isn't whole."""
    try:
        lines, _, last = pathlib.Path(path).read_bytes().rpartition(b"sum ")
    except OSError:
        return None
    if not lines.startswith(FIRST) or last != checksum_of(lines).encode() + b"\n":
        return None
    try:
        found = Outcome(*json.loads(lines[len(FIRST):]))
        seconds, kib, size = found.cost
        cost, places = Cost(float(seconds), int(kib), int(size)), list(map(place_of, found.places))
    except (ArithmeticError, AttributeError, RecursionError, TypeError, ValueError):
        return None     # whoever wrote its sum, it wasn't this program
    words = found.program, found.trace, found.stamp, found.kind, found.words
    is_ours = found.name == name and all(isinstance(word, str) for word in words)
    return found._replace(cost=cost, places=places) if is_ours else None


def place_of(fields):
    first, second, variables, has_more = fields
    variables = {os.fsencode(name): (int(one), int(other)) for name, one, other in variables}
    return Place(os.fsencode(first), os.fsencode(second), variables, bool(has_more))
