"""The records of a program that runs on: each is one of segments, which is closed while the program runs. A
segment is a record of its own, so what races over its bounds isn't seen."""

import contextlib
import os
import re

from shb_common.files import remove
from shb_common.words import counted
from shb_record.converting import process_of
from shb_record.parts import files_in

ENDED_AT, ENDED_BYTES = 65280, 256  # of a record's header: how it ended, as record.h has it
WHOLE = re.compile(rb"whole [0-9a-f]+ [0-9a-f]+\0")


class Segments:
    """Those of one run. The recorder drops what isn't taken soon enough."""

    meaning = ["The record was looked at in segments: races of accesses in two segments are missed."]

    def __init__(self, folder):
        self.folder, self.count, self.dropped = folder, 0, 0
        self.last = {}  # of each process: the number of its last segment, by its file, and how many it has

    def files(self):
        """The segments that are there, those that were written to last at the end."""
        found = []
        for path in files_in(self.folder, "run1.", ".rec"):
            with contextlib.suppress(FileNotFoundError):    # the recorder has dropped it
                found.append((os.stat(path).st_mtime_ns, segment_of(path), path))
        return [path for _, _, path in sorted(found)]

    def closed(self):
        """The segment that was closed first; None where none is."""
        return next(filter(None, map(self.taken, filter(is_closed, self.files()))), None)

    def left(self, _number):
        """The segments that are there when the program has ended, each alone."""
        return ([process] for process in map(self.taken, self.files()) if process)

    def taken(self, path):
        """A segment, if it is still there, so that the recorder doesn't drop it any more."""
        taken = os.path.splitext(path)[0] + ".taken"
        try:
            os.rename(path, taken)
        except FileNotFoundError:
            return None
        base, segment = self.counted(path)
        process = process_of(taken, f"run 1, process {base.split('.')[1]}, segment {segment}",
                             f"{base}.{segment}")
        blocks = f"{self.folder}/{base}.blocks"
        return process._replace(blocks=blocks) if os.path.exists(blocks) else process

    def counted(self, path):
        """What the names of a process's results begin with, and the number of this segment of its. Some may
        be dropped; a process that becomes another program may begin with 1 again."""
        base, segment = base_of(path), segment_of(path)
        file, count = self.last.get(base, (0, 0))
        missing = segment - 1 - (file if segment > file else 0)
        if missing or segment <= file:
            remove(f"{self.folder}/{base}.blocks")
        self.dropped += missing
        self.count += 1
        self.last[base] = segment, count + missing + 1
        return base, count + missing + 1

    def release(self, process):
        """Deletes what is left of a segment but the blocks at its end, with which the next one begins."""
        blocks = f"{self.folder}/{base_of(process.record)}.blocks"
        remove(blocks)
        with contextlib.suppress(FileNotFoundError):
            os.rename(process.beside(".left"), blocks)
        for left in files_in(self.folder, os.path.basename(process.beside("."))):
            os.unlink(left)

    def counts(self, events, passed):
        """How much was looked at, which isn't said of each segment. So many segments had no page."""
        yield f"{counted(self.count, 'segment')} with {counted(events, 'event')} looked at"
        if passed:
            yield f"{counted(passed, 'segment')} had places of earlier ones alone, and no page"
        if self.dropped:
            yield (f"{counted(self.dropped, 'segment')} dropped, since they came faster than they could be "
                   "looked at: their races are missed")


def base_of(path):
    return os.path.basename(path).rsplit(".", 2)[0]


def segment_of(path):
    return int(path.split(".")[-2])


def is_closed(path):
    """Whether a record says that it is whole, or that of the next segment is there."""
    try:
        with open(path, "rb") as file:
            if WHOLE.match(os.pread(file.fileno(), ENDED_BYTES, ENDED_AT)):
                return True
    except FileNotFoundError:
        return False
    return os.path.exists(f"{os.path.dirname(path)}/{base_of(path)}.{segment_of(path) + 1}.rec")
