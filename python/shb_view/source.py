"""Lines of the program's source, found by the locations of a trace. A location is never opened as a path: it
is looked up in an index of the folders that were named, and where it was asked for in what the recorder wrote
of the program's sources."""

import collections
import functools
import os

from shb_common import sources
from shb_common.locations import line_of
from shb_common.words import Refused, counted
from shb_view.names import readable

BEFORE, AFTER = 3, 2  # lines around one that is shown
REACH = 12  # lines before one that is shown, back to the acquire of a lock


class Place(collections.namedtuple("Place", "path number lines fault is_newer")):
    """What is known of a location's source: the path in its folder, the number of its line and the file's
    lines. `fault` says why the line isn't there, or why it may be another one."""

    def line(self):
        """The line, or None where it isn't there."""
        return self.lines[self.number - 1] if 0 < self.number <= len(self.lines) else None


class Source:
    """The regular files below some folders. Of one path in several folders the first counts."""

    def __init__(self, folders, written, recorded):
        """`written` is when the trace was, `recorded` has files by their names in locations."""
        self.folders, self.written, self.recorded = folders, written, recorded
        self.read = functools.lru_cache(maxsize=64)(sources.read_lines)
        for folder in folders:
            if not os.path.isdir(folder):
                raise Refused(f"--source: {readable(folder)} isn't a folder")
        self.index = sources.Index(folders)

    def place(self, location):
        """What is known of a location; None where it is no line of a file in the folders."""
        found = line_of(location)
        if not found:
            return None
        path, number = found
        candidates = best(path, self.index.named(path.split(b"/")[-1]))
        if len(candidates) != 1 and path in self.recorded:
            candidates = [(path, self.recorded[path])]
        if not candidates:
            return None
        if len(candidates) > 1:
            fault = (f"{len(candidates)} files are named {readable(path.split(b'/')[-1])}; --source can name "
                     "the folder of one of them")
            return Place(path, number, [], fault, False)
        [(name, file)] = candidates
        lines, modified, fault = self.read(file)
        is_newer = modified > self.written
        if not fault and not 0 < number <= len(lines):
            fault = f"the file has {counted(len(lines), 'line')}"
        elif is_newer:
            fault = "the file is newer than the trace; its lines may have moved"
        return Place(name, number, lines, fault, is_newer)

    def code(self, location):
        """The text of a location's line, without blanks around it; None where it isn't known."""
        found = self.place(location) if location else None
        return found.line().strip() if found and found.line() is not None else None

    def missing(self, locations):
        """How many files of these locations are found, and newer than the trace, unless all is well."""
        if not self.folders and not self.recorded:
            return
        places = {found[0]: self.place(location) for location in locations
                  for found in [line_of(location)] if found}
        found = [place for place in places.values() if place and place.lines]
        newer = sum(place.is_newer for place in found)
        folders = [*map(readable, self.folders), *["the recorded program"] * bool(self.recorded)]
        some = f" Only {sources.MOST_FILES:,} files were looked at." if self.index.is_full() else ""
        if newer or some or len(found) < len(places):
            files = counted(len(places), "file")
            yield (f"Source lines of {', '.join(folders)}: {len(found)} of {files} found, "
                   f"{newer or 'none'} newer than the trace.{some}")


def best(path, candidates):
    """Of the files with a location's base name those whose paths have the longest end in common with it."""
    wanted = [part for part in path.split(b"/") if part not in (b"", b".", b"..")][::-1]
    common = {name: len(os.path.commonprefix([wanted, name.split(b"/")[::-1]])) for name in candidates}
    longest = max(common.values(), default=0)
    return [(name, file) for name, file in candidates.items() if common[name] == longest]


def function_head(place):
    """The number of the line that a place's function begins with, or 0: the last one with a letter first."""
    for number in range(place.number, 0, -1):
        line = place.lines[number - 1]
        if (line[:1].isalpha() or line.startswith((b"_", b"$"))) and not line.rstrip().endswith(b":"):
            return number
    return 0


def excerpt(place, acquire):
    """Of a place: the first line of its function, nothing if that is the place; the numbers of the lines
    around it, from the acquire of a lock on if that is near; and of those from that acquire to the place, if
    both are in one function. `acquire` is the place of the acquire, or None."""
    top, head = place.number - BEFORE, function_head(place)
    held = range(0)
    is_here = (acquire and acquire.path == place.path and acquire.lines
               and head <= acquire.number <= place.number)
    if is_here and head:
        held = range(acquire.number, place.number + 1)
        if acquire.number >= place.number - REACH:
            top = min(top, acquire.number)
    numbers = range(max(top, 1), min(place.number + AFTER, len(place.lines)) + 1)
    return place.lines[head - 1] if 0 < head < place.number else b"", numbers, held
