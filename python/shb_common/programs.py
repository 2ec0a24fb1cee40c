"""Whose a location is. A trace names a source file by the shortest end of its path that no other file of its
program has, so two programs may both have a `w.c`. Here a location belongs to a file by its whole path and to
the text that its line had, and over all traces each file has one name."""

import collections
import posixpath

from shb_common.known import CALL, Side, written
from shb_common.locations import parts_of

MOST_PARTS = 12     # folders of a path that a name may have

# A location of a program: the path of its file, what follows it (the line, or an offset), the functions that
# it lies in, and a sum of the line's text, nothing where it isn't known.
Location = collections.namedtuple("Location", "path rest functions sum", defaults=(frozenset(), b""))


def sorting(location):
    return location.path, location.rest, sorted(location.functions), location.sum


def pair_of(order):
    return tuple(sorted(order, key=sorting))


class Origin:
    """Where a trace's locations come from. `tables` has the functions, source files and locals beside it;
    `program` is the path of the program, if it is known."""

    def __init__(self, tables, program=b""):
        self.tables, self.program, self.modules = tables, program, {}
        self.called = {}    # by a file's path: its name in the trace

    def add_modules(self, paths):
        """Takes the modules of the program, by whose names code without debug information is named."""
        self.modules.update((posixpath.basename(path), path) for path in paths)

    def files(self):
        """The paths of its source files and of the locations that were asked for, each with its name here."""
        sources = self.tables.sources.items()
        return {**{normal(path): name for name, path in sources if is_end(name, path)}, **self.called}

    def location(self, text):
        """The location that a trace writes so. A file whose path isn't known belongs to the program."""
        name, rest = parts_of(text)
        path = self.tables.sources.get(name) or self.modules.get(name, b"")
        if not is_end(name, path):
            path = self.program + b"/" + name if self.program else name
        self.called[normal(path)] = name
        return Location(normal(path), rest, frozenset(self.tables.functions.get(text, ())),
                        self.tables.sums.get(text, b""))


def naming(tables, locations):
    """Where some locations of one trace come from, and what its source files are called."""
    origin, names = Origin(tables), Names()
    for location in locations:
        origin.location(location)
    names.add_all(origin)
    return origin, names


def normal(path):
    return posixpath.normpath(path) if path.startswith(b"/") else path


def is_end(name, path):
    """Whether a path is this name, or ends with it after a slash."""
    return bool(path) and (path == name or path.endswith(b"/" + name))


def ends_of(path):
    """The ends of a path that may name the file, the shortest first; the whole path is the last."""
    parts = path.split(b"/")
    return [*(b"/".join(parts[-count:]) for count in range(1, min(len(parts), MOST_PARTS))), path]


class Names:
    """The names of source files over several programs."""

    def __init__(self):
        # by an end: the paths that have it; by a path: the longest name that a trace has for it
        self.paths, self.called = {}, {}

    def add(self, path, name=b""):
        if path not in self.called:
            for end in ends_of(path):
                self.paths.setdefault(end, set()).add(path)
        self.called[path] = max(self.called.get(path, b""), name, key=len)

    def add_all(self, origin):
        """Takes the files of a program, and those of the locations that were asked for."""
        for path, name in origin.files().items():
            self.add(path, name)

    def names(self, path):
        """What may stand for a file: the ends of its path that no other file has, and the whole path. The
        first is the one that is written: the shortest, but not shorter than what its trace calls it."""
        ends = [end for end in ends_of(path) if end == path or self.paths.get(end, {path}) == {path}]
        first = next((end for end in ends if len(end) >= len(self.called.get(path, b""))), path)
        return [first, *(end for end in ends if end != first)]

    def several(self, end):
        """An end of several paths with the names of these files; None where it isn't one."""
        paths = self.paths.get(end, ())
        return (end, sorted(self.names(path)[0] for path in paths)) if len(paths) > 1 else None

    def name(self, location):
        """A location, named so that it is no other program's."""
        return self.names(location.path)[0] + location.rest

    def side(self, location):
        """What a location may be called in a file of known places."""
        names = list(map(written, self.names(location.path)))
        return Side(tuple(name + written(location.rest) for name in names),
                    tuple(tuple(b"%b:%b%b" % (name, written(function), CALL) for name in names)
                          for function in sorted(location.functions)))
