"""Source files below folders that the user named. No location is opened as a path: it is looked up here."""

import contextlib
import functools
import os
import posixpath
import stat

MOST_FILES = 200_000
MOST_BYTES = 4_000_000  # of a file


class Index:
    """The regular files below some folders, by their names. Links aren't followed, hidden folders aren't
    looked into. Of one path in several folders the first counts."""

    def __init__(self, folders):
        self.paths, self.count = {}, 0
        for folder in folders:
            self.add(os.fsencode(folder))

    def add(self, top):
        pending = [top]
        while pending and not self.is_full():
            with contextlib.suppress(OSError), os.scandir(pending.pop()) as entries:
                for entry in entries:
                    if entry.is_dir(follow_symlinks=False) and not entry.name.startswith(b"."):
                        pending.append(entry.path)
                    elif entry.is_file(follow_symlinks=False) and not self.is_full():
                        self.count += 1
                        its = self.paths.setdefault(entry.name, {})
                        its.setdefault(os.path.relpath(entry.path, top), entry.path)

    def is_full(self):
        """Whether there may be files that weren't looked at."""
        return self.count >= MOST_FILES

    def named(self, name):
        """The files of this name: by their paths from their folders."""
        return self.paths.get(name, {})


def read_lines(file):
    """A file's lines, when it was changed, and why it can't be shown."""
    try:
        with open(os.open(file, os.O_RDONLY | os.O_NOFOLLOW | os.O_NONBLOCK), "rb") as opened:
            status = os.fstat(opened.fileno())
            if not stat.S_ISREG(status.st_mode):
                return [], 0, "it isn't a regular file"
            if status.st_size > MOST_BYTES:
                return [], 0, f"the file is longer than {MOST_BYTES:,} bytes"
            return lines_of(opened.read(MOST_BYTES)), status.st_mtime, ""
    except OSError as fault:
        return [], 0, f"the file can't be read ({fault.strerror})"


def lines_of(text):
    """The lines of a text, as compilers count them."""
    lines = text.split(b"\n")
    return lines if lines[-1] else lines[:-1]


class Sources:
    """The files below a folder, if there is one. Paths are bytes, and count from the folder."""

    def __init__(self, folder):
        self.folder = os.fsencode(os.path.realpath(folder)) if folder else None
        self.read = functools.lru_cache(maxsize=64)(read_lines)

    @functools.cached_property
    def index(self):
        return Index([self.folder])

    def find(self, path, compiled):
        """The file that a path names: the compiled one, itself, or the only one that ends so; else None."""
        if not self.folder:
            return None
        return (self.find_path(compiled) if compiled else None) or self.find_path(path)

    def find_path(self, path):
        path = posixpath.normpath(path)
        is_absolute = path.startswith(b"/")
        if is_absolute:
            path = os.path.relpath(os.path.realpath(path), self.folder)
        if not path.startswith(b"../") and os.path.isfile(os.path.join(self.folder, path)):
            return path
        found = [name for name in self.index.named(posixpath.basename(path))
                 if name.endswith(b"/" + path)] if not is_absolute else []
        return found[0] if len(found) == 1 else None

    def line(self, path, number):
        """The text of a line of a file that was found, without blanks around it; None if there is none."""
        lines, _, _ = self.read(os.path.join(self.folder, path))
        return b" ".join(lines[number - 1].split()) if number <= len(lines) else None
