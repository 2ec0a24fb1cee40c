"""What belongs to the commit. git is asked for it, so nothing else of the folder is installed or packaged."""

import collections
import pathlib
import subprocess

from shb_common.parts import version
from shb_common.words import Refused

TOP = pathlib.Path(__file__).resolve().parents[2]

# A commit: its day and name as a version, its whole name, its time in seconds and as mail has it, its author.
Commit = collections.namedtuple("Commit", "version name seconds date author")


def git(*words):
    """What git says of this checkout; it refuses where git isn't there, or doesn't say it."""
    try:
        ran = subprocess.run(["git", "--no-optional-locks", "-C", TOP, *words], capture_output=True)
    except FileNotFoundError:
        raise Refused("git isn't installed; only git knows which files belong to the commit") from None
    if ran.returncode:
        said = " ".join(ran.stderr.decode(errors="replace").split())
        raise Refused(f"git can't say which files of {TOP} belong to the commit: {said}")
    return ran.stdout.decode(errors="surrogateescape")


def listed():
    """The files that git has of this checkout, as paths below it. A part of a checkout is refused."""
    if git("rev-parse", "--show-cdup").strip():
        raise Refused(f"{TOP} isn't a checkout of its own; only git knows which files belong to the commit")
    return [name for name in git("ls-files", "-z").split("\0") if name]


def changed():
    """The files of the commit that are changed in this checkout, or were added since."""
    return sorted(name for name in git("diff", "--name-only", "-z", "HEAD").split("\0") if name)


def commit():
    """The last commit."""
    return Commit(version(), *git("log", "-1", "--format=%H%n%ct%n%cD%n%an <%ae>").splitlines())
