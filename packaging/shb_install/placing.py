"""Puts a tree below a prefix, as `make install` does elsewhere, and takes it away again."""

import contextlib
import os
import re
import shutil

from shb_common import files
from shb_common.standard import faults_of
from shb_common.words import Refused
from shb_install.tree import BASH, HOME, MANUAL, OWN, PAGES, ZSH

VERSION = f"{HOME}/VERSION"     # the first file that is put in place, so that the rest can be taken away
WRITTEN = re.compile(rb"\d{4}\.\d\d\.\d\d-[0-9a-f]{12,}(-changed)?\n")


def install(tree, place):
    """Puts the files and links of a tree below `place`, where an older version goes first."""
    uninstall(place)
    for folder in OWN:
        if os.path.isdir(place / folder) and os.listdir(place / folder):
            raise Refused(f"{place / folder} isn't of an installation of shb: move it, or name another "
                          "PREFIX")
    names = [str(path.relative_to(tree)) for path in tree.rglob("*") if path.is_symlink() or path.is_file()]
    for name in sorted(names, key=lambda name: (name != VERSION, name)):
        put(tree, name, place)


def put(tree, name, place):
    """Puts a file of the tree in place, with its mode; a link leads to the same file of the tree."""
    source, target = tree / name, place / name
    target.parent.mkdir(parents=True, exist_ok=True)
    if source.is_symlink():
        files.remove(target)
        real = os.path.realpath(place / os.path.relpath(source.parent / os.readlink(source), tree))
        target.symlink_to(os.path.relpath(real, os.path.realpath(target.parent)))
        return
    with faults_of(str(target)):    # a full disk names no file
        files.put(target, source.read_bytes())
    target.chmod(0o755 if os.access(source, os.X_OK) else 0o644)


def uninstall(place):
    """Deletes an installation, and says whether there was one. Folders that others share stay."""
    version = place / VERSION
    if not version.is_file() or not WRITTEN.fullmatch(version.read_bytes()):
        return False
    pages = (page.replace(" ", "-") for page in PAGES)
    for name in {*pages, *(path.name for path in (place / HOME).glob("shb-*"))}:
        for path in (f"bin/{name}", f"{BASH}/{name}", f"{MANUAL}/{name}.1"):
            files.remove(place / path)
    files.remove(place / ZSH / "_shb")
    for folder in OWN:      # the one with the version is the last
        with contextlib.suppress(FileNotFoundError):
            shutil.rmtree(place / folder)
    return True
