"""What the gate takes from the kit beside its commands. Another kit may want changes here, and only here.

- the kit's command `rt` as a module: it reads an edit, and checks a copy of a crate over the libraries that
  `rt ci` left;
- the lines of `rt ci` that tell when a crate's library is there;
- the checked modules of a built library, which lie in an archive of ar: their names tell how the
  checker names functions.
"""

import functools
import importlib.machinery
import importlib.util
import os
import pathlib
import re
import shutil
import sys


@functools.lru_cache(maxsize=None)
def command():
    """The command `rt` as a module."""
    path = os.path.realpath(shutil.which("rt"))
    sys.path.insert(0, os.path.dirname(path))
    loader = importlib.machinery.SourceFileLoader("rt", path)
    rt = sys.modules["rt"] = importlib.util.module_from_spec(importlib.util.spec_from_loader("rt", loader))
    loader.exec_module(rt)
    return rt


def logic():
    """The number of the kit's logic, the last word of its own line. Kits of other names that have it
    prove the same."""
    return pathlib.Path(command().KIT, "KIT-ID").read_text().split()[-1]


def proofs_from(anew):
    """The words after `rt` that prove everything, all of it anew if that is wanted. Some kits keep no proof
    and know no word for this."""
    keeps = "--anew" in pathlib.Path(command().__file__).read_text()
    return ["ci", *["--anew"] * (anew and keeps)]


def crates_of(room):
    """The crates of the repository in a folder, by name. They are checked over the libraries that
    were built there.

    The folder is the working folder from then on, and what is checked ends when this process ends.
    """
    os.chdir(room)
    command().rtlib.guarded()
    return {crate.name: crate for crate in command().rtlib.crates_below(str(room))}


def built_in(line):
    """The crate whose library is there by this line of `rt ci`: proved now, or by an earlier run
    on this machine."""
    found = re.fullmatch(r"rt: (\w+) (?:proved|is kept: .*)\n", line)
    return found and found[1]


def names_in(archive):
    """The names of the files in an archive of ar."""
    data, at, long_names = archive.read_bytes(), 8, b""
    while at < len(data):  # a head of 60 bytes, and the content to an even number of bytes
        name, size = data[at : at + 16].decode().strip(), int(data[at + 48 : at + 58])
        content, at = data[at + 60 : at + 60 + size], at + 60 + size + size % 2
        if name == "//":
            long_names = content
        elif re.fullmatch(r"/\d+", name):
            yield long_names[int(name[1:]) :].partition(b"\n")[0].decode()


@functools.lru_cache(maxsize=None)
def functions_of(crate):
    """The functions of a proved crate as the checker names them below the crate, as 'ring::Ring::new'."""
    modules = names_in(pathlib.Path(crate.rlib, "toolchain", "checked.a"))
    codes = (re.fullmatch(r".*?-proofs\.(.*)\.Code\.oantt/?", name) for name in modules)
    return {found[1].replace(".", "::") for found in codes if found}


def change(edits, crate):
    """The texts of the files that some edits change together, by path, or None where they can't be applied
    to one copy."""
    return command().edited("\n".join(edit.read_text() for edit in edits), crate.folder)[0]


def check(crate, texts, functions, kept):
    """Checks some functions of a copy of a crate that has these texts, over the work that a folder keeps. Its
    status and output."""
    only = [word for name in sorted(functions) for word in ("--only", name)]
    ran = command().checked(crate, texts, ["--jobs", "1", *only], kept)
    return ran.returncode, ran.stdout


def is_unread(line, texts):
    """Whether a line says that a text couldn't be read, or that the work of a library below couldn't be used:
    no contract was tried then."""
    return command().unread(line, texts) or bool(command().rtlib.STALE.search(line))


def try_alone(crate, edit):
    """Tries one edit as the kit does, on the whole crate from nothing. Whether it is refused, and
    what to say."""
    rt = command()
    answer, said = rt.must_fail(crate, str(edit), ["--jobs", "1"])
    if isinstance(answer, bool):  # some kits say no more of an edit
        return answer, said
    return ({rt.REFUSED: True, rt.AT_LIMIT: True, rt.BAD: False, rt.MISSED: False, rt.UNSURE: False}[answer],
            said)


def free_memory():
    """The free memory in bytes, under the limit of the process's group too."""
    return command().free()


def processors():
    """The number of processors that there are to use."""
    return command().processors()
