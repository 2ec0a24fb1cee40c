"""What the crates of the library export: names that the table of the surface doesn't have, and functions
without a must-fail edit.

exports.txt lists both as they are today, so that a new export has to get a line and an edit. A crate's name
begins a line; below it come a line with the names that surface.txt doesn't have, and one with the functions
that no edit is named after:

    also NAME, NAME, ..
    unedited NAME, TYPE::NAME, ..

Functions of a module `laws` do nothing, so they need no edit. A name that belongs in no line any more
is refused too.
"""

import pathlib
import re

import surface

HERE = pathlib.Path(__file__).resolve().parent
LISTED = HERE / "exports.txt"
NAME = re.compile(r"(?:(?:struct|enum|trait|fn|mod) )?(\w+)")
LAWS = "laws"


def read(text, word):
    """The names of the lines that begin with this word, by crate."""
    found, crate = {}, ""
    for line in text.splitlines():
        if not line.startswith(" "):
            crate = line.strip()
            continue
        kind, _, names = line.strip().partition(" ")
        if kind == word:
            found[crate] = set(names.split(", "))
    return found


def named_in(table):
    """The names that the table of the surface has, by crate: of a method that of its type."""
    found, crate = {}, ""
    for line in table.splitlines():
        if line.startswith(" "):
            found[crate].add(NAME.match(line.strip())[1])
        elif line.strip():
            crate = line.strip()
            found[crate] = set()
    return found


def beyond(sources, table):
    """The names that each crate exports and the table doesn't have."""
    named = named_in(table)
    return {crate: set(sources.exported(crate)) - named.get(crate, set()) for crate in sources.codes}


def functions(sources, crate):
    """The functions and methods that a crate exports of its own."""
    modules = [name for name, (owner, _) in sources.exported(crate).items() if owner == crate
               and f"{name}.rt" in sources.codes[crate] and name != LAWS]
    for module in ["", *modules]:
        for owner, name in sources.exported(crate, module).values():
            if owner != crate:
                continue
            if sources.defined(crate, "fn", name) is not None:
                yield name
            yield from (f"{name}::{method}" for method in sources.methods(crate, name))


def without_edit(sources, edited):
    """The exported functions that no edit is named after; `edited` has the names of each crate's edits."""
    return {crate: {name for name in functions(sources, crate)
                    if name.split("::")[-1] not in edited.get(crate, ())}
            for crate in sources.codes}


def differences(found, listed, of_new, of_old):
    """What the list lacks, and what it has too much: a line for each name."""
    for crate in sorted({*found, *listed}):
        here, there = found.get(crate, set()), listed.get(crate, set())
        yield from (f"{crate}: {name} {of_new}" for name in sorted(here - there))
        yield from (f"{crate}: {name} {of_old}" for name in sorted(there - here))


def unlisted(sources, table):
    """The exports that have no line, and lines without an export."""
    return list(differences(beyond(sources, table), read(LISTED.read_text(), "also"),
                            "is exported: give it a line in tests/surface.txt, or name it after `also` in "
                            "tests/exports.txt",
                            "is named after `also` in tests/exports.txt, and isn't exported, or "
                            "tests/surface.txt has it"))


def unedited(sources, edited):
    """The exported functions that have to get an edit, and those that have one by now."""
    return list(differences(without_edit(sources, edited), read(LISTED.read_text(), "unedited"),
                            "is exported, and no must-fail edit is named after it",
                            "is named after `unedited` in tests/exports.txt, and has an edit, or isn't "
                            "exported"))


def sources():
    """The sources of the crates, as surface.py reads them."""
    crates = HERE.parent / "crates"
    return surface.Sources({it.name: {path.relative_to(it / "src").as_posix(): path.read_text()
                                      for path in sorted((it / "src").rglob("*.rt"))}
                            for it in sorted(crates.iterdir()) if (it / "src").is_dir()})
