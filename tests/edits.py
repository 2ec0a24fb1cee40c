#!/usr/bin/env python3
"""Applies each must-fail edit to a copy of its file and has all copies parsed, so that an edit which is
refused for a misspelling is told from one that a contract refuses. Ends with the line 'N passed, N failed'.

An edit is a line 'file: PATH', and then pairs of lines 'old: TEXT' and 'new: TEXT'; the file may be named
again between pairs. Each old text stands once in the file.

It also refuses a function that a crate exports and that no edit is named after, unless exports.txt
lists it (exports.py).
"""

import collections
import pathlib
import subprocess
import sys
import tempfile

sys.dont_write_bytecode = True

import exports

CRATES = pathlib.Path(__file__).resolve().parent.parent / "crates"


class Wrong(Exception):
    """Why an edit can't be applied."""


def words_of(path):
    """The words of an edit's lines, with their texts."""
    for line in path.read_text().splitlines():
        word, colon, text = line.partition(":")
        if not colon or word not in ("file", "old", "new"):
            raise Wrong(f"a line that is none of file, old and new: {line!r}")
        yield word, text.removeprefix(" ")


def edited(path):
    """The suffix of the file that an edit changes, and its text after that."""
    words = list(words_of(path))
    files = {text for word, text in words if word == "file"}
    changes = [(word, text) for word, text in words if word != "file"]
    if (words[0][0] != "file" or len(files) > 1 or [word for word, _ in changes]
        != ["old", "new"] * (len(changes) // 2)):
        raise Wrong("it isn't a file and then pairs of old and new")
    file = path.parent.parent / files.pop()
    text = file.read_text()
    for (_, old), (_, new) in zip(changes[::2], changes[1::2]):
        if text.count(old) != 1:
            raise Wrong(f"the old text stands {text.count(old)} times in {file.name}")
        if old.strip() == new.strip():
            raise Wrong("it changes nothing")
        text = text.replace(old, new)
    return file.suffix, text


def misspelled(texts):
    """What the formatter says of the files of Rattle with these names and texts that don't parse,
    line by line."""
    with tempfile.TemporaryDirectory() as room:
        folder = pathlib.Path(room)
        source = folder / "crates" / "edits" / "src"
        source.mkdir(parents=True)
        (folder / "crates.txt").write_text("edits:\n")
        (source / "lib.rt").write_text("".join(f"mod {name};\n" for name in texts))
        for name, text in texts.items():
            (source / f"{name}.rt").write_text(text)
        ran = subprocess.run(["rt", "fmt"], cwd=source.parent, capture_output=True, text=True)
        lines = (ran.stdout + ran.stderr).splitlines()
        return [line for line in lines if not line.startswith("rt: formatted ")] if ran.returncode else []


def names_by_crate(edits):
    """The functions that the edits of each crate are named after."""
    found = collections.defaultdict(set)
    for path in edits:
        found[path.parent.parent.name].add(path.name.split(".")[0])
    return found


def main():
    edits = sorted(CRATES.glob("*/must-fail/*.edit"))
    others = {*CRATES.glob("*/must-fail/**/*")} - {*edits}
    wrong, texts, named = {path: "no file NAME.edit, so nothing tries it" for path in sorted(others)}, {}, {}
    for number, path in enumerate(edits):
        try:
            suffix, text = edited(path)
        except (Wrong, OSError) as why:
            wrong[path] = why
            continue
        if suffix == ".rt":
            texts[f"e{number}"], named[f"e{number}.rt"] = text, path
    for line in misspelled(texts):
        name = pathlib.Path(line.partition(":")[0]).name
        wrong[named.get(name, name)] = line
    for path, why in wrong.items():
        print(f"{path}: {why}")
    unedited = exports.unedited(exports.sources(), names_by_crate(edits))
    for what in unedited:
        print(what)
    print(f"{len({*edits} - {*wrong})} passed, {len(wrong) + len(unedited)} failed")
    return 1 if wrong or unedited or not edits else 0


if __name__ == "__main__":
    sys.exit(main())
