#!/usr/bin/env python3
"""Compares the tokens of each crate and folder with weight.tsv.

Each has exactly as many as the table says, so that a change which adds some changes the table too, and its
commit says what a user gains by them. A token is a word or a sign: a line that is broken in two weighs the
same.

    weight.py [--lower]

A row is the name of a crate or folder, a kind, and a number:

    code          tokens of src/*.rt without clauses, imports and comments
    definitions   tokens of specs/*.antt without imports and comments
    proofs        the same of proofs/*.antt
    C, Python     tokens of the sources in a folder and below, without its tests, comments and help
    long lines    lines of code and comments over 110 characters, of definitions and proofs over 200; clauses
                  and imports may have any length

--lower writes a lower number wherever there is less now. A higher one is written by hand. Ends with the line
'N passed, N failed'.
"""

import argparse
import collections
import pathlib
import re
import subprocess
import sys

ROOT = pathlib.Path(__file__).resolve().parent.parent
TABLE = ROOT / "tests" / "weight.tsv"
CRATE = re.compile(r"crates/(\w+)/(src|specs|proofs)/.*\.(?:rt|antt)")
KINDS = {"src": "code", "specs": "definitions", "proofs": "proofs"}
# the first one that a file is in
FOLDERS = ("packaging", "python", "recorder/converter", "recorder/reader", "recorder/runtime", "recorder")
PYTHON = re.compile(r".*\.py|shb-\w+|install")  # commands have no ending
C = re.compile(r".*\.[chS]")
CLAUSE = re.compile(r"requires\b|ensures\b|ghost\b")
IMPORT = re.compile(r"(?:pub )?use\b|ghost use\b")
TOKEN = re.compile(r"\w+|[^\w\s]")
# of each language strings, which stay, and comments, which don't
OF_C = re.compile(r"""("(?:\\.|[^"\\\n])*"|'(?:\\.[^'\n]*|[^'\\\n])')|//[^\n]*|/\*[\s\S]*?\*/""")
OF_PYTHON = re.compile(r"""("(?!"")(?:\\.|[^"\\\n])*"|'(?:\\.|[^'\\\n])*')|#[^\n]*|"{3}[\s\S]*?"{3}""")
OF_PROOFS = re.compile(r"()(?:^|\s)--(?:\s[^\n]*)?$", re.M)
OF_FOLDERS = {"C": OF_C, "Python": OF_PYTHON}
LONG = "long lines"
MOST, MOST_OF_PROOFS = 110, 200     # characters of a line


def without(comment, text):
    return comment.sub(lambda found: found[1] or "", text)


def tokens(text):
    return len(TOKEN.findall(text))


def code_of(text):
    """The lines of a source that are no clauses, imports and blank lines."""
    braces, is_import = 0, False
    for line in text.splitlines():
        words = line.strip()
        if braces > 0:
            braces += line.count("{") - line.count("}")
        elif is_import or IMPORT.match(words):
            is_import = not words.endswith(";")
        elif CLAUSE.match(words):
            braces = line.count("{") - line.count("}")
        elif words:
            yield line


def of_crate(kind, text):
    """How many tokens a file of a crate has, and how many lines that are too long."""
    if kind == "code":
        return (sum(map(tokens, code_of(without(OF_C, text)))),
                sum(len(line) > MOST for line in code_of(text)))
    lines = [line for line in text.splitlines() if not line.startswith("use ")]
    return tokens(without(OF_PROOFS, "\n".join(lines))), sum(len(line) > MOST_OF_PROOFS for line in lines)


def row_of(path):
    """The name and kind of the row that a file belongs to, or None."""
    if crate := CRATE.fullmatch(path):
        return crate[1], KINDS[crate[2]]
    name = path.rpartition("/")[2]
    folder = next((it for it in FOLDERS if path.startswith(it + "/")), None)
    if not folder or "/tests/" in path:
        return None
    return (folder, "C") if C.fullmatch(name) else (folder, "Python") if PYTHON.fullmatch(name) else None


def weights(root):
    """The number of each row, of the files that git tracks or would."""
    listing = ["git", "-C", root, "ls-files", "-co", "--exclude-standard"]
    found = collections.Counter()
    for path in subprocess.run(listing, capture_output=True, check=True, text=True).stdout.splitlines():
        row = row_of(path)
        if row and (root / path).is_file():
            name, kind = row
            text = (root / path).read_text(encoding="utf-8")
            if kind in OF_FOLDERS:
                found[row] += tokens(without(OF_FOLDERS[kind], text))
            else:
                number, long = of_crate(kind, text)
                found[row] += number
                found[name, LONG] += long
    return dict(found)


def table():
    """The number that the table has for each row."""
    rows = (line.split("\t") for line in TABLE.read_text(encoding="utf-8").splitlines())
    return {(name, kind): int(number) for name, kind, number in rows}


def complaint(row, found, bound):
    """What is wrong with a row, if anything is."""
    name, kind = row
    what = kind if kind == LONG else f"tokens of {kind}"
    if bound is None:
        return f"{name} has {found} {what}, and no row in weight.tsv"
    if found == bound:
        return None
    head = f"{name}: {found} {what}, and weight.tsv has {bound}: "
    if found < bound:
        return f"{head}tests/weight.py --lower writes the number"
    return (f"{head}take {found - bound} away, or raise the number, and say in the commit's body what a user "
            "gains by them")


def lowered(found, bounds):
    """The table's rows with the lower of both numbers, without rows of what is gone."""
    return {row: min(found[row], bound) for row, bound in bounds.items() if row in found}


def main():
    parser = argparse.ArgumentParser(description=__doc__.splitlines()[0])
    parser.add_argument("--lower", action="store_true",
                        help="write lower numbers where there is less")
    options = parser.parse_args()
    found, bounds = weights(ROOT), table()
    if options.lower:
        bounds = lowered(found, bounds)
        lines = [f"{name}\t{kind}\t{number}\n" for (name, kind), number in sorted(bounds.items())]
        TABLE.write_text("".join(lines), encoding="utf-8")
    rows = sorted(found.keys() | bounds.keys())
    complaints = [it for row in rows if (it := complaint(row, found.get(row, 0), bounds.get(row)))]
    print(*complaints, f"{len(rows) - len(complaints)} passed, {len(complaints)} failed", sep="\n")
    return 1 if complaints else 0


if __name__ == "__main__":
    sys.exit(main())
