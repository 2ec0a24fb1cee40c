"""Must-fail edits of one crate, tried together where they change different functions.

A function's proof reads the contracts of what it calls, and no body. So edits of different functions can
stand in one copy of the crate, and one check of these functions tells which of them are refused: the checker
says of a function whether its own proof fails, or whether it only calls one that has no proof. What a joint
check doesn't refuse is tried in a check of its own, and then as the kit tries it: the whole crate from
nothing.
"""

import pathlib
import re
import tempfile

import kit

# How the checker says that a function's own proof fails, and of which file. 'no proof: it calls G, which is
# not proved' blames G.
REFUSED = re.compile(r"(?m)^fn (\S+): (?:not proved(?:;|$)|no proof: expected answers in (\S*))")


def owner_of(head):
    """How the checker names an impl that begins with these lines: the type's name, then the trait's."""
    head = head.replace("->", "")
    while re.search(r"<[^<>]*>", head):
        head = re.sub(r"<[^<>]*>", "", head)
    trait, is_of, of = head.partition("{")[0].removeprefix("impl").partition(" for ")
    return "".join(it.split()[0].rpartition("::")[2] for it in ([of, trait] if is_of else [trait]))


def functions_in(file, text):
    """The first line, the last line and the name of each function of a file that `rt fmt` laid out."""
    module = [it for it in pathlib.PurePath(file).with_suffix("").parts[1:] if it not in ("lib", "main")]
    lines, owner = text.split("\n"), []
    for at, line in enumerate(lines):
        if line.startswith("impl"):
            owner = [owner_of(" ".join(lines[at : at + 5]))]
        elif line == "}":
            owner = []
        head = re.match(r"( *)(?:pub(?:\(\w+\))? )?(?:const )?fn (\w+)", line)
        if head and head[1] + "}" in lines[at:]:
            yield at, lines.index(head[1] + "}", at), "::".join([*module, *owner, head[2]])


def changed_by(edit, folder):
    """The functions in whose lines an edit changes something, named by their files."""
    found, texts, file, old = set(), {}, "", ""
    for word, text in re.findall(r"(?m)^(file|old|new): ?(.*)$", edit.read_text()):
        if word == "file":
            file = text.strip()
            texts.setdefault(file, pathlib.Path(folder, file).read_text())
        elif word == "old":
            old, line = text, texts[file].partition(text)[0].count("\n")
            found |= {*[name for first, last, name in functions_in(file, texts[file])
                        if first <= line <= last][-1:]}
        else:
            texts[file] = texts[file].replace(old, text)
    return found


def functions_of(edit, crate):
    """The functions that an edit changes, as the checker names them; where it changes none, those that
    its name names."""
    known = kit.functions_of(crate)
    try:
        found = changed_by(edit, crate.folder)
    except (OSError, KeyError):  # it names no file of the crate, and is tried alone
        return set()
    # A method is named after the module of its type, which needn't be that of the impl, and its trait's
    # arguments follow.
    ends = [r"\w*::".join(it.split("::")[-2:]) for it in found - known]
    ends = ends or [edit.name.partition(".")[0]] * (not found)
    return found & known | {it for it in known for end in ends if re.search(rf"(?:^|::){end}$", it)}


def is_in_functions(edit, crate):
    """Whether an edit changes the lines of functions. Another one, as of a type's fields, may change what
    any function does."""
    try:
        return bool(changed_by(edit, crate.folder))
    except (OSError, KeyError):
        return False


def batches(crate, edits):
    """The edits as dicts from an edit to its functions. No two edits of a dict change one function, and one
    outside of functions is in a dict of its own."""
    found, alone = [], []
    for edit in edits:
        names = functions_of(edit, crate)
        if not is_in_functions(edit, crate):
            alone.append({edit: names})
            continue
        fits = (it for it in found if names and not names & set().union(*it.values())
                and kit.change([*it, edit], crate))
        batch = next(fits, None)
        if batch is None:
            found.append(batch := {})
        batch[edit] = names
    return [*found, *alone]


def refused_in(status, said, batch, name, texts):
    """Of a check's status and output, the edits of a batch that a function of their own shows refused. None
    is where the check didn't come to its end, couldn't read a text, or refused a function that no edit
    changes. Functions that call one another have one proof, in a folder whose name begins with '+', and are
    refused together."""
    names = set().union(*batch.values())
    failed = {function.removeprefix(f"{name}::"): file for function, file in REFUSED.findall(said)}
    cycles = {file for function, file in failed.items() if function in names and "/+" in file}
    others = {function for function, file in failed.items() if function not in names and file not in cycles}
    if status != 1 or others or any(kit.is_unread(line, texts) for line in said.splitlines()):
        return set()
    return {edit for edit, functions in batch.items() if functions & {*failed}}


def refused(crate, batch, kept):
    """The edits of a batch that one check refuses, each by the proof of a function of its own."""
    texts, names = kit.change(batch, crate), set().union(*batch.values())
    if not texts or not names:
        return set()
    return refused_in(*kit.check(crate, texts, names, kept), batch, crate.name, texts)


def tried(crate, edits):
    """Of each edit of a crate whether it is refused, and what to say of it."""
    with tempfile.TemporaryDirectory(prefix="edits-") as kept:
        for batch in batches(crate, edits):
            well = refused(crate, batch, kept)
            if len(batch) > 1:
                well |= {edit for edit in batch if edit not in well
                         and refused(crate, {edit: batch[edit]}, kept)}
            for edit in batch:
                if edit in well:
                    yield True, f"must-fail {crate.name}/{edit.name}: refused, as it must be"
                else:
                    yield kit.try_alone(crate, edit)
