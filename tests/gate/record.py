"""What the must-fail edits of each crate were refused on: tests/gate/refused.sums, a line a crate.

Whether an edit is refused rests on the crate's own text, on the contracts, definitions and lemmas of the
crates below, and on the kit's logic. It doesn't rest on bodies below, since a proof reads none. So the sum of
a crate is over these texts, without comments. Where it is as the record has it, those of its edits are tried
that are in the tenth of all edits that the commit draws: a forged line is found out by one gate in ten for
each edit. A crate that isn't in the record has all its edits tried.
"""

import hashlib
import pathlib
import re

# of one function's proof; the other files of proofs/ are lemmas
OF_A_PROOF = ("Answers.antt", "Invariants.antt", "Proof.antt")
PARTS = 20  # of all edits, of which a commit draws two


def sum_of(what):
    return hashlib.sha256(repr(what).encode()).hexdigest()


def without_comments(text):
    return "\n".join(line for line in text.split("\n") if not line.lstrip().startswith(("//", "-- ")))


HEAD = re.compile(r"( *)(?:pub(?:\(\w+\))? )?(?:const |unsafe )*(fn|impl|trait|struct|enum|mod)\b")


def without_bodies(text):
    """A file of Rattle without the bodies of its functions with contracts, whose braces have lines
    of their own."""
    kept, end, is_function = [], None, {}
    for line in text.split("\n"):
        if end is not None and line != end:
            continue
        end = None
        kept.append(line)
        head = HEAD.match(line)
        if head:
            is_function[head[1]] = head[2] == "fn"
        if line.endswith("{") and not line[:-1].strip() and is_function.get(line[:-1]):
            end = line[:-1] + "}"
    return "\n".join(kept)


def texts(folder, *parts):
    """The files in some parts of a crate's folder, by path, without comments."""
    paths = sorted(path for part in parts for path in (folder / part).rglob("*") if path.is_file())
    return {str(path.relative_to(folder)): without_comments(path.read_text()) for path in paths}


def seen_from_above(folder):
    """What the proofs of the crates above read of a crate: contracts, definitions and lemmas."""
    lemmas = {path: text for path, text in texts(folder, "proofs").items() if not path.endswith(OF_A_PROOF)}
    sources = {path: without_bodies(text) for path, text in texts(folder, "src").items()}
    return sum_of([sources, texts(folder, "specs"), lemmas])


class Layers:
    """The lines of crates.txt: what each crate uses, of the repository and of the kit."""

    def __init__(self, root):
        self.folder = root / "crates"
        lines = (root / "crates.txt").read_text().splitlines()
        heads = [line.partition("#")[0].partition(":") for line in lines if ":" in line.partition("#")[0]]
        self.uses = {head.split()[0]: sorted(used.split()) for head, _, used in heads}

    def below(self, name):
        """The repository's crates that a crate stands on, sorted."""
        found, left = set(), [*self.uses[name]]
        while left:
            used = left.pop()
            if used in self.uses and used not in found:
                found.add(used)
                left += self.uses[used]
        return sorted(found)

    def above(self, names):
        """Some crates and all that stand on one of them, lowest first."""
        found = [it for it in self.uses if it in names or names & {*self.below(it)}]
        return sorted(found, key=lambda it: (len(self.below(it)), it))

    def edits(self, name):
        return sorted((self.folder / name / "must-fail").glob("*.edit"))

    def state(self, name, logic):
        """A sum of all that the answers to a crate's edits rest on. The kit is told by the number
        of its logic."""
        own = texts(self.folder / name, "src", "specs", "proofs", "must-fail")
        below = [(it, seen_from_above(self.folder / it)) for it in self.below(name)]
        return sum_of([logic, name, self.uses[name], own, below])


def read(path):
    """The sums of a record, by crate; none where there is no record."""
    return dict(line.split() for line in path.read_text().splitlines()) if path.exists() else {}


def write(path, sums):
    path.write_text("".join(f"{name} {found}\n" for name, found in sorted(sums.items())))


def drawn(commit, edits):
    """The edits that a commit draws to be tried though the record answers for them: two parts of neighbours,
    since those of one crate share the proofs of its lemmas and, where functions differ, their checks."""
    first = int(sum_of(commit)[:8], 16) % (PARTS // 2)
    return [edit for part in (first, first + PARTS // 2)
            for edit in edits[part * len(edits) // PARTS : (part + 1) * len(edits) // PARTS]]
