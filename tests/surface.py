#!/usr/bin/env python3
"""Looks whether the crates export what a user of one of them alone builds on: each item of the table below
(surface.txt), with its fields, its variants in their order, and the types of its signature. Ends with the
line 'N passed, N failed'.

In the table a crate's name begins a line, and its items follow, a line each:

    struct NAME                            a type whose fields are its own
    struct NAME;                           one without fields
    struct NAME { FIELD: TYPE, .. }        one whose fields are all public
    enum NAME { VARIANT, .. }
    trait NAME { type TYPE; METHOD(TYPES) -> TYPE; .. }
    fn NAME(TYPES) -> TYPE
    TYPE::METHOD(TYPES) -> TYPE
    mod NAME                               the lines of its items begin with `NAME::` after the first word

Types are written as in the sources, but for lifetimes; what is ghost isn't looked at. What a crate exports
besides is named in exports.txt (exports.py). If a form isn't the plain one that the item's name lets expect,
the line ends with '# ' and words of docs/DECISIONS.md that give the reason.
"""

import pathlib
import re
import sys

sys.dont_write_bytecode = True

from brackets import end_of, end_of_parameters, parts

ROOT = pathlib.Path(__file__).resolve().parent.parent
TABLE = ROOT / "tests" / "surface.txt"
COMMENT = re.compile(r"//.*")
HANDED_ON = re.compile(r"(?m)^pub use ([\w:]+)::(?:\{([^}]*)\}|(\w+(?: as \w+)?));")
MODULE = re.compile(r"(?m)^pub mod (\w+);")
ITEM = re.compile(r"(?m)^pub (struct|enum|trait|fn) (\w+)")
METHODS = re.compile(r"(?m)^impl(?=[< ])")


def plain(text):
    """A text of types without lifetimes, in one line."""
    text = re.sub(r"<\s*(?:'\w+\s*,?\s*)*>", "", re.sub(r"'\w+\s*,\s*|'\w+\s+|(?<=<)'\w+(?=>)", "", text))
    text = re.sub(r",\s*(?=[)>\]}])", " ", text)
    text = re.sub(r"\s+(?=[)>\]])", "", re.sub(r"(?<=[(<\[])\s+", "", text))
    return re.sub(r"\s+", " ", text).strip()


def signature(text, at):
    """The types of the function whose name ends at this place, and the place after them."""
    begins = text.index("(", end_of_parameters(text, at))
    ends = end_of(text, begins)
    arguments = [it if it.split()[-1].endswith("self") else it.split(":", 1)[1]
                 for it in parts(text[begins + 1 : ends - 1], ",", True)]
    answer = re.compile(r"\s*->\s*(.*?)\s*(?=\n\s*(?:requires|ensures|where)\b|\{|;|$)",
                        re.S).match(text, ends)
    return plain(f"({', '.join(arguments)})" + (f" -> {answer[1]}" if answer else ""))


def functions(text, public):
    """The functions in the text of a trait or of an impl, by their names."""
    head = r"(?m)^    pub fn (\w+)" if public else r"(?m)^    fn (\w+)"
    return {it[1]: signature(text, it.end()) for it in re.finditer(head, text)}


def members(text):
    """The fields or variants in the text of a type."""
    found = [re.sub(r"#\[[^\]]*\]\s*", "", it) for it in parts(text, ",", True)]
    return [plain(it) for it in found if not re.match(r"(?:pub )?ghost\b", it)]


class Sources:
    """The sources of the crates: `files` are their texts, by the crate and the path below src."""

    def __init__(self, files):
        self.codes = {crate: {path: COMMENT.sub("", text) for path, text in of.items()}
                      for crate, of in files.items()}

    def exported(self, crate, module=""):
        """The names that a crate exports, or one of its modules: of each the crate that has it, and
        its name there."""
        paths = [f"{module}.rt", f"{module}/mod.rt"] if module else ["lib.rt", "main.rt"]
        root = next((self.codes[crate][it] for it in paths if it in self.codes[crate]), "")
        names = {it[1]: (crate, it[1]) for it in MODULE.finditer(root)}
        if module:
            names.update({it[2]: (crate, it[2]) for it in ITEM.finditer(root)})
        for path, group, one in HANDED_ON.findall(root):
            owner = path.split("::")[0]
            for words in (it.split() for it in (group or one).split(",") if it.strip()):
                there = self.exported(owner).get(words[0]) if owner in self.codes else None
                names[words[-1]] = there or (crate, words[0])
        return names

    def defined(self, crate, kind, name):
        """The text of the crate that begins after the name of an item, where it has one of this kind."""
        for text in self.codes[crate].values():
            found = re.search(rf"(?m)^pub {kind} {name}\b", text)
            if found:
                return text[found.end() :]
        return None

    def methods(self, crate, name):
        """The public methods of a type."""
        out = {}
        for text in self.codes[crate].values():
            for found in METHODS.finditer(text):
                head = text[end_of_parameters(text, found.end()) :]
                of = re.match(r"\s*(\w+)[^{]*", head)
                if of and of[1] == name and " for " not in of.group():
                    out.update(functions(head[of.end() : end_of(head, of.end())], True))
        return out

    def form(self, crate, kind, name):
        """An item as the table writes it, and None where there is none."""
        text = self.defined(crate, kind, name)
        if text is None:
            return None
        if kind == "fn":
            return f"fn {name}{signature(text, 0)}"
        at = end_of_parameters(text, 0)
        opens = re.compile(r"[^{;]*").match(text, at).end()
        inner = text[opens + 1 : end_of(text, opens) - 1] if text[opens] == "{" else None
        return f"{kind} {name}{self.inside(kind, inner)}"

    def inside(self, kind, inner):
        """What the table writes of the inside of a type or a trait."""
        if inner is None:
            return ";"
        if kind == "trait":
            types = [f"type {it}" for it in re.findall(r"(?m)^    type (\w+)", inner)]
            return " { %s }" % "; ".join(
                types + [f"{name}{types}" for name, types in functions(inner, False).items()])
        found = members(inner)
        if kind == "struct" and not all(it.startswith("pub ") for it in found):
            return ""
        return " { %s }" % ", ".join(it.removeprefix("pub ") for it in found)


def found_of(sources, crate, line):
    """What stands in the sources for a line of the table; None where nothing does."""
    kind, _, rest = line.partition(" ")
    kind, rest = (kind, rest) if kind in ("struct", "enum", "trait", "fn", "mod") else ("", line)
    *path, last = re.match(r"[\w:]+", rest)[0].split("::")
    module = path.pop(0) if path and path[0][0].islower() else ""
    if module and module not in sources.exported(crate):
        return None
    owner, name = sources.exported(crate, module).get(path[0] if path else last, (None, None))
    if owner is None:
        return None
    head = f"{module}::" * bool(module)
    if kind == "mod":
        return f"mod {last}"
    if kind:
        form = sources.form(owner, kind, name)
        return form and form.replace(f"{kind} {name}", f"{kind} {head}{last}", 1)
    types = sources.methods(owner, name).get(last)
    return types and f"{head}{path[0]}::{last}{types}"


def wrong_in(table, sources, reasons):
    """What of the table doesn't stand in the sources, and how many lines of it there are."""
    wrong, count, crate = [], 0, ""
    for line in table.splitlines():
        if not line.startswith(" "):
            crate = line.strip()
            continue
        wanted, _, reason = (it.strip() for it in line.partition("# "))
        count += 1
        found = found_of(sources, crate, wanted) if crate in sources.codes else None
        if found != wanted:
            wrong.append(f"{crate} has to export\n    {wanted}\nand has\n    "
                         f"{found or 'nothing of this name and kind'}")
        elif reason and reason not in reasons:
            wrong.append(f"docs/DECISIONS.md doesn't say '{reason}', the reason for\n    {wanted}")
    return wrong, count


def main():
    import exports  # which uses this module

    sources = exports.sources()
    wrong, count = wrong_in(TABLE.read_text(), sources, (ROOT / "docs" / "DECISIONS.md").read_text())
    more = exports.unlisted(sources, TABLE.read_text())
    for what in wrong + more:
        print(what)
    print(f"{count - len(wrong)} passed, {len(wrong) + len(more)} failed")
    return 1 if wrong or more or not count else 0


if __name__ == "__main__":
    sys.exit(main())
