#!/usr/bin/env python3
"""Finds where a refusal of memory could be made up, and where secret keys of a table could be chosen.
`NoMemory` of shb_io has a private field: only the file below that converts the kit's errors makes one, and
each other error for want of memory carries one. But the kit's errors can be written by any line; so their
names are refused outside the files that convert them. `Keys` of shb_io has private fields too: a random
source alone gives them, and one file makes a hasher of them. Ends with the line 'N passed, N failed'.

Looked for in the files of the crates, those of tests too: the errors of the kit's allocator, by each of their
names and by that of the error that is converted into one; an allocator or a random source of the repository's
own; and what makes hashers.

A refusal is also had by asking for more memory than there is. So in the crates but those of tests each
request for memory of some size is looked at: its size has to have one of the few forms below
(`Sizes.is_bounded`). A size that is an argument of the function is looked at in each call of this function;
but not of a method whose argument is below 2^32 by its type, since a method is known by its name and its
number of arguments alone.
"""

import pathlib
import re
import sys

sys.dont_write_bytecode = True

from brackets import CLOSES, end_of, end_of_parameters, parts

CRATES = pathlib.Path(__file__).resolve().parent.parent / "crates"
CONVERTS = "shb_io/src/no_memory.rt"
KEYS = "shb_io/src/keys.rt"
HASHES = "shb_lines/src/hashing.rt"

# What stands in no file but these.
NAMED = {
    r"\bAllocError\b": (CONVERTS,),
    r"\bAllocFailed\b": (CONVERTS,),
    r"\bTryReserveError\b": (),
    r"\bSpawnError\b": (),
    r"\bOutOfMemory\b": ("shb_words/src/plan.rt", "shb/src/main.rt"),
    r"\bAllocator\s+for\b": (),
    r"\bRandomSource\s+for\b": (),
    r"\bfill_bytes\b": (KEYS,),
    r"\bof_random_source\b": (CONVERTS, KEYS),
    r"\bBuildHasher\b|\bHasher\s+for\b": (HASHES,),
    r"\b(?:BuildHasherDefault|DefaultHasher|RandomState|SipHasher\w*)\b": (),
}

# The calls that ask for memory of some size, and which of their arguments it is.
REQUESTS = {
    "with_capacity": 1, "with_capacity_and_hasher": 1, "reserve": 0, "reserve_exact": 0, "try_reserve": 0,
    "try_reserve_exact": 0,
    "resize": 0, "resize_with": 0, "repeat": 1, "repeat_n": 1,
}
REQUEST = re.compile(rf"\b({'|'.join(REQUESTS)})\b(?!_)")
ARRAY = re.compile(r"(?<!vec!)(?<!vec! )\[")
LIST = re.compile(r"\bvec!\s*\[")

# Counts that a trace, a job or a report of it has, as fields or calls.
COUNTS = "threads locks variables events locations pieces count".split()
# Other sizes that the code needs, by the file, with what bounds them.
OTHERS = {
    ("shb_lines/src/read.rt", "limits.text"): "the most bytes of a text, at most 2^30 by the condition of "
                                              "`parse`",
    ("shb_fan/src/streaming.rt", "workers.get()"): "at most 64 by its type",
    ("shb_numbers/src/dense.rt", "at"): "the word of a number of 32 bits, so below 2^26",
    **{("shb_stamps/src/row_list.rt", f"half_more(other.{items}.len())"): "half as many again as there are"
       for items in ("spans", "cells", "chunks")},
    ("shb_witness/src/threads.rt", "end"): "the sum of how many events each thread has",
}
MOST_NUMBER, MOST_NAMED = 65_536, 2**32 - 1

COMMENT = re.compile(r"//.*")
FUNCTION = re.compile(r"\bfn (\w+)\s*(?=[<(])")
CONSTANT = re.compile(r"\bconst (\w+): \w+ = ([0-9_]+|1 << [0-9]+);")
CLAUSE = re.compile(r"\b(?:requires|ensures|decreases)\b[ \w]*\Z")


class Function:
    """A function of a file: its name, with its type where it has one, the types of its arguments by their
    names, and its text."""

    def __init__(self, file, name, arguments, start, text):
        self.file, self.name, self.arguments, self.start, self.text = file, name, arguments, start, text
        self.takes_self = any(re.fullmatch(r"&?(?:'\w+ )?(?:mut )?self", it) for it in arguments)


def functions_in(name, code):
    """The functions of a file, in order."""
    starts = list(FUNCTION.finditer(code))
    for number, found in enumerate(starts):
        begins = code.index("(", end_of_parameters(code, found.end()))
        ends = end_of(code, begins)
        arguments = dict(re.fullmatch(r"(?:mut )?([^:]*?)(?:\s*:\s*(.*))?", it, re.S).groups("")
                         for it in parts(code[begins + 1 : ends - 1], ",", True))
        owner = re.findall(r"(?m)^impl\b(?:<.*?>)? (?:.* for )?(\w+)|^(\})", code[: found.start()])
        owner = owner[-1][0] if owner else ""
        body = body_at(code, ends)
        yield Function(name, f"{owner}::{found[1]}" if owner else found[1], arguments, body,
                       code[body : end_of(code, body)])


def body_at(code, at):
    """The place of the bracket that opens the body of the function whose arguments end here; of the end,
    where it has none."""
    while at < len(code) and code[at] != ";":
        if code[at] == "{" and not CLAUSE.search(code[max(0, at - 60) : at]):
            return at
        at = end_of(code, at) if code[at] in CLOSES else at + 1
    return len(code)


class Sizes:
    """The requests for memory in some files, and the calls of functions that pass a size on."""

    def __init__(self, files):
        """`files` are names below crates/, with their texts."""
        self.codes = {name: COMMENT.sub("", text) for name, text in files.items()}
        self.functions = [it for name, code in self.codes.items() for it in functions_in(name, code)]
        self.constants = {}
        for name, value in (found.groups() for code in self.codes.values()
                            for found in CONSTANT.finditer(code)):
            number, _, shift = value.replace("_", "").partition("<<")
            self.constants[name] = max(int(number) << int(shift or 0), self.constants.get(name, 0))
        self.passed_on, self.used, self.wrong = [], set(), []

    def is_bounded(self, size, function):
        """Whether a size has one of the forms that are allowed."""
        size = re.sub(r" as \w+$", "", size.strip().lstrip("&*")).strip()
        if (function.file, size) in OTHERS:
            self.used.add((function.file, size))
            return True
        whole = re.fullmatch(r"(?:\w+::from)?\((.*)\)", size, re.S)
        if whole and end_of(size, size.index("(")) == len(size):
            return self.is_bounded(whole[1], function)
        for sign in ("+", "*"):
            split = parts(size, sign)
            if len(split) > 1:
                factors = [it for it in split if sign == "*" and not re.fullmatch(r"[0-9_]+", it)]
                return len(factors) < 2 and all(self.is_bounded(it, function) for it in split)
        less = re.fullmatch(r"(.*)\.(min|max)\((.*)\)", size, re.S)
        if less:
            both = [self.is_bounded(it, function) for it in (less[1], less[3])]
            return any(both) if less[2] == "min" else all(both)
        return self.is_known(size, function)

    def is_known(self, size, function):
        """Whether a size that is no sum, product or bound of others is a number, a constant, a length, a
        count, or a name of one."""
        if re.fullmatch(r"[0-9][0-9_]*", size):
            return int(size.replace("_", "")) <= MOST_NUMBER
        if re.fullmatch(r"[A-Z][A-Z0-9_]*", size):
            return self.constants.get(size, MOST_NAMED + 1) <= MOST_NAMED
        if re.fullmatch(rf"[\w.]+\.(?:len\(\)|(?:{'|'.join(COUNTS)})(?:\(\))?)", size):
            return True
        if not re.fullmatch(r"[a-z_]\w*", size):
            return False
        made = re.findall(rf"\b(?:let|for) (?:mut )?{size}\b|\b{size}\s*(?:[-+*/%|&^]|<<|>>)?=(?!=)",
                          function.text)
        if size in function.arguments and not made:
            is_small = function.takes_self and function.arguments[size] in ("u8", "u16", "u32")
            self.passed_on += [(function, size)] * (not is_small and (function, size) not in self.passed_on)
            return True
        value = re.search(rf"\blet {size}(?:: \w+)? = (.*?);", function.text, re.S)
        return bool(value) and len(made) == 1 and self.is_bounded(value[1], function)

    def look_at(self, size, function, at, what):
        if not self.is_bounded(size, function):
            line = self.codes[function.file].count("\n", 0, function.start + at) + 1
            what = f"{function.file}:{line}: {' '.join(what.split())}"
            self.wrong += [what] * (what not in self.wrong)

    def look_at_requests(self, function):
        """Looks at the sizes that a function asks for memory of."""
        text = function.text
        for found in REQUEST.finditer(text):
            ends = end_of(text, found.end()) if text[found.end() : found.end() + 1] == "(" else None
            arguments = parts(text[found.end() + 1 : ends - 1], ",") if ends else []
            place = REQUESTS[found[1]]
            size = arguments[place] if place < len(arguments) else "?"
            self.look_at(size, function, found.start(), text[found.start() : ends or found.end()])
        self.look_at_repeated(LIST, function)

    def look_at_repeated(self, form, function):
        """Looks at how often lists or arrays of some text repeat a value."""
        for found in form.finditer(function.text):
            ends = end_of(function.text, found.end() - 1)
            inner = parts(function.text[found.end() : ends - 1], ";")
            if len(inner) > 1:
                self.look_at(inner[-1], function, found.start(), function.text[found.start() : ends])

    def look_at_calls(self, callee, argument):
        """Looks at a size that is passed to a function, in each call of it."""
        owner, _, name = callee.name.rpartition("::")
        place, count = ([*callee.arguments].index(argument) - callee.takes_self,
                        len(callee.arguments) - callee.takes_self)
        head = r"\." if callee.takes_self else (rf"\b(?:{owner}|Self)(?:::<[^()]*>)?::" if owner
                                                else r"(?<![\w.:])")
        for function in self.functions:
            for found in re.finditer(rf"{head}{name}(?:::<[^()]*>)?(?=\()", function.text):
                ends = end_of(function.text, found.end())
                arguments = parts(function.text[found.end() + 1 : ends - 1], ",")
                if len(arguments) == count:
                    self.look_at(arguments[place], function, found.start(),
                                 function.text[found.start() : ends])

    def all_wrong(self):
        for name, code in self.codes.items():
            self.look_at_repeated(ARRAY, Function(name, "", {}, 0, code))
        for function in self.functions:
            self.look_at_requests(function)
        for callee, argument in self.passed_on:  # it grows meanwhile
            self.look_at_calls(callee, argument)
        return self.wrong + [f"{file}: {size} is no size there" for file, size in OTHERS if file in self.codes
                             and (file, size) not in self.used]


def wrong_in(name, text):
    """Where a file of this name below crates/ has a name that it may not have."""
    code = COMMENT.sub("", text)
    return [
        f"{name}:{code.count(chr(10), 0, found.start()) + 1}: {found.group()}"
        for word, files in NAMED.items()
        if name not in files
        for found in re.finditer(word, code)
    ]


def main():
    files = {file.relative_to(CRATES).as_posix(): file.read_text()
             for file in sorted(CRATES.glob("*/src/**/*.rt"))}
    wrong = [what for name, text in files.items() for what in wrong_in(name, text)]
    wrong += Sizes(files).all_wrong()
    for what in wrong:
        print(f"a refusal of memory could be made up, or keys be chosen: {what}")
    failed = len({what.split(":")[0] for what in wrong})
    print(f"{len(files) - failed} passed, {failed} failed")
    return 1 if wrong or not files else 0


if __name__ == "__main__":
    sys.exit(main())
