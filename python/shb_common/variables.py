"""The variables of the races at each place."""

import re

# A member of a block's type, followed by the block if a trace has several of the type.
IN_BLOCK = rb"(?s)(.+?) of .+(?::[0-9]+|\+0x[0-9a-f]+)#[0-9]+"
MOST_VARIABLES = 1_000  # of a place, that are kept


def without_end(line):
    """A line without the LF or CR LF that ends it."""
    line = line[:-1] if line.endswith(b"\n") else line
    return line[:-1] if line.endswith(b"\r") else line


def atomic_of(first, second):
    """The atomic of two racing accesses, if any: what a thread T writes atomically to X is named `X!T`."""
    write = first if first.word == b"w" else second
    base, _, thread = write.name.rpartition(b"!")
    return base if base and thread == write.thread else None


def variable_of(race):
    """The variable of a race: an atomic is one, whatever its writers' names."""
    return atomic_of(*race.accesses) or race.accesses[0].name


def without_block(name):
    """The name of a member of a block's type without the block, which differs by run; else the same name."""
    found = re.fullmatch(IN_BLOCK, name) if b"#" in name else None
    return found[1] if found else name


def local_name(variable, events, local_of):
    """A variable as the program has it: the local or the member that it is at all these events."""
    names = {local_of(variable, event) for event in events}
    return without_block(names.pop()) or variable if len(names) == 1 else variable


def name_of(race, local_of):
    return local_name(variable_of(race), race.events, local_of)
