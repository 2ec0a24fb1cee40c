"""The traces of a folder: their names, and the text of one that is packed."""

import os

from shb_farm import running

SUFFIXES = (".std", ".std.gz", ".std.xz")
UNPACKERS = {".gz": ["gzip", "-dc"], ".xz": ["xz", "-dcT1"]}
LEADS_OUT = "it is a link that leads out of the folder; --links follows it"
UNPACKING_MIB = 1024    # of address space


def names_in(folder, out, links):
    """The names of all traces below a folder, sorted, with those of links that lead nowhere, which may be
    lost traces; and of these names those of links that lead out of the folder, which aren't followed unless
    `links` says so. Each folder is entered once, by a link only where no folder of this name is there; what
    is below `out` is the farm's own."""
    names, outside, entered, starts, top = set(), set(), set(), [folder], os.path.realpath(folder)
    for start in starts:    # links to folders are added meanwhile
        for path, folders, others in os.walk(start, onerror=refuse):
            real = os.path.realpath(path)
            if real in entered or is_below(real, out):
                folders[:] = []
                continue
            entered.add(real)
            paths = [os.path.join(path, name) for name in sorted(folders + others, key=os.fsencode)]
            far = [link for link in paths if os.path.islink(link) and os.path.exists(link) and not links
                   and not is_below(os.path.realpath(link), top)]
            starts += [link for link in paths if os.path.islink(link) and os.path.isdir(link)
                       and link not in far]
            found = [name for name in paths if not os.path.isdir(name)
                     and (name.endswith(SUFFIXES) or not os.path.exists(name))]
            refused = [link for link in far if os.path.isdir(link)
                       and not is_below(os.path.realpath(link), out) or link in found]
            names |= {os.path.relpath(name, folder) for name in [*found, *refused]}
            outside |= {os.path.relpath(name, folder) for name in refused}
    return sorted(names, key=os.fsencode), outside


def is_below(path, folder):
    return path == folder or path.startswith(folder + os.sep)


def refuse(fault):
    """A folder that can't be read would hide its traces."""
    raise fault


def unpack(words, trace, text, work):
    """Unpacks a trace by a command, within the limits of size and time that the analysis has. Returns how it
    ended, `report` if it is done."""
    limited = work._replace(memory=UNPACKING_MIB)
    answer = running.run(limited, words, trace, text)
    if answer.status > 0:
        return running.End("refused", f"it can't be unpacked: {answer.words}")
    return running.end_of(limited, answer.status, answer.words, os.fstat(text.fileno()).st_size)
