"""A second look at a process with known races. What follows a racy read in its thread counts as ordered
behind the write that it saw, so a known race may hide others. `shb places --list` runs once more over the
run's trace, without the accesses that stand at known places; what it finds besides is real if the known races
are harmless."""

import array
import bisect
import tempfile
from subprocess import PIPE

from shb_common.analyser import Run
from shb_common.children import apart
from shb_record.converting import Listing


def look(conversion, room, accesses, races):
    """The places of the run's trace without the accesses at known places, each a location and a variable of
    the trace, with the events' numbers in the whole trace; and of the known races the accesses of those whose
    second reads what the first wrote."""
    kept_before, seen = array.array("Q"), []
    with Run(conversion.list_words, None, PIPE, **apart()) as ran, \
            Listing(tempfile.TemporaryFile(dir=room), PIPE) as listed:
        listed.give(rest(ran.out, accesses, races, kept_before, seen))
        places = listed.places()

    def in_whole(race):
        return race._replace(events=tuple(kept + bisect.bisect_left(kept_before, kept)
                                          for kept in race.events))
    return [place._replace(variables={name: in_whole(race) for name, race in place.variables.items()})
            for place in places], seen


def rest(lines, accesses, races, kept_before, seen):
    """The lines that aren't left out. `kept_before` gets of each access that is how many events before it
    aren't."""
    watched = {word + name + b")": name for _, name in accesses for word in (b"r(", b"w(")}
    reads = {race.events[1]: race for race in races if race.accesses[1].word == b"r"}
    kept, writes = 0, {}    # by variable: its last one
    for number, line in enumerate(lines, 1):
        _, operation, location = line.split(b"|", 2)
        name = watched.get(operation)
        if name is not None:
            if operation.startswith(b"w"):
                writes[name] = number
            elif number in reads and reads[number].events[0] == writes.get(name):
                seen.append(reads[number].accesses)
            if (location[:-1], name) in accesses:
                kept_before.append(kept)
                continue
        yield line
        kept += 1


def besides(first, second):
    """What a second look alone found: places with the variables that have no race there in either order."""
    known = {(frozenset(place[:2]), name) for place in first for name in place.variables}
    found = []
    for place in second:
        its = {name: race for name, race in place.variables.items()
               if (frozenset(place[:2]), name) not in known}
        if its:
            found.append(place._replace(variables=its))
    return found
