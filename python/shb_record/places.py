"""The places of all runs, and which of them are known."""

import collections
import os
import re

from shb_common import known, places
from shb_common.programs import pair_of
from shb_common.variables import name_of

NAMELESS = b"0x*"
AT_ALL = 0, 0  # stands for two events: what a variable is there it is at all events, in any trace of the run

# What of a place of a process nothing before had: the key of its two locations, the place, and of its new
# variables the names in the trace and on the page.
New = collections.namedtuple("New", "key place variables")


class Places(places.Places):
    """The places of all runs. Of each variable a race is kept, with its events in the whole run; a trace is
    the name of its process and the path of its page's. Of a run that goes on (`is_endless`) only what is new
    at a place is kept, so that they stay few."""

    def __init__(self, given, is_endless=False):
        super().__init__(given)
        self.known_before, self.is_endless = set(), is_endless
        # of such a run: by a program's variable at a place that place's key, and its name on the page
        self.met = {}

    def add_place(self, trace, order, first, second, variables, has_more):
        key = pair_of(order)
        if self.is_endless and key in self.seen:
            variables = {name: race for name, race in variables.items() if self.is_new(key, name)}
            if not variables:
                return key
        return super().add_place(trace, order, first, second, variables, has_more)

    def add_new(self, process, trace, origin, found, numbers, is_behind=False):
        """Takes the places of a process, and returns those that are new, or have a new variable; and all,
        each with its key and the names of its variables in the trace and on the page. `numbers` has the races
        of the page's trace, whose locals are known; `is_behind` says that known races are before them."""
        in_run = [named(place, origin.tables, numbers) for place in found]
        before = {key: set(seen.variables) - seen.behind for key, seen in self.seen.items()}
        keys = self.add((process.name, trace), origin, [place for place, _ in in_run])
        for key, (place, _) in zip(keys, in_run):
            behind = self.seen[key].behind
            if is_behind:
                behind.update(place.variables.keys() - before.get(key, set()))
            else:
                behind.difference_update(place.variables)
        its = [(key, place, names) for key, place, (_, names) in zip(keys, found, in_run)]
        new = [New(key, place, self.new_variables(key, names)) for key, place, names in its]
        if self.is_endless and not is_behind:
            self.met.update((way_to(process, place, raw), (key, name)) for key, place, names in its
                            for raw, name in names.items())
        return [one for one in new if one.variables], its

    def met_in(self, process, found):
        """These places as `add_new` returned them; None if earlier segments hadn't all. A stack may have
        another local in each segment."""
        its = []
        for place in found:
            ways = {raw: self.met.get(way_to(process, place, raw)) for raw in place.variables}
            if place.has_more or not all(ways.values()) or any(raw.startswith(b"stack.") for raw in ways):
                return None
            keys = [key for key, _ in ways.values()]
            its.append((keys[0], place, {raw: name for raw, (_, name) in ways.items()}))
        return its

    def known_in(self, named):
        """The accesses at known places, each a location and a variable of the trace; and the known races."""
        accesses, races = set(), []
        for key, place, names in named:
            sides = tuple(map(self.names.side, key))
            for raw in [raw for raw, name in names.items() if self.given.has(sides, name)]:
                accesses |= {(place.first, raw), (place.second, raw)}
                races.append(place.variables[raw])
        return accesses, races

    def new_variables(self, key, names):
        """Of names in a trace and on the page those that are new on the page, and both of them."""
        new = set()
        for raw, name in names.items():
            if self.is_new(key, name):
                self.known_before.add((key, known.lasting(name)))
                new |= {raw, name}
        return new

    def is_new(self, key, name):
        """In a segment a block that was allocated before one that was dropped has no name but its address:
        that isn't new where blocks race."""
        lasting = known.lasting(name)
        is_lost = (self.is_endless and lasting == NAMELESS
                   and any(re.fullmatch(known.BLOCK, variable) for variable in self.seen[key].variables))
        return not is_lost and (key, lasting) not in self.known_before

    def unknown_of(self, new):
        """Of new places those with a variable that isn't known."""
        return [one for one in new if not self.is_known(one.key)]

    def rows(self):
        """A row for each two locations, with the trace where they were first seen, by their names."""
        return places.in_order(self.row(key, next(iter(seen.traces))) for key, seen in self.seen.items())

    def unknown(self):
        return [row for row in self.rows() if not row.is_known]


def way_to(process, place, variable):
    """Which variable of a program at which place, in each segment alike."""
    return process.program, *place[:2], known.lasting(variable)


def named(place, tables, numbers):
    """A place with its races by the names of their variables on the page; and these by those in the trace."""
    names, variables = {}, {}
    for raw, race in place.variables.items():
        on_page = race._replace(events=numbers.get(race.events, AT_ALL))
        names[raw] = name_of(on_page, tables.local_of)
        variables.setdefault(names[raw], race)
    return place._replace(variables=variables), names


def table(rows):
    """A line for each two locations, below the names of the columns."""
    lines = []
    for row in rows:
        process, trace = row.example
        names = b", ".join(known.written(name) for name, _ in row.variables) + b", .." * row.has_more
        words = row.state(), *map(str, row.race.events), process, os.path.basename(trace)
        lines.append([*row.names, names, *map(os.fsencode, words)])
    return known.table(b"first\tsecond\tvariables\tstate\tevent\tand event\tprocess\ttrace", lines)
