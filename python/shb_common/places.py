"""The places of several traces and programs: two locations that race, whichever comes first."""

import collections

from shb_common import known
from shb_common.programs import Names, pair_of, sorting


class Row(collections.namedtuple("Row", "key names texts sides variables has_more is_known traces example "
                                        "race is_behind report",
                                 defaults=(False, ""))):
    """Two locations that race, of which all results are written. `key` has the two, each of its own
    program; `names` what they are called over all programs, `texts` how the example has them, `sides` what
    they may be called in a file of known places. `variables` are the names of those that race there, each
    with whether it is known, and `has_more` says whether there are more. So many `traces` have it;
    `example` is the one that is named, and `race` what is known of the race that was seen first.
    `is_behind` says that all unknown variables were found behind known races alone; `report` is the farm's:
    the example's report with schedules, below the folder of the outcomes, or why there is none."""

    def state(self):
        return "known" if self.is_known else "behind" if self.is_behind else "unknown"

    def unknown(self):
        return [name for name, is_known in self.variables if not is_known]


class Seen:
    """What was seen of two locations: how each trace that has them writes them, a race of each variable, and
    whether there are more variables."""

    def __init__(self):
        self.traces, self.variables, self.has_more = {}, {}, False
        self.behind = set()     # variables that were found behind known races alone


class Places:
    """The places of all traces, and those that are known (`given`)."""

    def __init__(self, given):
        self.given, self.names, self.seen = given, Names(), {}

    def add(self, trace, origin, places):
        """Takes the places of a trace, each as `analyser.Place` has it. Returns the key of each."""
        orders = [(origin.location(first), origin.location(second)) for first, second, _, _ in places]
        self.names.add_all(origin)
        return [self.add_place(trace, order, *place) for order, place in zip(orders, places)]

    def add_place(self, trace, order, first, second, variables, has_more):
        key = pair_of(order)
        seen = self.seen.setdefault(key, Seen())
        seen.traces.setdefault(trace, dict(zip(order, (first, second))))
        seen.has_more = seen.has_more or has_more
        for name, race in variables.items():
            seen.variables.setdefault(name, race)
        return key

    def is_known(self, key):
        seen = self.seen[key]
        return self.given.has_all(tuple(map(self.names.side, key)), seen.variables, seen.has_more)

    def row(self, key, example):
        """Two locations, with one of the traces that have them."""
        seen = self.seen[key]
        both = tuple(sorted(key, key=lambda location: (self.names.name(location), sorting(location))))
        sides = tuple(map(self.names.side, both))
        variables = tuple((name, self.given.has(sides, name)) for name in sorted(seen.variables))
        return Row(both, tuple(known.written(self.names.name(location)) for location in both),
                   tuple(seen.traces[example][location] for location in both), sides, variables,
                   seen.has_more, self.is_known(key), len(seen.traces), example,
                   next(iter(seen.variables.values()), None),
                   bool(seen.behind) and all(is_known or name in seen.behind for name, is_known in variables))


def count(places):
    """How many places of a trace these are: the analyser lists one for each order in which two lines race."""
    return len({frozenset(place[:2]) for place in places})


def in_order(rows):
    return sorted(rows, key=lambda row: (row.names, *map(sorting, row.key)))


def unknown_places(rows):
    """The unknown ones as a file of known places has them."""
    return b"".join(
        known.lines_of((row.sides, row.unknown(), row.has_more) for row in rows if not row.is_known))
