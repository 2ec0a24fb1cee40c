"""Groups of places: pairs of lines that share a racing variable, directly or by other pairs,
are one group."""

import array
import collections
import functools
import re

from shb_common.report import Race
from shb_common.variables import MOST_VARIABLES, atomic_of
from shb_view.held import called
from shb_view.words import Code

MOST_SHOWN = 64  # pairs of a group of which one is shown
# members and indices, looked at as a whole and not without end, so that no name takes long
INSIDE = rb"(?=(?P<inside>(?:\.[A-Za-z_]\w*|\[[0-9]+\]){0,64}(?:\+[0-9]+)?))(?P=inside)"
# The forms of names: what lies on a stack, a member of a block's type, anything else.
NAMES = [re.compile(pattern, re.S) for pattern in (
    rb"(?P<base>stack\..*)(?P<inside>-0x[0-9a-f]+)(?P<block>)(?P<of>)",
    rb"(?P<base>(?:(?! of ).)+?)" + INSIDE + rb"(?P<of> of .*.(?::[0-9]+|\+0x[0-9a-f]+))(?P<block>#[0-9]+)",
    rb"(?P<base>(?:(?! of .).)*?)(?P<block>(?:#[0-9]+)?)" + INSIDE + rb"(?P<of>(?: of .+)?)")]


class Pair:
    """Two lines that race, whichever comes first. `places` has each order in which they are listed, and
    `closest` is the listed race whose events are closest in the trace."""

    __slots__ = "locations", "closest", "places"  # a trace may have very many

    def __init__(self, locations, closest=None, places=()):
        self.locations, self.closest, self.places = locations, closest, places


class Group(collections.namedtuple("Group", "pairs variables names")):
    """`pairs` and `variables` are in the order in which the report names them, the variables those of the
    races that were read. An atomic is one variable, and a local has its own name; `names` are those in the
    trace, which has one for each thread that writes an atomic."""

    def locations(self):
        """The racing lines."""
        return {location for pair in self.pairs for location in pair.locations}

    def closest(self, blamed):
        """The listed race whose events are closest in the trace: one with a schedule if there is one, and at
        the blamed line."""
        return min((pair.closest for pair in self.pairs[:MOST_SHOWN]),
                   key=lambda race: (race.schedule is None, blamed not in race.place, *shown_first(race)))

    def places(self):
        """The pairs of racing lines, in each the lesser first."""
        return {pair.locations for pair in self.pairs}


def shown_first(race):
    first, second = race.events
    return race.schedule is None, second - first, first


class Union:
    """What belongs together, directly or by others."""

    def __init__(self):
        self.above = {}  # of each another one that it belongs to, or itself

    def top(self, one):
        """What stands for all that one belongs to."""
        above = self.above
        while above.setdefault(one, one) is not one:
            above[one] = one = above[above[one]]
        return one

    def join(self, one, other):
        self.above[self.top(one)] = self.top(other)


class Gathered(Union):
    """The races of a report, as pairs and groups: a pair or a variable belongs to its group. It tells what an
    access is, where the trace has it as reads and writes."""

    def __init__(self):
        super().__init__()
        self.atomics = {}  # by a name in the trace: the atomic that it is of
        self.locals = {}  # by a variable on a stack: the local that it is
        self.pairs = {}  # by the two locations, the lesser first
        self.listed = []  # those with a race that may be shown, in the order of the report
        self.accesses = {}  # by event, of the races that were read
        self.events = {}  # by variable: the two events of each of these races, one after the other
        self.loads = set()  # variables, each with a location that only loads it atomically

    def share(self, race):
        """Takes a race of a variable, once."""
        first, second = race.accesses
        atomic = atomic_of(first, second)
        if atomic:
            self.atomics[first.name] = atomic
        self.join(atomic or first.name, self.pair_at(race.place))
        self.accesses.update(race.sides())
        if first.name not in self.events:
            self.events[first.name] = array.array("Q")
        self.events[first.name].extend(race.events)

    def add(self, race):
        """Takes a race that may be shown."""
        place = race.place
        pair = self.pair_at(place)
        if not pair.places:
            self.listed.append(pair)
        if not pair.places or shown_first(race) < shown_first(pair.closest):
            pair.closest = race
        if place not in pair.places:
            pair.places += (place,)

    def pair_at(self, place):
        locations = place if place[0] <= place[1] else place[::-1]
        if locations not in self.pairs:
            self.pairs[locations] = Pair(locations)
        return self.pairs[locations]

    def races(self, names):
        """The races of these variables that were read."""
        for name in names:
            events = iter(self.events.get(name, ()))
            for first, second in zip(events, events):
                yield Race(0, (first, second), (self.accesses[first], self.accesses[second]), None)

    def races_at(self, names):
        """The same by place, those of each in order."""
        found = {}
        for race in self.races(names):
            found.setdefault(race.place, []).append(race)
        return {place: sorted(races, key=lambda race: race.events) for place, races in found.items()}

    def variables(self):
        """By place: the variables of its races, by their names in the trace."""
        found = collections.defaultdict(set)
        for name in self.events:
            for race in self.races([name]):
                found[race.place].add(name)
        return found

    def know(self, stacks):
        """Takes the names of locals once all races are there: of a variable that is the same one at all
        events of its races."""
        self.stacks, self.locks, found = stacks, stacks.lasting_locals, {}
        for name, events in self.events.items():
            variable = self.in_trace(name)
            if variable in stacks.locals:
                names = {stacks.local_of(variable, event) for event in set(events)}
                found.setdefault(variable, set()).update(names)
        self.locals = {variable: names.pop() for variable, names in found.items() if len(names) == 1
                       and b"" not in names}
        self.racing = set(map(self.in_trace, self.events))

    def of(self, number, word, variable):
        """The word of `words.KINDS` for an event."""
        if word != b"w":
            access = self.loads and self.accesses.get(number)
            is_load = access and (self.in_trace(variable), access.location) in self.loads
            return b"l" if is_load else word
        return b"a" if variable in self.atomics else b"f" if self.stacks.free_of(number) is not None else word

    def in_trace(self, variable):
        """The variable as the trace has it; of an atomic that name which its threads have in common."""
        return self.atomics.get(variable, variable)

    def is_in_life(self, number, variable):
        """Whether an event is an access of what the variable is named by: where a local lies other functions
        may have theirs, before and after its own lives."""
        variable = self.in_trace(variable)
        return variable not in self.locals or self.stacks.local_of(variable, number) == self.locals[variable]

    def name(self, variable):
        """The variable as the program has it."""
        variable = self.in_trace(variable)
        return self.locals.get(variable, variable)

    def called(self, number, event):
        """The variable or the lock of an event as the program has it: a variable that races has one name at
        all events."""
        if event.word in (b"acq", b"rel"):
            return called(event.name, self.locks)
        if event.word not in (b"r", b"w"):
            return event.name
        variable, sign, thread = event.name.partition(b"!")
        name = (self.locals.get(variable) if variable in self.racing
                else self.stacks.local_of(variable, number))
        return (name or variable) + sign + thread

    def groups(self):
        """The groups, in the order in which the report names them."""
        found = {}
        for pair in self.listed:
            found.setdefault(self.top(pair), ([], [], []))[0].append(pair)
        for name in self.above:
            if isinstance(name, bytes):
                found[self.top(name)][1].append(self.locals.get(name, name))
        for name in self.events:
            found[self.top(self.in_trace(name))][2].append(name)
        return [Group(tuple(pairs), tuple(dict.fromkeys(variables)), tuple(names))
                for pairs, variables, names in found.values()]


@functools.lru_cache(maxsize=1024)
def name_parts(variable):
    """The parts of a name as the recorder writes it: its `base`, the number of its `block`, what it is
    `inside` there, as members, and the function or the place that it is `of`."""
    return next(filter(None, (pattern.fullmatch(variable) for pattern in NAMES))).groupdict()


def object_of(group):
    """The block or the named object that all variables of a group are in, or None. Stacks have many."""
    parts = [name_parts(variable) for variable in group.variables]
    things = {part["base"] + part["block"] + part["of"] for part in parts}
    is_known = len(things) == 1 and not parts[0]["base"].startswith(b"stack.")
    return things.pop() if is_known else None


def common_name(variables):
    """What stands for some variables, as parts: a name, or the part that they share, and words on how
    many there are. Of a place no more than MOST_VARIABLES are known."""
    if len(variables) == 1:
        return [Code(variables[0])]
    more = " or more" * (len(variables) >= MOST_VARIABLES)
    parts = [name_parts(variable) for variable in variables]
    bases, blocks, insides, functions = ({part[name] for part in parts}
                                         for name in ("base", "block", "inside", "of"))
    if len(bases) > 1 or len(functions) > 1:
        others = [Code(variables[1])] if len(variables) == 2 else [f"{len(variables) - 1}{more} others"]
        return [Code(variables[0]), " and ", *others]
    if len(insides) == 1:
        return [Code(bases.pop() + insides.pop()), f" ({len(variables)}{more} blocks)"]
    shared = bases.pop() + functions.pop() + (blocks.pop() if len(blocks) == 1 else b"")
    return [Code(shared), f" ({len(variables)}{more} variables)"]
