"""The facts of groups. One whose variables differ has a part for those that are alike."""

import collections

from shb_common.result import text
from shb_common.locations import bare
from shb_common.variables import variable_of
from shb_view.facts import RANKS, fact_of, joined, sites_of
from shb_view.groups import Group, Pair, name_parts, object_of
from shb_view.handed import MOST_RACES, handed, published, stores_of
from shb_view.words import Code, listed


# A group with its uses, its lines and its fact, and what else is shown of it: a race with what comes before
# it (`window`); by racing line the stacks of its racing accesses, as `callers_of` returns them, each with how
# many have it, and by stack its `threads`; the pairs of lines of races where the second reads what the first
# wrote (`seen`); the modules without hooks that may order its accesses (`unseen`). `is_behind` says that it
# was found behind known races; groups that aren't asked for are in the page alone.
Section = collections.namedtuple("Section", "group uses sites fact window callers seen unseen is_behind "
                                 "is_asked_for threads", defaults=(None, {}, (), (), False, True, {}))


class Facts:
    """Makes facts of groups. `whole` is what they are of: a trace or a run."""

    def __init__(self, counting, whole):
        self.gathered, self.whole = counting.gathered, whole
        # `known` has by variable what holds of it alone
        self.known, self.are_apart = {}, counting.uses.are_apart
        self.again = counting.again
        self.private = {lock for lock, threads in counting.lockers.items()  # on the stack of a thread that
                        if lock.startswith(b"stack.") and len(threads) == 1}  # alone uses it
        self.refuted = set()  # variables of which a trial says that they race whatever hands them on
        stacks = self.gathered.stacks
        # a spin lock of the program's own can't be seen
        self.word = "mutex" if any(use.kind in (b"exchange", b"update") for use in stacks.uses) else "lock"
        self.pairs = handed(stacks.uses, len(stacks.free_starts) > 0, stacks.lasting_locals)
        self.stores = stores_of(stacks.uses if self.again else ())

    def of(self, group, uses):
        """What holds of a group: of each of its variables in the same form, or of its parts."""
        found = self.of_all(group, uses)
        parts = self.parts(found) if len(group.variables) > 1 else ()
        return found._replace(fact=self.mixed(parts)) if len(parts) > 1 else found

    def of_all(self, group, uses):
        """What holds of a group's uses, whichever variable they are of."""
        sites, locks = sites_of(group, uses, self.private, self.gathered.name, self.word,
                                self.gathered.stacks.others)
        may_hand = self.pairs and not self.has_far(group)
        races = self.gathered.races_at(group.names) if may_hand else {}
        by = published(races, self.pairs, lambda event: self.gathered.stacks.free_of(event) is not None)
        fact, pairs = fact_of(sites, locks, self.whole, by), [pair for pair, _ in by]
        if fact.form == "published":
            fact = fact._replace(handed=((group.names, pairs),))
            if not self.refuted.isdisjoint(group.names) or self.come_again(group.names, races, pairs):
                fact = fact_of(sites, locks, self.whole).refuting(pairs[0])
        return Section(group, uses, sites, self.with_gone(group, fact))

    def has_far(self, group):
        """Whether the page's trace lacks something between the accesses of a race: then it says
        nothing of that."""
        return any(self.are_apart(*race.events) for race in self.gathered.races(group.names))

    def with_gone(self, group, fact):
        """A fact, with the lines that use a local of another thread when that has the system's ones there."""
        owners = {name_parts(name)["base"][len(b"stack."):] for name in group.names
                  if name.startswith(b"stack.")}
        if len(owners) != 1 or fact.form not in ("no-lock", "apart"):
            return fact
        [owner], lines = owners, set()
        for race in self.gathered.races(group.names):
            event, other = race.events if race.threads[0] == owner else race.events[::-1]
            local = self.gathered.stacks.local_of(variable_of(race), event).rpartition(b" of ")[2]
            is_of_system = local and last_name(local) in self.system_at(event)
            if owner in race.threads and is_of_system and not self.system_at(other):
                lines.add(self.gathered.accesses[other].location)
        return fact.of_gone(owner, lines) if lines else fact

    def system_at(self, event):
        """The system's function that an event is in, in a list, or none."""
        return [last_name(frame.function) for frame in self.gathered.stacks.of_event(event)[:1]
                if frame.in_system]

    def come_again(self, names, races, pairs):
        """Whether an access of a race is repeated after a store that the other thread may have
        read by then."""
        does = {race.accesses[0][:2] for its in races.values() for race in its}
        again = [one for name in names for one in self.again.get(name, ()) if (one.thread, one.word) in does]
        stores = [store for pair in pairs for store in self.stores.get(pair.key()[:2], ())]
        return any(one.thread == thread and max(one.since, after) < min(one.event, until)
                   for one in again for thread, after, until in stores)

    def parts(self, found):
        """The variables of a group, those of which the same is said together; none where all have
        the group's form."""
        names, alike = {}, {}
        for name in found.group.names:
            names.setdefault(self.gathered.in_trace(name), []).append(name)
        alone = {variable: self.alone(found, variable, its) for variable, its in names.items()}
        forms = {one.fact.form for one in alone.values()}
        is_whole = found.fact.form == "without" and forms <= {"without", "freed", "sometimes", "apart"}
        if forms == {found.fact.form} or is_whole:
            return ()
        for variable, one in alone.items():
            alike.setdefault((one.fact.form, str(one.fact.tag)), []).append(variable)
        parts = []
        for (form, _), its in alike.items():
            part = part_of(found.group, sum((names[one] for one in its), []), self.gathered)
            together = self.of_all(part, joined(map(found.uses.of, its)))
            parts += [together] if together.fact.form == form else [alone[one] for one in its]
        return sorted(parts, key=lambda one: RANKS[one.fact.form])

    def alone(self, found, variable, names):
        """What holds of one variable, in each group that it is in: only frees are of all variables."""
        if found.uses.frees or variable not in self.known:
            part = part_of(found.group, names, self.gathered)
            self.known[variable] = self.of_all(part, found.uses.of(variable))
        return self.known[variable]

    def mixed(self, parts):
        """What is said of a group whose variables differ: the fact of each part."""
        names = [listed(map(Code, one.group.variables)) for one in parts]
        said = [fact_entry(one, self.gathered) for one in parts]
        sentences = [[*its, ": ", *sentence] for its, one in zip(names, parts)
                     for sentence in one.fact.sentences]
        remedy = [part for its, one in zip(names, parts) if one.fact.remedy
                  for part in ("Of ", *its, ": ", *one.fact.remedy, " ")][:-1]
        first = parts[0].fact
        tag = [*first.tag, " (", *names[0], "; others differ)"]
        return first._replace(form="mixed", said={"parts": said}, tag=tag, sentences=sentences, remedy=remedy,
                              handed=sum((one.fact.handed for one in parts), ()), parts=parts)


def last_name(function):
    """A function's name without what it is a member of."""
    return bare(function).rpartition(b"::")[2]


def fact_entry(one, gathered):
    """The fact of a group, as programs read it: with its variables, the races that were looked at and its
    pairs of lines."""
    races = gathered.races_at(one.group.names).values()
    return {"form": one.fact.form, "group": list(map(text, one.group.names)), **one.fact.said,
            "all_races": sorted(race.events for its in races for race in its[:MOST_RACES]),
            "pairs": [list(map(text, pair)) for pair in sorted(one.group.places())]}


def part_of(group, names, gathered):
    """A group's races of some of its variables, by their names in the trace."""
    found = {race.place for race in gathered.races(names)}
    parts = ((pair, tuple(place for place in pair.places if place in found)) for pair in group.pairs)
    pairs = tuple(Pair(pair.locations, pair.closest, places) for pair, places in parts if places)
    return Group(pairs, tuple(dict.fromkeys(map(gathered.name, names))), tuple(names))


def merged_groups(groups, used, facts):
    """The groups, those of one object as one where the same threads race in it and the same is missing, or
    where a lock of each variable's own is found in all together."""
    found = {}
    for number, group in enumerate(groups):
        one, thing = facts.of(group, used[number]), object_of(group)
        racing = frozenset((thread, thread in site.writers) for site in one.sites if site.partners
                           for thread in site.threads)
        uses = tuple(pair.key() for pair in one.fact.pairs())
        key = ((thing, one.fact.form, one.fact.lock, uses, racing) if thing
               and one.fact.form != "mixed" else number)
        found.setdefault(key, []).append(one)
    merged = [parts[0] if len(parts) == 1 else facts.of(*as_one(parts)) for parts in found.values()]
    things, own = {}, []
    for one in merged:
        thing = object_of(one.group) if one.fact.form == "apart" else None
        things.setdefault(thing or id(one), []).append(one)
    for parts in things.values():
        whole = facts.of(*as_one(parts)) if len(parts) > 1 else None
        own += [whole] if whole and whole.fact.form == "without" else parts
    return own


def as_one(parts):
    """Several groups as one, and how its variables are used."""
    fields = zip(*(part.group for part in parts))
    return Group(*(sum(its, ()) for its in fields)), joined(part.uses for part in parts)
