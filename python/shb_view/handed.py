"""What threads hand on by atomics, between the two accesses of a race."""

import collections

from shb_common.variables import variable_of
from shb_view.words import Code

MOST_RACES = 64  # of a place that are looked at
MOST_NAMED = 3  # of a group
NEVER = float("inf")


class Handed(collections.namedtuple("Handed", "store load fence name")):
    """A store, a load that read it or what updates made of it, the event before which the load's thread makes
    the next fence with acquire, and the atomic as the program has it."""

    def seen_from(self, event):
        """The same at an event of the load's thread: a load before a fence with acquire is
        one with acquire."""
        if self.fence > event or self.load.takes():
            return self
        return self._replace(load=self.load._replace(order=b"both" if self.load.gives() else b"acquire"))

    def lacking(self):
        """What is missing for an order, each with what lacks it."""
        return {**({} if self.store.gives() else {"release": ("write", self.store)}),
                **({} if self.load.takes() else {"acquire": ("read", self.load)})}

    def key(self):
        return self.store.name, self.store.location, self.load.location


def may_count(store, load):
    """Whether both update, as a counter is: that hands nothing on but what is freed. An exchange that leaves
    the value as it was, as in a loop for a lock, is such an update too."""
    return load.kind == b"update" and store.kind != b"store"


def handed(uses, has_frees, locals):
    """By the threads of a store and of a load: what was handed on, in the order of the loads. Of a thread's
    stores at one line the last counts. `locals` has the names of atomics on stacks."""
    found, chains = collections.defaultdict(list), {}
    for use, fence in zip(uses, next_fences(uses)):
        # what the atomic has now: the last store of each way
        chain, way = chains.get(use.name, {}), (use.thread, *use[3:6])
        if use.kind != b"store":
            for store in chain.values():
                if (store.thread != use.thread and not (store.gives() and use.takes())
                    and (has_frees or not may_count(store, use))):
                    name = Code(locals.get(use.name, use.name))
                    found[store.thread, use.thread].append(Handed(store, use, fence, name))
        if use.kind in (b"store", b"exchange"):
            chains[use.name] = {way: use}
        elif use.kind == b"update":
            chains[use.name] = {**chain, way: use}
    return found


def stores_of(uses):
    """By atomic and location its stores and updates: the thread, and the two events between which each is."""
    found, last = collections.defaultdict(list), {}
    for use in uses:
        if use.kind not in (b"load", b"fence"):
            after = last.get(use[1:4], 0) if use.is_again else use.event - 1
            found[use.name, use.location].append((use.thread, after, use.event))
            last[use[1:4]] = use.event
    return found


def next_fences(uses):
    """For each use the event before which its thread makes its next fence with acquire."""
    found, fences = [], {}
    for use in reversed(uses):
        found.append(fences.get(use.thread, NEVER))
        if use.kind == b"fence":
            fences[use.thread] = use.event
    return reversed(found)


def between(pairs, race, is_free):
    """What was handed on without an order between two accesses of a race: the store is after the first, the
    load before the second."""
    found, (first, second) = {}, race.events
    for pair in pairs:
        store, load = pair.store, pair.load
        if (store.event > first and load.event <= second and (is_free or not may_count(store, load))
            and store.name != variable_of(race)):
            pair = pair.seen_from(second)
            if pair.lacking():
                found.setdefault((pair.key(), *store[4:6], *pair.load[4:6]), pair)
    return found


def published(races, pairs, frees):
    """Where between the two accesses of each race one and the same atomic was handed on, for each place: what
    the first such race has, and the events of those races. `races` are a group's by place, `frees` says
    whether an event is a free."""
    found = {}
    for its in races.values():
        common = None
        for race in its[:MOST_RACES]:
            if frees(race.events[0]):  # in whatever order, what follows uses what was freed
                return []
            new = between(pairs.get(race.threads, ()), race, frees(race.events[1]))
            common = new if common is None else {key: pair for key, pair in common.items() if key in new}
            if not common:
                return []
        pair = min(common.values(), key=lambda it: (it.store.event, it.load.event))
        _, events = found.setdefault(pair.key(), (pair, []))
        events.extend(race.events for race in its[:MOST_RACES])
    return list(found.values())[:MOST_NAMED]
