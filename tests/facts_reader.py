"""A second reader of the facts: it knows what docs/FORMATS.md says of each form, and looks through the whole
trace for each word. It shares no code with the view."""

import bisect
import collections
import itertools
import re
import struct

KNOWN = ("mixed", "published", "freed", "plain", "uncounted", "read-lock", "without", "sometimes", "apart",
         "no-lock", "ordered")
NUMBERS = re.compile(r"(?<=#)[0-9]+|(?<=\[)[0-9]+(?=\])")  # of a block, and of an element
MOST_CHOICES = 4_096  # of a lock for each variable
READER = re.compile(r"(.+)@reader\..+", re.S)
STAND_IN = re.compile(r".+@[0-9]+(?:[<>].+)?", re.S)
Use = collections.namedtuple("Use", "event name thread location kind order again", defaults=("",))
# `count` is 1 of an event, and more where they are of the sums of a file of uses, and have no number.
Access = collections.namedtuple("Access", "number thread word name location held shared is_free is_atomic "
                                          "local count")
Named = collections.namedtuple("Named", [*Access._fields, "variable"])


class Reader:
    def __init__(self, trace, stacks=None, uses=None):
        """The bytes of a trace, those of its file of stacks, and those of the uses of the run that it is
        a part of."""
        self.uses, self.frees, self.locals = [], [], collections.defaultdict(list)
        # of the uses: their events, in order; their places, of fences without a name
        self.events, self.by_name = [], collections.defaultdict(list)
        self.parts, self.repeated, self.again = [], set(), {}
        lines = [line.rstrip("\r") for line in trace.decode("latin-1").split("\n")]
        self.lines = events = list(filter(None, lines))
        # the system's function of a frame, of a stack's innermost
        self.frames, self.innermost, self.numbers = [], {}, ()
        if stacks:
            begin = 34 + 4 * int(stacks[13:33])
            self.numbers = [number for [number] in struct.iter_unpack("<I", stacks[34:begin])]
            self.read_stacks(stacks[begin:].decode("latin-1"))
        lasting = {name: {local for _, local in found} for name, found in self.locals.items()}
        lasting = {name: found.pop() for name, found in lasting.items() if len(found) == 1 and found != {""}}
        held, self.traced = collections.defaultdict(lambda: collections.defaultdict(int)), []
        self.lasting = lasting
        lockers = collections.defaultdict(set)
        for number, line in enumerate(events, 1):
            thread, operation, location = (line.split("|", 2) + [""])[:3]
            word, _, name = operation.partition("(")
            name = name[:-1]
            if word in ("acq", "rel"):
                if not STAND_IN.fullmatch(name):
                    lockers[lock_of(name, lasting)].add(thread)
                    held[thread][lock_of(name, lasting)] += 1 if word == "acq" else -1
            elif word in ("r", "w"):
                locks = {lock for lock, count in held[thread].items() if count > 0}
                is_free = word == "w" and any(first <= number <= last for first, last in self.frees)
                self.traced.append(Access(number, thread, word, name, location, *told_apart(locks), is_free,
                                          word == "w" and name.endswith("!" + thread),
                                          self.local_of(name, number), 1))
        self.private = {lock for lock, its in lockers.items() if lock.startswith("stack.") and len(its) == 1}
        self.counted = (list(self.uses_of_run(uses.decode("latin-1"), lasting)) if uses is not None
                        else self.traced)

    def uses_of_run(self, text, lasting):
        for line in text.split("\n"):
            kind, *fields = line.split("\t")
            if kind == "part":
                self.parts.append(int(fields[0]))
            elif kind == "repeated":
                self.repeated.add(int(fields[0]))
            elif kind == "use":
                word, name, local, location, *sums = fields
                is_local = name.startswith("stack.")
                for count, thread, locks in accesses_of(
                    list(zip(sums[::3], map(int, sums[1::3]), sums[2::3]))):
                    yield Access(None, thread, "r" if word in "rlR" else "w", name, location,
                                 *(frozenset(lasting.get(lock, lock) for lock in its) for its in locks),
                                 word == "f", word in "al", local if is_local else lasting.get(name, ""),
                                 count)

    def read_stacks(self, text):
        for line in text.split("\n"):
            kind, _, rest = line.partition(" ")
            if kind == "use":
                event, name, thread, location, how = rest.split("\t")
                self.by_name[name].append(len(self.uses))
                self.events.append(int(event))
                self.uses.append(Use(int(event), name, thread, location, *how.split(" ")))
            elif kind in ("frame", "system-frame"):
                self.frames.append(last_name(rest.split("\t")[0]) if kind == "system-frame" else None)
            elif kind == "stack":
                number, outer, *frames = map(int, rest.split())
                self.innermost[number] = self.frames[frames[0] - 1] if frames else self.innermost.get(outer)
            elif kind == "again":
                block, event, thread, freed = rest.split("\t")
                self.again[block] = int(event), thread, freed
            elif kind == "free":
                self.frees.append(tuple(map(int, rest.split(" "))))
            elif kind == "local":
                event, variable, name = rest.split("\t")
                self.locals[variable].append((int(event), name))

    def system_at(self, event):
        """The system's function that an event is in, or None."""
        return self.innermost.get(self.numbers[event - 1]) if self.numbers else None

    def local_of(self, variable, number):
        found = ""
        for event, name in sorted(self.locals[variable], key=lambda it: it[0]):
            if event <= number:
                found = name
        return found

    def faults(self, groups):
        """What is wrong in the facts of some groups: each a fact with the pairs of lines of its group."""
        for fact, pairs in groups:
            yield from (f"{fact['form']} of {fact['group'][:3]}: {fault}"
                        for fault in Group(self, fact, pairs).faults())


class Clocks:
    """By thread how many events of each it knows; and by what is given on the clock of its giver."""

    def __init__(self):
        self.of, self.given = collections.defaultdict(collections.Counter), {}
        self.accesses = collections.defaultdict(list)

    def give(self, thread, what):
        self.given[what] = self.of[thread].copy()

    def take(self, thread, clock):
        self.of[thread] |= clock or collections.Counter()

    def event(self, line, part):
        """Takes an event, and says whether it is an access that races with an earlier one of its part."""
        thread, operation = line.split("|")[:2]
        word, name = operation.rstrip(")").partition("(")[::2]
        races = False
        if word in ("r", "w"):
            races = any(other != thread and "w" in word + does and its == part
                        and self.of[thread][other] < time for other, does, its, time in self.accesses[name])
            self.accesses[name].append((thread, word, part, self.of[thread][thread] + 1))
        self.of[thread][thread] += 1
        if word in ("acq", "r"):
            self.take(thread, self.given.get((word, name)))
        elif word in ("rel", "w"):
            self.give(thread, ({"rel": "acq", "w": "r"}[word], name))
        elif word == "fork":
            self.take(name, self.of[thread])
        elif word == "join":
            self.take(thread, self.of[name])
        return races


def last_name(function):
    return re.sub(r"[<(].*", "", function).rpartition("::")[2]


def lock_of(name, lasting):
    """A lock as the program has it: one on a stack by the local that it is."""
    base, sign, rest = name.partition("@")
    return lasting.get(base, base) + sign + rest


def accesses_of(sums):
    """Accesses that these sums may be of: how many, by which thread, and with which locks. Each of those that
    hold some has one, and locks that differ by digits alone are held one after the other."""
    def of(*kinds):
        return [(name, count) for kind, count, name in sums if kind in kinds]

    ends = list(itertools.accumulate(count for _, count in of("by")))
    bare, held = (sum(count for _, count in of(*kinds)) for kinds in (("bare",), ("held", "many")))
    arcs, at = [], 0  # from an access on, of those that hold locks, which begin again behind the last
    for kind, count, name in sorted((sum for sum in sums if sum[0] in ("under", "reading")),
                                    key=lambda it: (re.sub("[0-9]", "", it[2]), it)):
        arcs.append((kind, name, at, count))
        at = (at + count) % held
    bounds = sorted({0, bare, bare + held, *ends, *(bare + place % held for _, _, start, count in arcs
                                                    for place in (start, start + count))})
    for begin, end in zip(bounds, bounds[1:]):
        thread = of("by")[bisect.bisect(ends, begin)][0]
        its = [(kind, name) for kind, name, start, count in arcs if begin >= bare
               and (begin - bare - start) % held < count]
        yield (end - begin,
               thread, [{name for kind, name in its if kind == which} for which in ("under", "reading")])


def told_apart(locks):
    """Locks that are held, and those that are held for reading."""
    shared = {lock for lock in locks if READER.fullmatch(lock)}
    return frozenset(locks - shared), frozenset(READER.fullmatch(lock)[1] for lock in shared)


def is_beside(locks, variables, lasting):
    """Whether each variable and its lock are members of one object: their names have the same begin, and a
    block or a function in common."""
    def thing(name):
        found = re.fullmatch(r"(.*?)((?:\.[A-Za-z_]\w*|\[[0-9]+\])*(?:\+[0-9]+)?)( of .+?)?(#[0-9]+)?", name,
                             re.S)
        two = re.fullmatch(r"(.+#[0-9]+)((?:\.[A-Za-z_]\w*|\[[0-9]+\])*(?:\+[0-9]+)?)", name, re.S)
        found = (two[1], two[2]) if two and two[2] else (found[1], found[2], found[3], found[4])
        return (found[0], *found[2:]) if found[1] and not name.startswith("stack.") else None
    named = {variable: thing(lasting.get(variable, variable)) for variable in variables}
    return all(variable in locks and its and its == thing(locks[variable]) for variable, its in named.items())


def element_of(name):
    """What a member is of, as a[3] of a[3].sum; or its name."""
    found = re.fullmatch(r"(.*?)\.[A-Za-z_]\w*( of .+)?", name, re.S)
    return found.groups() if found else name


class Group:
    """A fact with its group. `traced` are the accesses of its variables that the trace has, `all` those that
    facts count. The name of what a thread writes atomically is that of the atomic here."""

    def __init__(self, reader, fact, pairs):
        self.reader, self.fact, self.pairs = reader, fact, {frozenset(pair) for pair in pairs}
        self.lines = set().union(*self.pairs)
        self.atomics = {name.rpartition("!")[0] for name in fact["group"] if "!" in name}
        self.traced, self.all = self.those(reader.traced), self.those(reader.counted)
        self.variables = {access.variable for access in self.all if access.location in self.lines}

    def those(self, accesses):
        """A variable on a stack is a local where it is that one at all its races; else all accesses count."""
        names, locals = {*self.fact["group"], *self.atomics}, self.fact.get("locals", {})
        return [Named(*access, self.base(access.name)) for access in accesses
                if access.name in names
                and (not locals.get(access.name) or access.local == locals[access.name])]

    def base(self, name):
        base = name.rpartition("!")[0]
        return base if base and base in self.atomics else name

    def is_atomic(self, access):
        return access.is_atomic and (access.number is None or access.variable in self.atomics)

    def at(self, line):
        return [access for access in self.all if access.location == line]

    def racing(self):
        return [access for access in self.all if access.location in self.lines]

    @staticmethod
    def locks(access):
        """Those that an access holds: a read holds one for reading too."""
        return access.held | access.shared if access.word == "r" else access.held

    def has(self, access, lock):
        return lock is not None and lock in self.locks(access)

    def faults(self):
        form = self.fact["form"]
        if form not in KNOWN:
            yield "no such form"
            return
        yield from getattr(self, "check_" + form.replace("-", "_"))()
        yield from self.check_trials()
        if form != "mixed" and len(self.variables) > 1:
            yield from self.check_alone()
        if "also" in self.fact:
            self.fact = {**self.fact, **self.fact["also"]}
            yield from self.check_without()
            self.fact = {**self.fact, "form": form}
        for earlier in KNOWN[:KNOWN.index(form)]:
            applies = getattr(self, "has_" + earlier.replace("-", "_"), None)
            if applies and applies():
                yield f"{earlier} comes first, and holds"

    # ---- trials: the trace with a remedy in it ----
    def races_left(self, keys=(), moved=()):
        """Whether a variable of the group races, with an order at some atomics, and some events moved."""
        clocks, reader, orders, found = Clocks(), self.reader, self.orders(set(keys)), False
        for number in range(1, len(reader.lines) + 2):
            for thread, does, what in orders.get(number, ()):
                clocks.give(thread, what) if does == "give" else clocks.take(thread, clocks.given.get(what))
            own = [number] if number not in dict(moved) and number <= len(reader.lines) else []
            here = [*(event for event, before in moved if before == number), *own]
            for line in filter(self.is_kept, [reader.lines[event - 1] for event in here]):
                found = clocks.event(line, bisect.bisect(reader.parts, number)) or found
        return found

    def is_kept(self, line):
        word, _, name = line.split("|")[1].partition("(")
        return word not in ("r", "w") or name[:-1] in self.fact["group"]

    def orders(self, keys):
        """By the event before which it is done: what stores give, and loads that read them take."""
        found = collections.defaultdict(list)
        for at, use in enumerate(self.reader.uses):
            its = self.sources(at, -1) if use.kind in ("load", "exchange", "update") else ()
            found[use.event] += [(use.thread, "take", id(store)) for store in its
                                 if (store.name, store.location, use.location) in keys]
            if use.kind in ("store", "exchange", "update"):
                found[use.event].append((use.thread, "give", id(use)))
        return found

    def check_trials(self):
        """A remedy that was tried leaves no race; one that was refuted leaves one, or may."""
        fact = self.fact
        keys = {(by["atomic"], by["store"]["location"], by["load"]["location"]) for by in fact.get("by", ())}
        if fact.get("is_tried") and (self.races_left(keys) or self.comes_again(keys)):
            yield "the remedy leaves a race"
        if "moved" in fact and self.races_left((), fact["moved"]):
            yield "the move leaves a race"
        if fact.get("is_refuted") and not self.has_refuted():
            yield "no remedy is refuted"
        if fact["form"] in ("no-lock", "apart") and set(fact.get("gone", ())) != self.gone():
            yield "other lines use what is gone"

    def gone(self):
        """The lines that use another thread's stack in a race with a local of a system's function there."""
        owners = {name.rpartition("-0x")[0] for name in self.fact["group"] if name.startswith("stack.")}
        found = set()
        by_number = {access.number: access for access in self.traced}
        for race in self.races_of_form() if len(owners) == 1 else ():
            for owner, user in itertools.permutations(by_number[event] for event in race):
                system = self.reader.system_at(owner.number)
                if {f"stack.{owner.thread}"} == owners and system and not self.reader.system_at(user.number):
                    local = self.reader.local_of(owner.name, owner.number)
                    found.update([user.location] * (last_name(local.rpartition(" of ")[2]) == system))
        return found

    def has_refuted(self):
        """Whether the release and acquire that would be told leave a race, or may."""
        keys = {key[:3] for found in self.common_of_places() for key in found}
        return bool(keys) and (self.races_left(keys) or self.comes_again(keys))

    def comes_again(self, keys):
        """Whether an access that races was repeated, with a store of its thread between the last one
        alike and it."""
        by_number = {access.number: access for access in self.traced}
        racing = {(by_number[event].thread, by_number[event].word) for event, _ in self.races_of_form()}
        stores = [use for use in self.reader.uses
                  if use.kind != "load" and (use.name, use.location) in {key[:2] for key in keys}]
        last, moments = {}, collections.defaultdict(set)  # the events before which a thread may store
        for use in stores:
            from_event = last.get(use[1:4], 0) + 1 if use.again else use.event
            moments[use.thread].update(range(from_event, use.event + 1))
            last[use[1:4]] = use.event
        for access in self.traced:
            since, last[access[1:5]] = last.get(access[1:5], 0), access.number
            is_repeated = access.number in self.reader.repeated and (access.thread, access.word) in racing
            if is_repeated and not moments[access.thread].isdisjoint(range(since + 1, access.number + 1)):
                return True
        return False

    def alone(self, names):
        """The same of some of the variables, by their names in the trace."""
        named = {access.number: access.name for access in self.traced}
        races = [race for race in self.races_of_form() if named.get(race[0]) in names]
        lines = {access.number: access.location for access in self.traced}
        return Group(self.reader, {**self.fact, "group": names, "all_races": races},
                     {(lines[first], lines[second]) for first, second in races})

    def check_alone(self):
        """A fact holds of each variable in the same form: no earlier one holds of one of them alone."""
        for variable in {self.base(name) for name in self.fact["group"]}:
            one, form = (self.alone([name for name in self.fact["group"] if self.base(name) == variable]),
                         self.fact["form"])
            for earlier in KNOWN[1:KNOWN.index(form)]:
                if (earlier, form) == ("freed", "without"):  # of all together
                    continue
                applies = getattr(one, "has_" + earlier.replace("-", "_"), None)
                if one.pairs and applies and applies():
                    yield f"{earlier} comes first of {variable}, and holds"

    # ---- mixed: parts with a fact each ----
    def check_mixed(self):
        parts = self.fact["parts"]
        names = [name for part in parts for name in part["group"]]
        if sorted(names) != sorted(self.fact["group"]) or len(parts) < 2:
            yield "not the variables"
        if {frozenset(pair) for part in parts for pair in part["pairs"]} != self.pairs:
            yield "not the pairs of lines"
        if (len({part["form"] for part in parts}) < 2
            and len({repr({**part, "group": 0, "pairs": 0, "all_races": 0}) for part in parts}) < 2):
            yield "the parts are alike"
        if {part["form"] for part in parts} == {"without"} and self.has_without():
            yield "without holds of all, with a lock of each variable's own"
        for part in parts:
            yield from (f"{part['group'][:2]}: {fault}"
                        for fault in Group(self.reader, {**self.fact, **part}, part["pairs"]).faults())

    # ---- published: between the two accesses of each race one and the same atomic was handed on, without an
    # order ----
    def order(self, at, event):
        """The order of a load, as it is seen from an event of its thread: one before a fence with acquire is
        one with acquire."""
        load, fences = self.reader.uses[at], self.reader.by_name[""]
        is_fenced = any(fence > at and self.reader.uses[fence].thread == load.thread
                        and self.reader.uses[fence].event <= event for fence in fences)
        return ({"relaxed": "acquire", "release": "both"}.get(load.order, load.order) if is_fenced
                else load.order)

    def sources(self, at, event):
        """The stores and updates after an event that left what the load at this place in the list reads, or
        of which updates made it."""
        places = self.reader.by_name[self.reader.uses[at].name]
        for place in range(bisect.bisect_left(places, at) - 1, -1, -1):
            use = self.reader.uses[places[place]]
            if use.event <= event:
                return
            if use.kind in ("store", "exchange", "update"):
                yield use
            if use.kind in ("store", "exchange"):
                return

    def handed(self, first, second):
        """All that was handed on between two accesses, as (name, line, line, kind, kind, order, order)."""
        found, uses = set(), self.reader.uses
        if len({bisect.bisect(self.reader.parts, access.number) for access in (first, second)}) > 1:
            return found  # something between them isn't there
        begin, end = (bisect.bisect_right(self.reader.events, access.number) for access in (first, second))
        for at in range(begin, end) if not first.is_free else ():
            load = uses[at]
            if (load.kind in ("load", "exchange", "update") and load.thread == second.thread
                and load.name != first.variable):
                stores = [store for store in self.sources(at, first.number) if store.thread == first.thread]
                load = load._replace(order=self.order(at, second.number)) if stores else load
                found.update((store.name, store.location, load.location, store.kind, load.kind, store.order,
                              load.order) for store in stores
                             if self.misses(store, load)
                             and (second.is_free or load.kind != "update" or store.kind == "store"))
        return found

    @staticmethod
    def misses(store, load):
        return [order for order, has in (("release", store.order in ("release", "both")),
                                         ("acquire", load.order in ("acquire", "both"))) if not has]

    def check_published(self):
        by_number, places = {access.number: access for access in self.traced}, set()
        for by in self.fact["by"]:
            store, load = (Use(use["event"], by["atomic"], use["thread"], use["location"], use["kind"],
                               use["order"]) for use in (by["store"], by["load"]))
            uses = [use._replace(again="") for use in self.reader.uses]
            if store not in uses or load._replace(order="") not in [use._replace(order="") for use in uses]:
                yield "no such use"
            if by["missing"] != self.misses(store, load) or not by["missing"]:
                yield "missing is wrong"
            for first, second in by["races"]:
                first, second = by_number.get(first), by_number.get(second)
                if (not first or not second or first.thread == second.thread
                    or "w" not in first.word + second.word):
                    yield "no race"
                elif ((by["atomic"], store.location, load.location, store.kind, load.kind, store.order,
                       load.order) not in self.handed(first, second)):
                    yield f"nothing is handed on between {first.number} and {second.number}"
                else:
                    places.add(frozenset((first.location, second.location)))
        if places != self.pairs:
            yield "not of each place"
        if (any(by["store"]["kind"] == "update" for by in self.fact["by"]) and self.has_without()
            and not self.has_read_lock()):
            yield "an update, beside a lock"

    def races_of_form(self):
        return [tuple(race) for race in self.fact.get("all_races", ())]

    def common_of_places(self):
        """Of each place what is handed on between the accesses of each of its races."""
        by_number, common = {access.number: access for access in self.traced}, {}
        for first, second in self.races_of_form():
            one, other = by_number[first], by_number[second]
            found = self.handed(one, other)
            key = one.location, other.location
            common[key] = common[key] & found if key in common else found
        return list(common.values())

    def has_published(self):
        common = self.common_of_places()
        if self.fact["form"] == "without":  # beside a lock an update hands nothing on
            common = [found if all(key[3] != "update" for key in found) else () for found in common]
        return bool(common) and all(common) and not self.fact.get("is_refuted")

    # ---- freed ----
    def check_freed(self):
        frees = set(self.fact["frees"])
        if "is_again" in self.fact:
            yield from self.check_again(frees)
            return
        for line in frees:
            if not any(access.is_free for access in self.at(line)) or line not in self.lines:
                yield f"no free at {line}"
        if frees != {access.location for access in self.racing() if access.is_free}:
            yield "not all frees"
        if self.has_without(are_kept=True):
            yield "a lock tells the frees and the uses apart"
        if set(self.fact["uses"]) != {line for pair in self.pairs if pair & frees and len(pair) == 2
                                      for line in pair
                                      if any(other in frees for other in pair - {line})}:
            yield "other uses"
        yield from self.check_after()

    def check_again(self, frees):
        found = self.stale()
        if not found or set(found) != set(self.fact["after"]):
            yield f"nothing orders {sorted(found)} behind the allocation"
        if frees != set(found.values()):
            yield "freed elsewhere"

    def stale(self):
        """The racing lines with an access that nothing orders behind its block's allocation, each with where
        the one was freed that had been there."""
        clocks, reader, given, found = Clocks(), self.reader, {}, {}
        mine = {access.number: access for access in self.traced if access.location in self.lines}
        for number, line in enumerate(reader.lines, 1):
            given.update({block: (thread, clocks.of[thread][thread], freed)
                          for block, (event, thread, freed) in reader.again.items() if event == number})
            access = mine.get(number)
            of_block = re.search("#([0-9]+)", access.name) if access else None
            if of_block and of_block[1] in given:
                thread, time, freed = given[of_block[1]]
                if access.thread != thread and clocks.of[access.thread][thread] <= time:
                    found[access.location] = freed
            clocks.event(line, 0)
        return found

    def check_after(self):
        for line in self.fact["after"]:
            if not any(free.is_free and not use.is_free and free.number < use.number
                       and free.thread != use.thread and free.variable == use.variable
                       and frozenset((free.location, use.location)) in self.pairs for free in self.traced
                       for use in self.traced if use.location == line):
                yield f"no use at {line} after a free"

    def has_freed(self):
        return any(access.is_free for access in self.racing()) and not self.has_without(are_kept=True)

    # ---- plain: some racing lines write atomically, others never ----
    def check_plain(self):
        atomic, plain = set(self.fact["atomic"]), set(self.fact["plain"])
        if atomic != {access.location for access in self.racing() if self.is_atomic(access)}:
            yield "other lines write atomically"
        if atomic & plain or atomic | plain != self.lines or not plain:
            yield "not the racing lines"

    def has_plain(self):
        atomic = {access.location for access in self.racing() if self.is_atomic(access)}
        return bool(atomic) and atomic != self.lines

    def check_uncounted(self):
        return ()

    # ---- locks: a free is no access here ----
    def used(self, line=None):
        return [access for access in self.all if not access.is_free
                and (line is None or access.location == line)]

    def used_racing(self):
        return [access for access in self.used() if access.location in self.lines]

    def check_name(self):
        """A lock has its own name, but where variables have different ones: numbers of blocks and elements
        are `*` then. It is that lock of its kind which is in the variable's element, or which most of its
        accesses hold."""
        of, name = self.fact["locks"], self.fact["name"]
        if not all(map(self.may_be_rule, of.values())):
            yield "the lock is no rule"
        if name != (min(of.values()) if len(set(of.values())) < 2 else NUMBERS.sub("*", min(of.values()))):
            yield f"{name} isn't the name of {of}"
        for variable in of if len(set(of.values())) > 1 else ():
            held = collections.Counter()
            for access in self.all:
                if access.variable == variable and not access.is_free:
                    for lock in access.held | access.shared:
                        held[lock] += access.count
            if (any(count > held[of[variable]] for lock, count in held.items()
                    if NUMBERS.sub("*", lock) == name) and not self.is_merged()
                and element_of(of[variable]) != element_of(self.reader.lasting.get(variable, variable))):
                yield f"{of[variable]} isn't the lock that most accesses of {variable} hold"

    def may_be_rule(self, lock):
        """Whether a lock isn't one thread's alone, nor in a block while a variable is global."""
        has_global = any("#" not in name and not name.startswith("stack.") for name in self.variables)
        return lock not in self.reader.private and not (has_global and "#" in lock)

    def is_merged(self):
        """Whether several events may be one access, so that counts differ."""
        return bool(self.atomics or self.reader.frees)

    def check_read_lock(self):
        yield from self.check_name()
        for line in self.fact["lines"]:
            if (not any(access.word == "w" and self.fact["locks"].get(access.variable) in access.shared
                        for access in self.used(line)) or line not in self.lines):
                yield f"no write under a read lock at {line}"

    def has_read_lock(self):
        return any(access.word == "w" and access.shared for access in self.used_racing())

    def check_without(self):
        yield from self.check_name()
        fact, of = self.fact, self.fact["locks"]
        lines, some, holding = set(fact["lines"]), set(fact["sometimes"]), set(fact["holding"])
        uses = self.all if "frees" in fact else self.used()  # a free under the lock is a write
        holds = {access: self.has(access, of.get(access.variable)) for access in uses}
        if (not lines or not lines <= self.lines or not self.lines <= lines | holding or lines & holding
            or not holding or not some <= lines):
            yield "not the lines"
        is_bare = not any(access.held or access.shared for line in lines for access in self.used(line))
        if not is_bare and not some and len(holding) <= len(lines):
            yield "the lines hold other locks, and are not fewer"
        if not self.is_beside(of) and not any(access.word == "w" for line in holding
                                              for access in self.at(line)) and any(
                access.word == "r" for line in lines for access in self.used(line)):
            yield "readers alone hold it"
        if (len(set(of.values())) > 1
            and len({re.sub(r"(#|\[)[0-9]+", r"\1", lock) for lock in of.values()}) > 1):
            yield "locks of several kinds"
        for variable in self.variables:
            if not any(held for access, held in holds.items() if access.variable == variable):
                yield f"no access of {variable} holds its lock"
        for line in lines - some:
            if any(held for access, held in holds.items() if access.location == line):
                yield f"{line} holds it"
        for line in some:
            if len({held for access, held in holds.items() if access.location == line}) != 2:
                yield f"{line} doesn't hold it at times"
        for line in holding:
            if (not all(held for access, held in holds.items() if access.location == line)
                or not (self.used(line) or line in fact.get("frees", ()))):
                yield f"{line} doesn't hold it always"
        scope = fact["scope"]
        said = {"writes": lambda access: access.word == "w", "reads": lambda access: access.word == "r",
                "all": lambda access: access.location not in lines,
                "lines": lambda access: access.location in holding}[scope]
        if (not all(held for access, held in holds.items() if said(access))
            or not any(said(access) for access in holds)):
            yield f"not all {scope} hold it"
        if scope in ("writes", "reads") and any(said(access) for line in lines for access in self.used(line)):
            yield f"the lines are no others than {scope}"
        yield from self.check_held(fact["instead"], lines)
        if "frees" in fact:
            yield from self.check_after()
        if "check" in fact:
            read, act = fact["check"]
            if (read not in lines or any(access.word != "r" for access in self.used(read))
                or not all(holds[access] for access in uses if access.location == act)):
                yield "no read before an act"

    def is_beside(self, of):
        return is_beside(of, self.variables, self.reader.lasting)

    def check_held(self, held, lines):
        """Locks that are held at each access of a line."""
        for line, locks in held.items():
            for of in locks:
                if (not self.used(line)
                    or not all(self.has(access, of.get(access.variable)) for access in self.used(line))):
                    yield f"{line} doesn't hold {of}"
        for line in lines:
            every = [self.locks(access) for access in self.used(line)]
            if len(self.variables) == 1 and every and frozenset.intersection(*every) != {
                lock for of in held.get(line, ()) for lock in of.values()}:
                yield f"{line} holds others"

    def has_without(self, are_kept=False):
        """Whether locks of one kind, one for each variable, are held at each access of some lines, and all
        racing lines without them hold none, or hold these at times, or are fewer. With `are_kept` frees are
        accesses, and all of them hold one lock, or none these."""
        kinds = collections.defaultdict(lambda: collections.defaultdict(set))
        for access in self.all if are_kept else self.used():
            for lock in filter(self.may_be_rule, access.held | access.shared):
                if are_kept and lock.startswith("0x"):
                    continue
                kinds[re.sub(r"(#|\[)[0-9]+", r"\1", lock)][access.variable].add(lock)
        frees = [access for access in self.racing() if access.is_free] if are_kept else ()
        choices = (dict(zip(by, locks)) for by in kinds.values() if self.variables <= set(by)
                   for locks in itertools.islice(itertools.product(*by.values()), MOST_CHOICES))
        return any({self.has(free, of.get(free.variable)) for free in frees} in (
                       set(), {False}, {len(set(of.values())) == 1})
                   and self.is_without(of, self.all if are_kept else self.used()) for of in choices)

    def is_without(self, of, uses):
        by_line = collections.defaultdict(list)
        for access in uses:
            by_line[access.location].append(self.has(access, of.get(access.variable)))
        holding = [line for line in by_line if all(by_line[line]) and not self.fills(line)]
        lacking = [line for line in self.lines if not all(by_line[line])]
        bare = all(not access.held and not access.shared for access in uses if access.location in lacking)
        words = lambda lines: {access.word for access in uses if access.location in lines}
        holders = {access.variable for access in uses if access.location in holding}
        return bool(holding and lacking) and self.variables <= holders and (
            "w" in words(holding) or "r" not in words(lacking) or self.is_beside(of)) and (
            bare or any(any(by_line[line]) for line in lacking) or len(holding) > len(lacking)) and not any(
            any(by_line[line]) and self.holds_alike(line, of) for line in lacking)

    def fills(self, line):
        """Whether a line that doesn't race writes variables in blocks alone, each once."""
        its = self.at(line)
        return (line not in self.lines and all(access.word == "w" and "#" in access.name for access in its)
                and sum(access.count for access in its) == len({access.variable for access in its}))

    def holds_alike(self, line, of):
        """Whether each access of a line holds one of several locks that differ by digits alone from that of
        its variable."""
        kinds = {re.sub("[0-9]", "", lock) for lock in of.values()}
        its = [{lock for lock in access.held | access.shared if re.sub("[0-9]", "", lock) in kinds}
               for access in self.used(line)]
        return all(its) and len(set().union(*its)) > 1

    def check_sometimes(self):
        yield from self.check_name()
        for line, (some, all) in self.fact["lines"].items():
            holds = [(self.has(access, self.fact["locks"].get(access.variable)), access.count)
                     for access in self.used(line)]
            found = [sum(count for has, count in holds if has), sum(count for _, count in holds)]
            if (len({has for has, _ in holds}) != 2 or line not in self.lines or not self.is_merged()
                and (found != [some, all] or 2 * some <= self.held_count(line))):
                yield f"{line} holds it at {found}"
            if not any(access.word == "w" for access in self.used(line)):
                yield f"{line} only reads"
        if not self.fact["lines"]:
            yield "no line"

    def has_sometimes(self):
        """Of one variable: a racing line that writes and holds a lock at some of its accesses, at most of
        those with a lock."""
        def counts(line, lock):
            holds = [(self.has(access, lock), access.count) for access in self.used(line)]
            return sum(count for has, count in holds if has), sum(count for _, count in holds)
        return len(self.variables) == 1 and not self.is_merged() and any(
            counts(line, lock)[0] < counts(line, lock)[1]
            and self.held_count(line) < 2 * counts(line, lock)[0]
            and any(access.word == "w" for access in self.used(line))
            and not all(any(re.sub("[0-9]", "", other) == re.sub("[0-9]", "", lock)
                            for other in self.locks(access)) for access in self.used(line))
            for line in self.lines for lock in filter(self.may_be_rule, self.held_at(line)))

    def held_count(self, line):
        """At how many of a line's accesses some lock is held."""
        return sum(access.count for access in self.used(line) if access.held or access.shared)

    def held_at(self, line):
        return set().union(*(access.held | access.shared for access in self.used(line)))

    def check_apart(self):
        if set(self.fact["lines"]) != self.lines:
            yield "not the racing lines"
        for variable in self.variables:
            mine = [access for access in self.used_racing() if access.variable == variable]
            if mine and frozenset.intersection(*map(self.locks, mine)):
                yield f"{variable} has a lock in common"
        if not any(access.held or access.shared for access in self.used()):
            yield "no lock at all"
        yield from self.check_held(self.fact["held"], self.lines)
        if self.fact["all_hold"] != (set(self.fact["held"]) == self.lines):
            yield "all_hold is wrong"

    def check_no_lock(self):
        if any(access.held or access.shared for access in self.used()):
            yield "a lock is held"
        if set(self.fact["writes"]) != {access.location
                                        for access in self.used_racing() if access.word == "w"}:
            yield "other lines write"
        if set(self.fact["writers"]) != {access.thread
                                         for access in self.used_racing() if access.word == "w"}:
            yield "other threads write"

    def check_ordered(self):
        """Races that a report has, and the trace doesn't."""
        if not frozenset.intersection(*map(self.locks, self.used_racing())):
            yield "no lock is common to all"


def groups_of(document):
    """The facts of a file of places, each with the pairs of lines of its group."""
    return [(group, group["pairs"]) for group in document["groups"]]
