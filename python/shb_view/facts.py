"""What a trace says of a group. A fact is one of the forms below, whose definitions docs/FORMATS.md has; it
holds for the trace and for each variable of the listed races, and names no fault. The first that holds is the
group's."""

import collections
import functools
import itertools
import re

from shb_common.result import text
from shb_common.uses import Use
from shb_common.words import counted
from shb_view.groups import name_parts
from shb_view.held import read_lock
from shb_view.names import by_numbers
from shb_view.words import Code, Own, as_parts, listed, lock_name, place

MOST_NAMED = 3  # lines in a sentence
FLAG = "make it atomic if it is a flag or a counter; else "
USED = "The use at {} came after the free here: a use after free."
FREED = "don't use it at {} once it may be freed at {}, or free it after that use."
STEP = "test and set it in one step, as by an atomic exchange, or "
OF_LIBRARY = rb"(?:^|[.:])_[_A-Z]|\._vptr|\.so(?:\.[0-9]+)*:"  # what the program can't make atomic
DIGITS = rb"[0-9]+"
READS = b"l", b"r"
NUMBERS = rb"(?<=#)[0-9]+|(?<=\[)[0-9]+(?=\])"  # of a block, and of an element


@functools.lru_cache(maxsize=65_536)
def alike(lock):
    """A lock with stars for its numbers of blocks and elements."""
    return re.sub(NUMBERS, b"*", lock)


# The forms, in the order in which they are tried, each with a number: the least is shown first and in the
# first colour.
RANKS = {"published": 0, "freed": 0, "plain": 1, "uncounted": 3, "read-lock": 1, "without": 1, "sometimes": 2,
         "apart": 2, "no-lock": 3, "mixed": 3, "ordered": 5}


class Site:
    """A line that uses the variables, with what is counted there."""

    def __init__(self, location):
        self.location, self.name, self.total = location, location or b"", 0
        # how many accesses there are of each word and thread, how many hold each lock, but not for reading,
        # how many hold it for reading, and how many of these write
        self.accesses, self.threads, self.locks, self.reading, self.wrong = (
            collections.Counter() for _ in range(5))
        self.bare = self.unknown = 0  # accesses that hold no lock, and whose locks aren't counted
        # `widths` of its accesses, as `Use.is_wide`; `writers` are threads, `partners` the lines that it
        # races with, `later` those of these whose access came later in a race that was read
        self.variables, self.widths, self.writers, self.partners, self.later = (set() for _ in range(5))

    @property
    def frees(self):
        return self.accesses[b"f"]

    def reads(self):
        return any(self.accesses[word] for word in READS)

    def writes(self):
        return self.total > sum(self.accesses[word] for word in READS)

    def is_atomic(self):
        return any(self.accesses[word] for word in (b"a", b"l"))

    def fills(self):
        """Whether it seems to fill new blocks: it writes each variable once, and doesn't race."""
        return (self.total == len(self.variables) and not self.reads() and not self.partners
                and all(b"#" in name for name in self.variables))

    @functools.cached_property
    def guards(self):
        """How many accesses hold each lock as they have to: a read under a read lock does."""
        found = self.locks + self.reading
        found.subtract(self.wrong)
        return found

    @functools.cached_property
    def guards_by_kind(self):
        """At how many accesses it holds each of the locks that differ by numbers alone."""
        found = {}
        for lock, count in self.guards.items():
            found.setdefault(re.sub(DIGITS, b"", lock), []).append(count)
        return found

    def lacks(self, lock):
        """Whether some access doesn't hold the lock as it has to."""
        return self.guards[lock] < self.total

    @functools.cached_property
    def held(self):
        return sorted(lock for lock, count in self.guards.items() if count == self.total)

    def add(self, use, names):
        """Takes a use; `names` has the locks that have another name here."""
        under, reading = renamed(use.under, names), renamed(use.reading, names)
        self.variables.add(use.variable)
        self.total += use.count()
        self.accesses[use.word] += use.count()
        self.widths.add(use.is_wide)
        self.threads.update(use.by)
        self.locks.update(under)
        self.reading.update(reading)
        if use.word not in READS:
            self.writers.update(use.by)
            self.wrong.update(reading)
        self.bare += sum(use.bare.values())
        self.unknown += sum(use.many.values())


def renamed(sums, names):
    """Sums of locks, some of which have other names here."""
    if names.keys().isdisjoint(sums):
        return sums
    found = collections.Counter()
    for lock, count in sums.items():
        found[names.get(lock, lock)] += count
    return found


class Fact(collections.namedtuple("Fact", "form said tag sentences remedy lock handed parts",
                                  defaults=([], None, (), ()))):
    """`form` is one of the definitions, and `said` has what it is said of, by names that programs read. `tag`
    is a short form of the sentences, and `remedy` what would order the accesses, or nothing. `lock` is the
    one that it is about, or None. `handed` has variables, by their names in the trace, each with its pairs of
    a store and a load; `parts` of a mixed fact its groups."""

    def pairs(self):
        return [pair for _, pairs in self.handed for pair in pairs]

    def uses(self):
        """The stores and loads that hand on."""
        return [use for pair in self.pairs() for use in pair[:2]]

    def saying(self, said, **more):
        """The same with more that is said for programs, and other fields."""
        return self._replace(said={**self.said, **said}, **more)

    def of_gone(self, owner, lines):
        """The fact of lines that use a stack where its thread has a local of a system's function by then."""
        lines = sorted(lines, key=by_numbers)
        tag = worded("{} {} a local of {} that is gone", places(lines), does("use", lines), Code(owner))
        said = worded("In a race {} is in a function of the system, whose local lies there.", Code(owner))
        return self.saying({"gone": list(map(text, lines))}, tag=tag, remedy=[],
                           sentences=[*self.sentences, said])

    def refuting(self, pair):
        """The fact of variables that race with an order of a store and a load too, without general advice."""
        said = worded("A release at {} and an acquire at {} may leave a race.", place(pair.store.location),
                      place(pair.load.location))
        return self.saying({"is_refuted": True}, sentences=[*self.sentences, said],
                           remedy=[] if self.form in ("no-lock", "apart") else self.remedy)


def blamed_of(fact, locations):
    """The line that the headline names first, of racing ones and those of atomics; else one that
    it is about."""
    known = {*locations, *(use.location for use in fact.uses())}
    about = {line for name in ("lines", "plain", "frees") for line in fact.said.get(name, ())}
    more = [it for it in (*locations, *fact.tag) if isinstance(it, bytes) and text(it) in about]
    return next(map(bytes, (*filter(known.__contains__, fact.tag), *more)), None)


class Used:
    """How a group's variables are used: by variable its uses, as `uses.Use` has them; and by location those
    that are of all, which are frees."""

    def __init__(self, variables=(), frees=()):
        self.variables, self.frees = collections.defaultdict(list, variables), dict(frees)

    def add(self, use):
        its = self.variables[use.variable] if use.variable else self.frees.setdefault(use.location, [])
        its.append(use)

    def of(self, variable):
        """Those of one of the variables alone."""
        return Used({variable: self.variables.get(variable, [])}, self.frees)

    def total(self):
        return sum(map(total_of, (*self.variables.values(), *self.frees.values())))


def total_of(uses):
    return sum(use.count() for use in uses)


def used_in(counts):
    """The uses that a trace has, of each kind as `Counting.counts`; their locks are None where they aren't
    counted."""
    found = Used()
    for (location, thread, word, locks, variable), count in counts.items():
        under, reading = {}, {}
        for lock in locks or ():
            shared = read_lock(lock)
            (reading if shared else under)[shared or lock] = count
        bare, many = {0: count} if locks == () else {}, {0: count} if locks is None else {}
        if count:
            by = {thread: count}
            found.add(Use(word, variable, b"", location, None, by, under, reading, bare, {}, many))
    return found


def joined(parts):
    """The uses of several groups of one object as those of one, whose frees each of them may have."""
    found = Used()
    for one in parts:
        found.variables.update(one.variables)
        for location, its in one.frees.items():
            found.frees[location] = max(found.frees.get(location, its), its, key=total_of)
    return found


class Locks:
    """The locks of a group's variables. Of those that differ by numbers of blocks and elements alone, as
    `a[3].door`, a variable's own one is that of its element, or that which most of its accesses hold; it has
    one name for all variables."""

    def __init__(self, used, private, name, word, others):
        """`private` are locks on stacks that one thread alone uses: none of these is told. `name` gives a
        variable as the program has it. `word` is what is missing where none is held; `others` are variables
        of types that can't be atomic."""
        self.own, self.private, self.name, self.word, self.others = {}, private, name, word, others
        self.has_global = any(b"#" not in it and not it.startswith(b"stack.") for it in used.variables)
        of_frees = [*itertools.chain(*used.frees.values())]
        self.locks = {variable: held_in([*its, *of_frees]).keys() for variable, its in used.variables.items()}
        held = [(not is_member(lock, name(variable)), -count, variable, lock)
                for variable, its in used.variables.items()
                for lock, count in held_in(its).items()] if len(self.locks) > 1 else []
        for *_, variable, lock in sorted(held):
            self.own.setdefault(alike(lock), {}).setdefault(variable, lock)
        self.named = collections.defaultdict(dict)  # by variable: its own locks, with their names
        for name, own in self.own.items():
            for variable, lock in own.items() if len(set(own.values())) > 1 else ():
                self.named[variable][lock] = Own(name)

    def may_be_rule(self, lock):
        """Not a lock that one thread alone uses, nor that of some block for a global variable."""
        return lock not in self.private and not (self.has_global and b"#" in lock)

    def of(self, name):
        """By variable: the lock of this name."""
        if isinstance(name, Own):
            return self.own[name]
        return {variable: name for variable, its in self.locks.items() if name in its}


def held_in(uses):
    """How many accesses hold each lock, for reading or not."""
    found = collections.Counter()
    for use in uses:
        found.update(use.under)
        found.update(use.reading)
    return found


def sites_of(group, used, *words):
    """The lines that use a group's variables: racing ones first, then those that write, then by how often;
    and their locks."""
    racing, locks, sites = group.locations(), Locks(used, *words), {}
    for use in itertools.chain(*used.variables.values(), *used.frees.values()):
        if use.location not in sites:
            sites[use.location] = Site(use.location)
        sites[use.location].add(use, locks.named[use.variable])
    for pair in group.pairs:
        for location, partner in (pair.locations, pair.locations[::-1]):
            if location in sites:
                sites[location].partners.add(partner)
        for first, second in pair.places:
            if first in sites:
                sites[first].later.add(second)
    return sorted(sites.values(), key=lambda site: (
        site.location not in racing, not site.writes(), -site.total, site.location is None,
        by_numbers(site.name))), locks


def fact_of(sites, locks, whole, published=()):
    """The first fact that holds. `whole` is a trace or a run, `published` as `handed.published` has it."""
    racing = [site for site in sites if site.partners]
    # a line that frees alone says nothing of locks
    used = [site for site in sites if site.frees < site.total]
    of_locks = uncounted(used) if any(site.unknown for site in used) else lock_fact(used, racing, locks)
    if of_locks and of_locks.form == "without" and any(pair.store.kind == b"update" for pair, _ in published):
        published = ()  # beside a lock what is updated is a counter
    if not published:
        frees = [site for site in racing if site.frees]
        of_frees = frees and (freed_under_lock(sites, racing, frees, locks) or freed(racing, frees))
        return in_this(whole, of_frees or not_atomic(racing) or of_locks or no_lock(sites, racing, locks))
    found = publication(published)
    if not of_locks or of_locks.form != "without":
        return found
    also = {"form": of_locks.form, **of_locks.said}  # either of the two would fix it
    return found.saying({"also": also}, sentences=[*found.sentences, *in_this(whole, of_locks).sentences])


def in_this(whole, fact):
    """A fact whose first sentence says what it is of."""
    first, *more = fact.sentences
    return fact._replace(sentences=[[f"In this {whole} ", *first], *more])


def publication(published):
    """Between the two accesses of each race an atomic was stored by the first's thread and loaded by the
    second's."""
    pair, _ = published[0]
    (order, (verb, use)), *more = pair.lacking().items()
    tag = worded(f"{{}} {verb}s {{}} without {order}", place(use.location), pair.name)
    for order, (verb, use) in more:
        tag += worded(f", and {{}} {verb}s it without {order}", place(use.location))
    said = [{"atomic": text(pair.store.name), "store": pair.store.said(), "load": pair.load.said(),
             "missing": [*pair.lacking()], "races": races}
            for pair, races in published]
    fixes = dict.fromkeys(tuple(worded(f"{verb} {{}} with {order} at {{}}", pair.name, place(use.location)))
                          for pair, _ in published for order, (verb, use) in pair.lacking().items())
    return Fact("published", {"by": said}, tag, [handed_words(pair) for pair, _ in published],
                [*listed(fixes, len(fixes)), "."])


def handed_words(pair):
    """What is said of an atomic that was handed on, as parts."""
    store, load = pair.store, pair.load
    return worded("{} and {} hand this on by the atomic {}: {} {} after the first access, and {} {} before "
                  "the second. Without {} that orders nothing.", Code(store.thread), Code(load.thread),
                  pair.name, place(store.location), store.words(), place(load.location), load.words(),
                  " and ".join(pair.lacking()))


def freed_under_lock(sites, racing, frees, locks):
    """Racing lines without a lock that all other lines hold: a free is a use of each variable of the block.
    A lock that each free holds comes first, then one that none does."""
    if any(site.unknown for site in sites):
        return None
    lacking = {lock: sum(site.lacks(lock) for site in frees) for lock in by_weight(sites, locks)[0]
               if not lock.startswith(b"0x")}  # that of a library says nothing
    its = [lock for count in (0, len(frees)) for lock in lacking if lacking[lock] == count]
    found = next(filter(None, (without(sites, racing, lock, locks) for lock in its)), None)
    if not found:
        return None
    warning = worded("{} {} the block under it: use what was found there in the same section.", frees,
                     does("free", frees))
    is_kept = not lacking[found.lock]
    until = ", and as long as the block is used" if is_kept else ", and don't use it after the free"
    after = used_after(racing, frees)
    more = [*[warning] * is_kept, *[worded(USED, after)] * bool(after)]
    return found.saying({"frees": names_of(frees), "after": names_of(after)},
                        sentences=[*found.sentences, *more], remedy=[*found.remedy[:-1], f"{until}."])


def used_after(racing, frees):
    """Racing lines with a use that came after a free in a race that was read."""
    found = union(site.later for site in frees if site.frees == site.total)
    return [site for site in racing if site.location in found and not site.frees]


def freed(racing, frees):
    """Racing lines that free the block which the others use."""
    used = dict.fromkeys(partner for site in frees
                         for partner in sorted(site.partners) if partner != site.location)
    threads, at = sorted(union(site.writers for site in frees)), places(used)
    sentence = worded("{} {} the block at {}, and nothing orders the free and {}.", places(threads),
                      does("free", threads), frees,
                      worded("the use at {}", at) if used else "another free of it")
    after = used_after(racing, frees)
    said = {"frees": names_of(frees), "uses": list(map(text, used)), "after": names_of(after)}
    remedy = worded(FREED, at, frees) if used else ["free it once."]
    tag = worded("freed at {} while in use" if used else "freed twice at {}", frees)
    if after:
        tag = worded("used at {} after it was freed at {}", after, frees)
        sentence += [" ", *worded(USED, after)]
    return Fact("freed", said, tag, [sentence], remedy)


def given_again(lines, frees):
    """Lines use a block, and nothing orders that behind its allocation: what they used there was freed."""
    said = {"frees": list(map(text, frees)), "after": list(map(text, lines)), "is_again": True}
    lines, frees = places(lines), places(frees)
    sentence = worded("the block was freed at {} and allocated again, and nothing orders that before the "
                      "use at {}: a use after free.", frees, lines)
    tag = worded("used at {} after it was freed at {}", lines, frees)
    return Fact("freed", said, tag, [sentence], worded(FREED, lines, frees))


def not_atomic(racing):
    """Racing lines that aren't atomic, where others are."""
    atomic = [site for site in racing if site.is_atomic()]
    plain = [site for site in racing if not site.is_atomic()]
    if not atomic or not plain:
        return None
    tag = worded("{} {} not atomic", plain, "is" if len(plain) == 1 else "are")
    wide = [site for site in plain if True in site.widths]
    begins = ", or initialize it before creating threads" * (not any(map(Site.reads, plain)))
    members = "access its members one by one, atomically, at {}, or hold one lock at {}."
    remedy = (worded(members, wide, racing) if wide
              else worded("access it atomically at {} too{}.", plain, begins))
    return Fact("plain", {"atomic": names_of(atomic), "plain": names_of(plain)}, tag,
                [worded("{} {} atomically, and {}.", atomic, verb_of(atomic), tag)], remedy)


def uncounted(sites):
    count = counted(sum(site.unknown for site in sites), "access")
    return Fact("uncounted", {}, ["locks not counted"], [[f"the locks held at {count} aren't counted."]])


def by_weight(sites, locks):
    """The locks that are held at some lines and may be told, those that more lines hold at each access first,
    then those that more accesses hold; and of those that lines hold at each access how many do."""
    guarded, holding = collections.Counter(), collections.Counter()
    for site in sites:
        guarded.update(site.guards)
        holding.update(site.held)
    told = sorted(filter(locks.may_be_rule, guarded), key=lambda lock: (
        -holding[lock], -guarded[lock], not isinstance(lock, Own), lock))
    return told, holding.keys() & told


def lock_fact(sites, racing, locks):
    """What is held at the lines, by the first rule that a lock fits, of locks that the rule can be about."""
    names, holding = by_weight(sites, locks)
    wrong = {lock for site in racing for lock, count in site.wrong.items() if count}
    for rule, its in ((under_read_lock, wrong), (without, holding), (sometimes, names)):
        found = next(filter(None, (rule(sites, racing, lock, locks) for lock in names if lock in its)), None)
        if found:
            return found
    return apart(racing, locks) if any(site.bare < site.total for site in sites) else None


def under_read_lock(sites, racing, lock, locks):
    """Racing lines whose writes hold a lock for reading, which keeps out writers alone."""
    wrong = [site for site in racing if site.wrong[lock]]
    if not wrong:
        return None
    writes, name = does("write", wrong), lock_name(lock)
    sentence = worded("{} {} while holding {} for reading, as other threads can at the same time.", wrong,
                      writes, name)
    return Fact("read-lock", {"lines": names_of(wrong), **said_of(lock, locks)},
                worded("{} {} under the read lock of {}", wrong, writes, name), [sentence],
                worded("hold {} for writing at {}.", name, wrong), lock)


def without(sites, racing, lock, locks):
    """Racing lines that don't hold a lock which all others, or all others that race, hold at each access.
    Where they hold other locks, that more lines have this one says that it is theirs too."""
    lacking = [site for site in racing if site.lacks(lock)]
    holding = [site for site in sites if not site.lacks(lock)]
    variables = union(site.variables for site in racing) - {b""}
    if not is_rule(lacking, holding, variables, lock, is_beside(locks, lock, variables)):
        return None
    scope = scope_of([site for site in sites if site.lacks(lock) and not site.partners], lacking, holding)
    who = {"writes": "every write", "reads": "every read", "all": "every other access",
           "lines": worded("every access at {}", holding)}[scope]
    some = [site for site in lacking if site.guards[lock]]
    name, verb, total = lock_name(lock), verb_of(lacking), sum(site.total for site in lacking)
    at = f" at {total - sum(site.guards[lock] for site in lacking):,} of {total:,} accesses" if some else ""
    sentence = worded("{} holds {}, and {} {} without it{}.", who, name, lacking, verb, at)
    instead = holds([site for site in lacking if site.held])
    if instead:
        sentence += [" ", *listed(instead), "."]
    said = {"lines": names_of(lacking), "sometimes": names_of(some), "scope": scope,
            "holding": names_of(holding), **said_of(lock, locks), "instead": held_of(lacking, locks)}
    tag = (worded("{}{}{}", lacking, not_always(lacking), name) if some
           else worded("{} {} without {}", lacking, verb, name))
    return Fact("without", said, tag, [sentence], worded("hold {} at {}.", name, lacking), lock)


def is_beside(locks, lock, variables):
    """Whether each variable's lock is a member of the object that the variable is a member of."""
    its = locks.of(lock)
    pairs = [(object_in(locks.name(variable)), object_in(its.get(variable, b""))) for variable in variables]
    return all(of_variable and of_variable == of_lock for of_variable, of_lock in pairs)


def is_member(lock, variable):
    """Whether both are members of one element, as a[3].door and a[3].sum are."""
    one, other = ({**parts, "inside": parts["inside"].rpartition(b".")[:2]}
                  for parts in map(name_parts, (lock, variable)))
    return one == other and one["inside"][1] == b"."


def object_in(name):
    """The named object or the block that a name is inside of; None of one that is no part, or on a stack."""
    parts = name_parts(name)
    is_part = parts["inside"] and not name.startswith(b"stack.")
    return {**parts, "inside": b""} if is_part else None


def is_rule(lacking, holding, variables, lock, is_member):
    """Whether lines that hold a lock say of those that lack it that they should: each variable is used with
    it, not just filled; what some readers alone hold is a rule if it is a member of the variable's object
    (`is_member`); the others hold no lock, or are fewer, or hold this one at times, but not one of several
    whose names differ by numbers alone."""
    holding = [site for site in holding if not site.fills()]
    holders = union(site.variables for site in holding)
    holders |= variables if b"" in holders else set()  # a free uses each variable of the block
    if not lacking or not holding or not variables <= holders:
        return False
    if not is_member and not any(site.writes() for site in holding) and any(site.reads() for site in lacking):
        return False
    if any(site.guards[lock] and holds_another(site, lock) for site in lacking):
        return False
    is_bare = all(site.bare == site.total for site in lacking)
    return is_bare or any(site.guards[lock] for site in lacking) or len(holding) > len(lacking)


def scope_of(others, lacking, holding):
    """What holds the lock: each write or read, all other lines, or these; `others` lack it and don't race."""
    for scope, does in (("writes", Site.writes), ("reads", Site.reads)):
        if not any(map(does, [*others, *lacking])) and any(map(does, holding)):
            return scope
    return "lines" if others else "all"


def verb_of(sites):
    verb = ("free" if all(site.frees == site.total for site in sites)
            else "read" if not any(site.writes() for site in sites)
            else "write" if not any(site.reads() for site in sites) else "use")
    return does(verb, sites) + " it" * (verb in ("free", "use"))


def does(verb, its):
    return verb + "s" * (len(its) == 1)


def sometimes(sites, racing, lock, locks):
    """A lock that racing lines hold at most of their accesses with a lock, and no line at each."""
    some = [site for site in racing if site.lacks(lock) and site.writes() and not holds_another(site, lock)
            and site.guards[lock] * 2 > site.total - site.bare]
    if not some:
        return None
    counts = [[f"{site.guards[lock]:,} of {counted(site.total, 'access')} at ",
               place(site.location)] for site in some]
    lines = {text(site.name): [site.guards[lock], site.total] for site in some}
    name = lock_name(lock)
    return Fact("sometimes", {"lines": lines, **said_of(lock, locks)},
                worded("{}{}{}", some, not_always(some), name),
                [worded("{} is held at {}.", name, listed(counts))],
                worded("hold {} at each access.", name), lock)


def not_always(sites):
    return f" {'does' if len(sites) == 1 else 'do'}n't always hold "


def holds_another(site, lock):
    """Whether the accesses without a lock hold others that differ by numbers alone, as each object's own."""
    counts = site.guards_by_kind.get(re.sub(DIGITS, b"", lock), ())
    return len(counts) > 1 and sum(counts) >= site.total


def held_at(site):
    """What a line holds, as parts."""
    if site.held:
        return listed(map(lock_name, site.held))
    return "no lock" + " at some accesses" * (site.bare < site.total) if site.bare else (
        "a lock, but not the same each time")


def holds(sites):
    return [worded("{} holds {}", place(site.location), held_at(site)) for site in sites]


def apart(racing, locks):
    """No lock is held at every access of all racing lines."""
    common = set.intersection(*(set(site.held) for site in racing))
    if common:
        tag = worded("every access holds {}", lock_name(min(common)))
        return Fact("ordered", {}, tag, [[*tag, ": these are no races."]])
    all_hold = all(site.held for site in racing)
    alone = (f" {verb_of(racing)} without a lock" if racing[0].bare == racing[0].total
             else worded(" holds {}", held_at(racing[0])))
    several = " hold different locks" if all_hold else " have no lock in common"
    private = sorted(locks.private.intersection(lock for site in racing for lock in site.guards))
    only = [worded("One thread alone uses {}.", Code(lock)) for lock in private[:MOST_NAMED]]
    return Fact("apart", {"lines": names_of(racing), "all_hold": all_hold, "held": held_of(racing, locks)},
                worded("{}{}", racing, alone if len(racing) == 1 else several),
                [worded("{}, and no lock is common to them.", listed(holds(racing))), *only],
                [] if private else worded("hold one lock at {}.", racing))


def no_lock(sites, racing, locks):
    """No lock is held at any access."""
    writing = [site for site in racing if site.writes()]
    readers = [site for site in racing if not site.writes()]
    writers, every = (union(site.writers for site in its) for its in (racing, sites))
    count = f"{len(every):,} threads" if len(every) > 1 else "one thread"
    sentence = worded("no {} is held at any access; {} {}, at {}.", locks.word, count, does("write", every),
                      [*writing, *(site for site in sites if site.writes() and not site.partners)])
    names = union(site.variables for site in racing)
    kinds = {alike(name) for name in names}  # a member of several objects is one, elements of an array aren't
    is_one = (len(kinds) == 1 and (len(names) == 1 or not min(kinds).endswith((b"]", b"*")))
              and not re.search(OF_LIBRARY, min(kinds)) and names.isdisjoint(locks.others)
              and all(site.widths == {False} for site in racing))
    tests_it = any(len(site.writers.intersection(reader.threads)) > 1 and not site.reads()
                   and by_numbers(reader.name) < by_numbers(site.name)
                   for site in writing for reader in readers)
    tag = worded("{} {}", writing, does("write", writing))
    if readers:
        tag += worded(", {} {}", readers, does("read", readers))
    return Fact("no-lock", {"writes": names_of(writing), "writers": sorted(map(text, writers))},
                [*tag, f" without a {locks.word}"], [sentence],
                worded("{}hold one lock at {}.", (STEP if tests_it else FLAG) * is_one, racing))


def union(its):
    return set().union(*its)


def by_variable(locks, lock):
    return {text(variable): text(found) for variable, found in sorted(locks.of(lock).items())}


def said_of(lock, locks):
    return {"name": text(lock), "locks": by_variable(locks, lock)}


def held_of(sites, locks):
    """By line: each lock that is held there at each access, by variable."""
    return {text(site.name): [by_variable(locks, lock) for lock in site.held]
            for site in sites if site.held}


def names_of(sites):
    return [text(site.name) for site in sites]


def places(locations):
    return listed(map(place, locations))


def worded(template, *its):
    """The parts of a text: at each {} there is a text, a name, the lines of sites, or parts."""
    first, *texts = template.split("{}")
    found = [first]
    for one, after in zip(its, texts):
        if isinstance(one, list) and any(isinstance(part, Site) for part in one):
            one = places(site.location for site in one)
        found += [*as_parts(one), after]
    return list(filter(None, found))
