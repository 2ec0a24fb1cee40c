"""Tries remedies on the trace: with what they change there must be no race of their variables any more. One
`shb places` tries all: its trace has a copy for each change, with names of its own."""

import bisect
import collections
import tempfile

from shb_common.report import Access, event_of
from shb_common.stacks import block_of
from shb_common.variables import without_end
from shb_common.words import Refused
from shb_view.analyser import Analyser
from shb_view.facts import READS, given_again, in_this, places, verb_of, worded
from shb_view.held import called
from shb_view.trace import OPENS, line_of
from shb_view.words import Code, listed, place

MOST_LINES = 400_000  # of all copies
MOVED = "no-lock", "apart", "freed"  # the forms of which a move may be the remedy
TRIED = {"run": " Tried on this run: no race of it is left in the page's trace.",
         "trace": " Tried on this trace: no race of it is left."}
TOO_LONG = ["The remedy isn't told, since the trace is too long to try it."]

# What a remedy of some variables changes: `before` has by event the lines that come before it then, and
# `moved` by each event that stands elsewhere the one that it comes before. `remedy` says it, as parts; `tag`
# is what is said in place of the fact's, if anything. `stale` has locations, each with where a block was
# freed: the one of number N reads the variable N there, which the block's next allocation writes.
Change = collections.namedtuple("Change", "names before moved remedy tag stale",
                                defaults=({}, None, None, ()))


def trials_of(found, facts, counting):
    """The changes that are to be tried of some groups, by the keys of what hands on, or by variables and a
    number."""
    named, trials = {}, {}
    for names, pairs in [handed for one in found for handed in one.fact.handed]:
        named.setdefault(keys_of(pairs), set()).update(names)
    for keys, names in named.items():
        pairs = [pair for its in facts.pairs.values() for pair in its if pair.key() in keys]
        trials[keys] = Change(names, ordered(facts.gathered.stacks.uses, pairs))
    for one in found:
        if one.fact.form in MOVED and one.fact.remedy and not facts.has_far(one.group):
            moves = [*moves_of(one, counting, True), one.fact.form == "no-lock" and move_of(one, counting),
                     *moves_of(one, counting, False)]
            trials.update({(one.group.names, number): move for number, move in enumerate(moves) if move})
        stale = stale_of(one, facts, counting) if one.fact.form in ("no-lock", "apart") else None
        if stale:
            trials[one.group.names, None] = stale
    return trials


def stale_of(found, facts, counting):
    """What shows whether nothing orders uses behind the allocation of their block, where another one had
    been. None if not all blocks of a group are such ones, or an atomic may order a use."""
    gathered, stacks = facts.gathered, facts.gathered.stacks
    before, lines = collections.defaultdict(list), {}
    for race in gathered.races(found.group.names):
        again = stacks.again.get(block_of(race.accesses[0].name))
        if not again or counting.uses.are_apart(again.event, race.events[1]):
            return None
        for event, access in race.sides():
            pairs = facts.pairs.get((again.thread, access.thread), ())
            if any(pair.store.event >= again.event and pair.load.event <= event for pair in pairs):
                return None
            if access.thread != again.thread:
                line = access.location, again
                if line not in lines:
                    lines[line] = len(lines)
                    before[again.event].append(b"%b|w(%d)|" % (again.thread, lines[line]))
                before[event].append(b"%b|r(%d)|" % (access.thread, lines[line]))
    return Change(set(counting.groups), before, stale=[(line, again.freed) for line, again in lines])


def moves_of(found, counting, are_posts):
    """Of each racing line without a lock the move of its accesses before the last release of their threads,
    if each has its own: by that a thread may hand on what the line still uses. All are posts, or not all."""
    locks, stacks, names = counting.gathered.locks, counting.gathered.stacks, found.group.names
    for site in found.sites:
        if not site.partners or site.frees or site.is_atomic() or site.bare < site.total:
            continue
        follows = {(word, name): counting.follows.get((word, name, site.location), {})
                   for name in names for word in (b"r", b"w")}
        moved = {number: (release, access) for access, its in follows.items()
                 for release, numbers in (its or {}).items() for number in numbers}
        if (None in follows.values() or not are_moved(site, found, counting, moved.keys())
            or all(release.is_post for release, _ in moved.values()) != are_posts):
            continue
        before, after = collections.defaultdict(list), {}
        for _, (release, access) in sorted(moved.items()):
            before[release.begin].append(line_of(Access(release.thread, *access, site.location)))
            word = "exchange" if (release.lock, release.location) in stacks.exchanges else "release"
            after[release[3:]] = worded("the {} of {} at {}", word, Code(called(release.lock, locks)),
                                        place(release.location))
        what = listed(after.values())
        yield Change(set(names), before, {number: release.begin for number, (release, _) in moved.items()},
                     worded("move {} before {}.", [site], what),
                     worded("{} {} after {}", [site], verb_of([site]), what))


def move_of(found, counting):
    """The move of a thread's only accesses that would order the races of a group, or None: an access that
    comes after its thread creates the others that race with it, or before it joins them."""
    gathered = counting.gathered
    family = family_of({race.threads for race in gathered.races(found.group.names)}, counting.begins)
    if not family:
        return None
    creator, others = family
    moved = dict(sorted((event, access) for race in gathered.races(found.group.names)
                        for event, access in race.sides() if access.thread == creator))
    lines, words = {access.location for access in moved.values()}, {access.word for access in moved.values()}
    repeating = {one.thread for name in found.group.names for one in counting.again.get(name, ())}
    if creator in repeating or not uses_once(found.uses, creator):
        return None
    step, event, where, when = None, 0, "", ""
    if words == {b"r"}:
        step = last_join(others, creator, counting.ends, max(moved))
        event, where, when = step and step.event + 1, "after the join", "before the join"
    elif words == {b"w"} and not repeating and all(uses_once(found.uses, other, False) for other in others):
        step = min((counting.begins[other] for other in others), key=lambda it: it.event)
        event, where, when = step.event, "before the thread's creation", "after the thread's creation"
    if not step or not are_in_one(counting.gathered.stacks, moved, step.event):
        return None
    to = place(event_of(without_end(step.line)).location)
    at, more = ([site for site in found.sites if site.partners and (site.location in lines) == is_moved]
                for is_moved in (True, False))
    return Change(set(found.group.names), {event: list(map(line_of, moved.values()))},
                  dict.fromkeys(moved, event),
                  worded("move {} {} at {}.", at, where, to),
                  [*worded("{} {} {} at {}", at, verb_of(at), when, to),
                   *worded("; {} {}", more, verb_of(more)) * bool(more)])


def are_in_one(stacks, events, step):
    """Whether some accesses are in the function of a step, as far as that is known: others may be called
    more often."""
    functions = {frame.function for frame in stacks.of_event(step)}
    own = ([it.function for it in stacks.of_event(event) if not it.in_system][:1] for event in events)
    return all(map(functions.issuperset, own))


def are_moved(site, found, counting, moved):
    """Whether these events have all racing accesses of a group at a line, and none stands for several behind
    one release: none does at a line with repeats behind releases of their own."""
    racing = {event for race in counting.gathered.races(found.group.names)
              for event, access in race.sides() if access.location == site.location}
    once = counting.uses.once
    is_behind_one = moved & once and not moved & counting.uses.repeated - once
    return racing <= moved and not is_behind_one


def family_of(pairs, begins):
    """The thread that created all others of some pairs and is in each, and these others; or None."""
    threads = {thread for pair in pairs for thread in pair}
    for creator in {begins[thread].thread for thread in threads if thread in begins} & threads:
        others = threads - {creator}
        are_created = all(other in begins and begins[other].thread == creator for other in others)
        if are_created and all(creator in pair for pair in pairs):
            return creator, others
    return None


def uses_once(used, thread, may_write=True):
    """Whether a thread uses each variable once at most."""
    own = [[use for use in its if thread in use.by] for its in used.variables.values()]
    return (all(sum(use.by[thread] for use in its) <= 1 for its in own)
            and (may_write or all(use.word in READS for its in own for use in its)))


def last_join(others, creator, ends, event):
    """The last of the joins by which a thread waits for others after an event; None if not all are."""
    found = [ends.get(other) for other in others]
    if not all(step and step.thread == creator and step.event > event for step in found):
        return None
    return max(found, key=lambda step: step.event)


def keys_of(pairs):
    return frozenset(pair.key() for pair in pairs)


def ordered(uses, pairs):
    """A release and an acquire at each pair of a store and a load: in a trace, a lock of its own."""
    before, numbers = collections.defaultdict(list), {id(use): number for number, use in enumerate(uses)}
    for lock, pair in enumerate(pairs):
        for use in pair[:2]:
            before[use.event].append((numbers[id(use)], use.thread, lock))
    return {event: [b"%b|%b(!%d)|" % (thread, word, lock) for _, thread, lock in sorted(its)
                    for word in (b"acq", b"rel")] for event, its in before.items()}


def still_racing(program, trace, changes):
    """Of each change the variables that still race: of the first ones, if all are too much to try."""
    changes = changes[:MOST_LINES // trace.count()]
    racing = [set() for _ in changes]
    with tempfile.TemporaryFile() as file, tempfile.TemporaryFile() as listed:
        bounds = write_copies(file, trace, changes)
        file.flush()
        try:
            for race in Analyser(program, file).nearest(listed).races():
                first, second = race.events
                if bisect.bisect(bounds, first) == bisect.bisect(bounds, second):
                    number, _, name = race.accesses[0].name.partition(b"~")
                    racing[int(number)].add(name)
        except Refused:  # as for too many threads
            return []
    return racing


def write_copies(file, trace, changes):
    """Writes the copies, and returns their events with which a part of the trace begins."""
    bounds, count = [], 0
    for number, change in enumerate(changes):
        mark = b"%d~" % number
        for event, lines in copy(trace, change):
            if event in trace.parts:
                bounds.append(count + 1)
            file.writelines(marked(mark, line) for line in lines)
            count += len(lines)
    return bounds


def copy(trace, change):
    """The lines at each event after the change, without accesses of other variables."""
    number = 0
    for number, _, operation, line in trace.events("trying remedies"):
        is_there = number not in change.moved and (operation[1] != OPENS or operation[2:-1] in change.names)
        yield number, [*change.before.get(number, ()), *[line] * is_there]
    yield number + 1, change.before.get(number + 1, ())


def marked(mark, line):
    """A line with names of a copy's own."""
    event = event_of(without_end(line))
    operand = b"(%b%b)" % (mark, event.name) if event.name else b""
    return b"%b%b|%b%b|%b\n" % (mark, event.thread, event.word, operand, event.location)


def after_trials(found, facts, trials, left, again):
    """The groups with what trials say of remedies; `again` makes them anew, without what was refuted."""
    good, moves, refuted, stale = {}, {}, set(), {}
    for (key, change), its in zip(trials.items(), left):
        if change.stale:
            stale[key[0]] = [line for number, line in enumerate(change.stale) if b"%d" % number in its]
        elif not change.moved:
            good[key] = change.names - its
            refuted |= its
        elif not its:
            moves.setdefault(key[0], change)
    if refuted:
        facts.refuted = refuted
        facts.known.clear()
        found = again()
    def tried(found):
        """A group with the remedy that was tried, or without one; of a mixed one each part."""
        if found.fact.parts:
            return found._replace(fact=facts.mixed(list(map(tried, found.fact.parts))))
        if stale.get(found.group.names):
            lines, frees = map(dict.fromkeys, zip(*stale[found.group.names]))
            return found._replace(fact=in_this(facts.whole, given_again(lines, frees)))
        return with_trial(found, facts.whole, moves, good, len(left) < len(trials))
    return list(map(tried, found))


def with_trial(found, whole, moves, good, is_too_long):
    fact = found.fact
    move = moves.get(found.group.names)
    if move:
        tag = [*move.tag, *["; ", *fact.tag] * (fact.form == "freed")]
        tag = fact.tag if fact.said.get("after") else tag
        fact = fact.saying({"moved": sorted(move.moved.items())}, tag=tag,
                           remedy=[*move.remedy, TRIED[whole]])
    elif not all(good.get(keys_of(pairs), set()).issuperset(its) for its, pairs in fact.handed):
        fact = fact._replace(remedy=[], sentences=[*fact.sentences, *[TOO_LONG] * is_too_long])
    elif fact.handed:
        fact = fact.saying({"is_tried": True}, remedy=[*fact.remedy, TRIED[whole]])
    return found._replace(fact=fact)
