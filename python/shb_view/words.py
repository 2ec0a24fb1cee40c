"""Words that the text and the page share. What is said is a list of parts: plain text, and names as `Code`. A
place is two lines that race, whichever comes first; a group is the places that share a variable."""

import re

from shb_common import variables
from shb_common.words import counted
from shb_view.held import read_lock
from shb_view.names import by_numbers, short

KINDS = {b"r": "read", b"l": "atomic read", b"w": "write", b"a": "atomic write", b"f": "free"}
VERBS = {b"r": "reads", b"l": "reads atomically", b"w": "writes", b"a": "writes atomically", b"f": "frees"}
MOST_DETAILED = 200  # groups that are shown whole; of further ones the headline, the facts and the places are
MOST_SITES = 20  # lines that are shown of a group
# that are named at a line; MOST_SOME are held at some accesses
MOST_LOCKS, MOST_SOME, MOST_PARTNERS = 8, 3, 8
MOST_VARIABLES = 8  # that are named of a group
NO_LOCK = "no lock held"
VERIFIED = "Verified: "
# Of a trace that was recorded, and of a run.
COUNTS = ("Counts are those of the trace. The recorder omits repeats: a loop may count as two accesses.",
          'Counts such as "6 of 7" cover the whole run, without repeated accesses.')

MANY_SETS = ("Threads held more than 64 sets of locks. What is said of locks holds of recorded accesses: "
             "some repeats under as many other locks were omitted.")


class Code(bytes):
    """A name of the trace or a location, as bytes."""


OF_BLOCK = rb"(?s)( of .+)?#\*(?=$|\+)"  # what a lock in a block has behind its own name


class Own(Code):
    """The name of a lock of which each variable has its own."""


def lock_name(lock):
    """A lock, as parts."""
    return ["its own lock ", Code(re.sub(OF_BLOCK, b"", lock))] if isinstance(lock, Own) else [Code(lock)]


def place(location):
    """A location as a part."""
    return Code(location) if location else "(no location)"


def lock_parts(name):
    """A lock that is held, as parts."""
    shared = read_lock(name)
    return [Code(shared), " for reading"] if shared else [Code(name)]


def listed(items, most=3):
    """Items, each a part or several, with commas and an `and` between them; after so many it is said how many
    more there are."""
    items = list(map(as_parts, items))
    if len(items) > most:
        items = [*items[:most], [f"{len(items) - most:,} more"]]
    found = []
    for number, parts in enumerate(items):
        if number:
            found.append(" and " if number == len(items) - 1 else ", ")
        found.extend(parts)
    return found


def as_parts(one):
    return [one] if isinstance(one, (str, bytes)) else one


def flat_in(most):
    """Makes parts one text, with names of at most so many columns."""
    return lambda parts: "".join(short(part, most) if isinstance(part, Code) else part for part in parts)


def thread_parts(site):
    """The threads that use a line, those with most accesses first."""
    threads = sorted(site.threads, key=lambda thread: (-site.threads[thread], thread))
    return listed(map(Code, threads))


def lock_words(site):
    """What is said of the locks held at a line: pairs of `held`, `some` or `none`, and parts."""
    total, of = site.total, f" of {site.total:,}"
    holds = sorted((-count, name, how) for how, its in (("", site.locks), (" for reading", site.reading))
                   for name, count in its.items())
    always = sum(-count == total for count, *_ in holds)
    shown = [*holds[:min(always, MOST_LOCKS)], *holds[always:always + MOST_SOME]]
    for count, name, how in shown:
        is_some = -count < total
        yield ("some" if is_some or how and site.wrong[name] else "held",
               ["holds ", *lock_name(name), how + f" at {-count:,}{of}" * is_some])
    if len(holds) > len(shown):
        yield "some", [f"and {len(holds) - len(shown):,} more"]
    if site.bare == total:
        yield "none", [NO_LOCK]
    elif site.bare:
        yield "some", [NO_LOCK, f" at {site.bare:,}{of}"]
    if site.unknown:
        yield "some", [f"locks not counted at {site.unknown:,}{of}"]


def accesses_text(site, is_counted):
    """How often a line reads, writes and frees; of a run, whose repeats are omitted, that it does."""
    words = [counted(site.accesses[word], kind) if is_counted else f"{kind}s" for word, kind in KINDS.items()
             if site.accesses[word]]
    return "".join(listed(words, len(KINDS)))


def share(count, total, is_bare, threads):
    """How many of a line's accesses have a stack, which threads, and that they hold no lock where others
    do."""
    by = [" by ", *listed(map(Code, sorted(threads)))] * bool(threads)
    return [f"{count:,} of {counted(total, 'access')}", *by, f", {NO_LOCK}" * is_bare]


def partner_parts(site):
    """The lines that a line races with."""
    return listed(map(place, sorted(site.partners, key=by_numbers)), MOST_PARTNERS)


def summary(view):
    """How much the report and the trace have."""
    size = ", ".join(counted(count, name[:-1]) for name, count in view.made.counts._asdict().items())
    groups = f", in {counted(view.groups, 'group')}" if view.groups else ""
    return f"{counted(view.pairs, 'place')} with races{groups}", size


def bad_words(view):
    """What is said of schedules that `shb check` finds bad."""
    return f"`shb check` finds the schedules of this page bad: {view.verdict.words}. None is shown."


def verified_words(view):
    """What is said of schedules that `shb check` finds good."""
    races = [section.window.schedule for section in view.sections if section.window]
    has = f"{len(races) - races.count(None):,} of {counted(len(races), 'race')} on the page have"
    has = has if None in races else "every race on the page has"
    return f"{VERIFIED}{has} a schedule that `shb check` accepts."


def notes_of(view):
    """What the reader has to know of the report."""
    if view.verdict.is_good:
        yield f"{verified_words(view)} Check again: `{view.judge}`."
    elif view.verdict.is_good is None and view.groups and view.verdict.words:
        yield view.verdict.words
    if not view.made.counts.events:
        yield "The trace has no events."
    elif not view.groups:
        yield ("Any two conflicting accesses are ordered in this trace. A run with another interleaving may "
               "have races.")
    if not view.sections:
        return
    if view.stacks.numbers:
        yield COUNTS[view.of_run]
    if not view.made.uses.are_sets_apart:
        yield MANY_SETS
    yield from view.source.missing(site.location for section in view.sections
                                   for site in section.sites[:MOST_SITES] if site.location)


def seen_parts(section):
    """What is said where the second access of a race reads what the first wrote, as parts for each such line
    and what it did."""
    frees = {site.location for site in section.sites if site.frees}
    readers = {}
    for writer, reader in section.seen:
        readers.setdefault((reader, "freed" if writer in frees else "wrote"), []).append(place(writer))
    for (reader, verb), writers in [*readers.items()][:MOST_SOME]:
        yield [place(reader), " read what ", *listed(writers),
               f" {verb}. This racy read may hide other races: fix it and run again."]


def about(section):
    """All that is said of a group before its lines, each as parts."""
    yield from told_of(section)
    yield from seen_parts(section)
    names = list(map(Code, section.group.variables))
    if len(names) >= variables.MOST_VARIABLES:  # no more are known of a place
        names[MOST_VARIABLES - 1:] = ["more"]
    if len(names) > 1:
        yield ["Variables: ", *listed(names, MOST_VARIABLES)]


def told_of(section):
    """What is said of a group's fact, each as parts: its sentences, and what would order the accesses."""
    if section.is_behind:
        yield ["Seen only with the known races left out: real if those are harmless."]
    if section.unseen:
        yield ["Perhaps ordered: code of both sides calls, or is called by, ",
               *listed(map(Code, section.unseen)), ", whose own atomics and futexes aren't seen."]
    yield from section.fact.sentences
    if section.fact.remedy:
        yield ["Remedy: ", *section.fact.remedy]
