"""What a farm has found: a row for each two locations, and how each trace ended."""

import collections
import os
import pathlib
import stat

from shb_common.places import Places, in_order
from shb_common.variables import local_name
from shb_farm import outcomes, passes, traces

# How a trace ended: the kind of its outcome or `missing`, its words, its places, its size in bytes (of its
# text, if that is known; None if it can't be run), and what it cost.
Ending = collections.namedtuple("Ending", "kind words places size cost", defaults=(None,))


def ending_of(work, name, outside=()):
    """How a trace ended under the limits of this pass. `outside` are links that aren't followed."""
    path = pathlib.Path(work.traces) / name
    try:
        state = os.stat(path)
        why = (traces.LEADS_OUT if name in outside
               else "not a regular file" if not stat.S_ISREG(state.st_mode)
               else "" if os.access(path, os.R_OK) else "Permission denied")
    except OSError as fault:
        if not os.path.islink(path):    # nobody will find what a link doesn't lead to
            return Ending("missing", fault.strerror, [], None)
        why = fault.strerror
    if why:
        return Ending("refused", why, [], None)
    outcome = outcomes.read(passes.outcome_path(work.out, work.form, name), name)
    size = state.st_size
    if outcome is None:
        why = "its job didn't end"
    elif outcome.program != work.program:
        why = "its outcome is of another program"
    elif outcome.stamp != outcomes.stamp_of(state):
        why = "it has changed since"
    elif outcome.kind == "failed":
        why = outcome.words
    elif not passes.is_valid(outcome, work, name):
        why, size = "its limits were lower", outcome.cost.text or size
    else:
        return Ending(outcome.kind, outcome.words, outcome.places, size, outcome.cost)
    return Ending("missing", why, [], size)


def rows_of(endings, known_places, calls):
    """A row for each two locations that race (endings are by name), with the smallest trace that has them:
    unknown ones first, and of these what most traces have.
    Functions and source files are those of a trace's own call stacks, which `calls` has. Returns the names of
    source files too."""
    found = Places(known_places)
    for name, ending in endings.items():
        if ending.places:
            origin = calls.origin_of(name)
            found.add(name, origin, [named(place, origin.tables.local_of) for place in ending.places])
    rows = [found.row(key, min(seen.traces, key=lambda name: (endings[name].size, name)))
            for key, seen in found.seen.items()]
    return sorted(in_order(rows), key=lambda row: (row.is_known, -row.traces)), found.names


def named(place, local_of):
    """A place of an outcome, with its variables as the program has them."""
    return place._replace(variables={local_name(variable, events, local_of): events
                                     for variable, events in place.variables.items()})


def facts_of(rows, endings, stale, damaged):
    kinds = [ending.kind for ending in endings.values()]
    known, reports = sum(row.is_known for row in rows), kinds.count("report")
    missing = kinds.count("missing")
    return {"traces": len(kinds), "reports": reports, "refused": len(kinds) - reports - missing,
            "missing": missing, "damaged": damaged, "places": len(rows),
            "unknown": len(rows) - known, "known": known, "stale": stale,
            "unreported": sum(row.report == "missing" for row in rows)}


def unseen(endings):
    """How many traces have places that nobody has seen: without an outcome, or stopped by their limits."""
    return sum(ending.kind in ("missing", "memory", "time", "size") for ending in endings.values())


def status_of(facts, fails_on_stale):
    """The exit status: the first of these that applies."""
    if facts["missing"] or facts["unreported"]:
        return 2
    if facts["unknown"] or fails_on_stale and facts["stale"]:
        return 1
    if facts["refused"]:
        return 5
    return 6 if facts["damaged"] else 0
