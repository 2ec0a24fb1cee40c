"""What is shown, in the form that programs read."""

from shb_common import result
from shb_common.locations import parts_of
from shb_common.programs import naming
from shb_common.variables import without_block
from shb_view.facts import blamed_of
from shb_view.group_facts import fact_entry
from shb_view.groups import common_name
from shb_view.issue import flat
from shb_view.words import KINDS, notes_of, told_of

MOST_STACKS, MOST_FRAMES = 8, 40    # of an access


def document(view):
    """The places of the groups that are shown, as `result.document` has them."""
    pairs = [(number, section, pair) for number, section in enumerate(view.sections, 1)
             for pair in section.group.pairs]
    variables = view.gathered.variables()
    origin, names = naming(view.stacks, {location for _, _, pair in pairs for location in pair.locations})
    places = [{**entry(view, section, pair, origin, names, variables), "group": number}
              for number, section, pair in pairs]
    summary = {"places": view.pairs, "groups": view.groups, **view.made.counts._asdict()}
    notes = [*view.notes, *notes_of(view), *view.about]
    return result.document("shb-view", summary, places, title=view.title, notes=notes,
                           groups=[group_entry(view, section) for section in view.sections])


def entry(view, section, pair, origin, names, variables):
    """Two lines that race: what the trace has at their locations, and what is said of their group.
    `variables` are those of each place, as `Gathered.variables` has them."""
    sites, accesses = {site.location: site for site in section.sites}, []
    its = {name for place in pair.places for name in variables[place]}
    # what is told first of the variables that race there
    of = next((part for part in section.fact.parts if not its.isdisjoint(part.group.names)), section)
    blamed = blamed_of(of.fact, pair.locations)
    for location in pair.locations:
        found = named(location, origin, names)
        code = view.source.code(location)
        if code is not None:
            found["code"] = result.text(code)
        if location in sites:
            found.update(site_entry(sites[location]))
        found["stacks"] = [
            {"accesses": count,
             "frames": [frame_entry(frame, view.stacks.sources) for frame in frames[:MOST_FRAMES]]}
            for (frames, _), count in section.callers.get(location, ())[:MOST_STACKS] if frames]
        accesses.append(found)
    return {"accesses": accesses,
            "variables": [{"name": name} for name in sorted({
                result.text(without_block(view.gathered.name(name))) for name in its})],
            **({"blamed": named(blamed, origin, names)} if blamed else {}),
            **({"about": flat(common_name(of.group.variables))} if len(of.group.variables) > 1 else {}),
            "headline": flat(of.fact.tag), "remedy": flat(of.fact.remedy),
            "facts": [flat(parts) for parts in told_of(section)]}


def named(location, origin, names):
    """A location as all programs call it, with its functions and its file."""
    its = origin.location(location)
    return result.access(names.name(its), its, location)


def group_entry(view, section):
    """The fact of a group, with what else is known of its race; of variables on stacks the locals that they
    are."""
    names, locals = section.group.names, view.gathered.locals
    unseen = {"perhaps_ordered_by": list(map(result.text, section.unseen))} if section.unseen else {}
    return {**fact_entry(section, view.gathered), **unseen, **schedule_entry(view, section.window),
            "locals": {result.text(name): result.text(locals[name]) for name in names if name in locals}}


def schedule_entry(view, window):
    if not window or not window.schedule:
        return {}
    is_checked = {"is_checked": bool(view.verdict.is_good)}
    return {"schedule": {"race": window.accesses, **window.schedule._asdict(), **is_checked}}


def site_entry(site):
    """How often a location is accessed, by whom, and how many of these accesses hold each lock."""
    locks = [{"lock": result.text(name), "for": use, "held": count}
             for use, held in (("writing", site.locks), ("reading", site.reading))
             for name, count in sorted(held.items()) if count]
    return {"uses": {KINDS[word]: count for word, count in sorted(site.accesses.items()) if count},
            "threads": {result.text(thread): count for thread, count in sorted(site.threads.items())},
            "locks": locks, "without_lock": site.bare}


def frame_entry(frame, sources):
    path = sources.get(parts_of(frame.location)[0])
    return {"function": result.text(frame.function), "location": result.text(frame.location),
            **({"file": result.text(path)} if path else {}),
            **({"in_system": True} if frame.in_system else {})}
