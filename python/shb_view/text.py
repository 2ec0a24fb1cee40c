"""The text form: the groups, each with its fact and the lines that use its variables."""

import collections

from shb_common.words import counted
from shb_view.groups import common_name
from shb_view.issue import issue_lines
from shb_view.names import code_line, columns, padded, short
from shb_view.stacks import caller_lines, origins
from shb_view.words import (MOST_DETAILED, MOST_SITES, about, accesses_text, bad_words, flat_in, lock_words,
                            notes_of, partner_parts, place, share, summary, thread_parts)

NAME = 80  # columns of a name or a location
LINE = 100  # columns of a line of code
MOST_STACKS, MOST_FRAMES = 2, 8  # of a racing line; of each
MOST_ORIGINS = 4  # threads and blocks of a group


bold, red = (f"\x1b[{code}m{{}}\x1b[0m".format for code in (1, 31))
flat = flat_in(NAME)


def text_lines(view, is_whole):
    """The lines of the text, in colours. `is_whole` adds the report for an issue and the events before the
    accesses."""
    if view.verdict.is_good is False:
        yield red(bad_words(view))
    races, size = summary(view)
    yield f"{bold(f'{view.title}: {races}')} ({size})"
    yield from map(red, view.notes)
    chosen = [(number, section) for number, section in enumerate(view.sections, 1) if section.is_asked_for]
    if len(chosen) < len(view.sections):
        yield (f"Of {counted(len(view.sections), 'group')} {len(chosen):,} are shown, those with a place "
               "that is asked for.")
    for number, section in chosen:
        if number > MOST_DETAILED:
            yield headline(number, section)
            continue
        yield ""
        yield from section_lines(view, number, section)
        if is_whole:
            yield ""
            yield from (f"   {line}".rstrip() for line in issue_lines(view, section))
            yield from window_lines(section.window)
    if view.groups > len(view.sections):
        yield ""
        yield f"and {counted(view.groups - len(view.sections), 'more group')}"
    notes = [] if view.of_run else [*notes_of(view), *view.about]
    yield from ["", *notes] if notes and view.sections else notes


def headline(number, section):
    name = flat(common_name(section.group.variables))
    places = counted(len(section.group.pairs), "place")
    return bold(f"{number}. {name}: {flat(section.fact.tag)}") + f" ({places})"


def section_lines(view, number, section):
    yield headline(number, section)
    yield from (f"   {flat(parts)}" for parts in about(section))
    for site in section.sites[:MOST_SITES]:
        yield from site_lines(view, section, site)
    if len(section.sites) > MOST_SITES:
        yield f"   and {counted(len(section.sites) - MOST_SITES, 'more line')}"
    for parts, frames in origins(view, section)[:MOST_ORIGINS]:
        yield f"   {flat(parts)} in {', from '.join(map(flat, caller_lines(frames, MOST_FRAMES)))}"


def site_lines(view, section, site):
    location = "(further lines)" if site.location is None else flat([place(site.location)])
    by = flat([" by ", *thread_parts(site)]) if site.location is not None else ""
    location = red(location) if site.partners else location
    yield f"   {location}: {accesses_text(site, not view.of_run)}{by}"
    code = view.source.code(site.location)
    source = view.source.place(site.location) if site.location else None
    if code is not None:
        yield f"     | {code_line(code, LINE)}"
    if source and source.fault:
        yield f"     | ({source.fault})"
    yield "     " + "; ".join(flat(parts) for _, parts in lock_words(site))
    if site.partners:
        yield f"     races with {flat(partner_parts(site))}"
        yield from stack_lines(section.callers.get(site.location, []), section.threads)


def stack_lines(callers, threads):
    """The stacks of a line's racing accesses. Those that differ in what isn't shown are one."""
    shown, by = collections.Counter(), collections.defaultdict(set)
    for (frames, is_bare), count in callers:
        first, *others = caller_lines(frames, MOST_FRAMES) or [["(no stack is known)"]]
        key = (is_bare, flat(first[:1]), *map(flat, others))
        shown[key] += count
        by[key].update(threads.get(frames, ()))
    ranked = shown.most_common()
    for key, count in ranked[:MOST_STACKS]:
        is_bare, first, *others = key
        some = flat(share(count, sum(shown.values()), is_bare, by[key]))
        yield f"     in {first}" + f" ({some})" * (len(ranked) > 1)
        yield from (f"       from {parts}" for parts in others)
    if len(ranked) > MOST_STACKS:
        rest = sum(count for _, count in ranked[MOST_STACKS:])
        yield (f"     and {counted(len(ranked) - MOST_STACKS, 'more stack')} "
               f"({counted(rest, 'access')})")


def window_lines(window):
    """The events before the accesses of the race that is shown of a group."""
    yield f"   Before the accesses: {'nothing' if not window.before else ''}".rstrip()
    rows = [window.events[event] for event in window.before]
    texts = [(str(row.number), short(row.thread, NAME),
              short(b"%b(%b)" % (row.word, row.called) if row.called else row.word, NAME)) for row in rows]
    widths = [max(map(columns, column)) for column in zip(*texts)]
    for row, (number, thread, operation) in zip(rows, texts):
        location = flat([place(row.location)])
        yield (f"     {number:>{widths[0]}}  {padded(thread, widths[1])}  {padded(operation, widths[2])}  "
               f"{location}")
