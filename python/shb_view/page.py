"""The page: one file that asks for nothing else. It has a row for each group, which opens, and in it the
group's text for an issue. What page.js draws a group from stands in one element, as JSON: names in there
never become markup."""

import binascii
import json
import shlex

from shb_common.html import Markup, element, head, joined, with_commands
from shb_common.locations import bare, line_of
from shb_common.parts import part_of_page
from shb_common.sums import sha256
from shb_common.words import counted
from shb_view.facts import RANKS, blamed_of
from shb_view.groups import common_name
from shb_view.issue import issue_lines, order_text
from shb_view.names import code_line, readable, short
from shb_view.picture import picture
from shb_view.source import excerpt
from shb_view.stacks import frame_parts, origins
from shb_view.words import (COUNTS, MOST_LOCKS, MOST_SITES, NO_LOCK, VERBS, Code, about, accesses_text,
                            bad_words, listed, lock_parts, lock_words, notes_of, partner_parts, place, share,
                            summary, thread_parts, verified_words)

NAME, LINE = 80, 240  # columns
# of a racing line; of each; threads, blocks and locks of a group
MOST_STACKS, MOST_FRAMES, MOST_ORIGINS = 8, 40, 8
MOST_BYTES = 2_000_000  # of what groups are drawn from; the last of them may go beyond
KNOWN = "known, or on an earlier page"


def marked(parts, most):
    """Parts of `words`, the names as code."""
    return joined(element("code", short(part, most)) if isinstance(part, Code) else part for part in parts)


def page_parts(view):
    style, script = map(part_of_page, ("page.css", "page.js"))
    yield head(f"{view.title}: {summary(view)[0]}", style, *map(sum_of, (style, script)))
    yield header(view) + '\n<main id="groups">\n'
    new, known = ([(number, section) for number, section in enumerate(view.sections, 1)
                   if section.is_asked_for == is_new] for is_new in (True, False))
    yield joined((group_row(view, *one, ["new"] * bool(known)) for one in new), "\n")
    if known:
        yield element("details", element("summary", counted(len(known), "group"), f" {KNOWN}"),
                      *(group_row(view, *one, ["known"]) for one in known), id="known")
    yield "\n</main>\n"
    if view.groups > len(view.sections):
        yield element("p", f"and {counted(view.groups - len(view.sections), 'more group')}")
    yield joined(element("p", note, class_="faint") for note in notes_of(view) if note in COUNTS)
    yield island(data(view)) + "\n" + element("script", Markup(script)) + "\n</body>\n</html>\n"


def sum_of(text):
    """What stands for a style or a script in a policy."""
    return f"'sha256-{binascii.b2a_base64(sha256(text.encode()).digest(), newline=False).decode()}'"


def island(found):
    """JSON in an element that no name can end."""
    text = json.dumps(found, ensure_ascii=False, separators=(",", ":")).replace("<", "\\u003c")
    return element("script", Markup(text), type="application/json", id="data")


def header(view):
    verdict = ([element("p", with_commands(bad_words(view)), class_="verdict bad")]
               if view.verdict.is_good is False else [])
    races, size = summary(view)
    notes = [note for note in notes_of(view) if note not in COUNTS]
    if view.verdict.is_good:
        verdict = [element("details", element("summary", with_commands(verified_words(view))),
                           element("code", view.judge), class_="verdict good")]
        del notes[0]
    return element("header", *verdict, element("h1", view.title),
                   *(element("p", note, class_="verdict bad") for note in view.notes),
                   element("p", races, class_="sum"), element("p", size, class_="faint size"),
                   *(element("p", with_commands(note), class_="faint") for note in [*notes, *view.about]))


def group_row(view, number, section, tags):
    """A group's row, and its text."""
    tags = [element("span", word, class_=f"tag {word.split()[0]}")
            for word in [*tags, *["perhaps ordered"] * bool(section.unseen)]]
    cells = {"no": number, "var": marked(common_name(section.group.variables), NAME),
             "fact": joined([marked(section.fact.tag, NAME), *tags]),
             "at": marked([place(blamed(section))], NAME),
             "races": counted(len(section.group.pairs), "place")}
    cells = [element("h2" if name == "var" else "span", cell, class_=name) for name, cell in cells.items()]
    return element("details", element("summary", joined(cells, " ")),
                   element("pre", "\n".join(issue_lines(view, section))),
                   class_=f"group rank{RANKS[section.fact.form]}", id=f"group-{number}")


def blamed(section):
    """The racing line that the headline names first, or the first one that there is."""
    return blamed_of(section.fact, section.group.locations()) or section.sites[0].location or b""


class Tables:
    """The frames and the stacks of the page, each once."""

    def __init__(self):
        self.frames, self.stacks = {}, {}

    def add(self, frames):
        """The number of a stack; -1 where none is known."""
        rows = tuple(self.frames.setdefault(frame, len(self.frames)) for frame in frames[:MOST_FRAMES])
        return self.stacks.setdefault(rows, len(self.stacks)) if rows else -1


def data(view):
    """What the script draws from. Parts are lists in which names stand in lists of their own."""
    tables, size, groups = Tables(), 0, []
    for section in view.sections:
        is_drawn = section.window and size < MOST_BYTES
        groups.append(group_data(view, section, tables) if is_drawn else None)
        size += len(json.dumps(groups[-1]))
    frames = [[told(frame_parts(frame), LINE), frame.in_system] for frame in tables.frames]
    return {"groups": groups, "frames": frames, "stacks": list(tables.stacks)}


def told(parts, most=NAME):
    return [[short(part, most)] if isinstance(part, Code) else part for part in parts]


def group_data(view, section, tables):
    sites = [[told([place(site.location)] if site.location is not None else ["further lines"]),
              code_line(view.source.code(site.location) or b"", LINE), accesses_text(site, not view.of_run),
              told(thread_parts(site) if site.location is not None else []),
              [[kind, told(parts)] for kind, parts in lock_words(site)], told(partner_parts(site)),
              bool(site.partners)]
             for site in section.sites[:MOST_SITES]]
    sides = [side_data(view, section, access, tables) for access in section.window.accesses]
    drawn = picture(section.window, view.gathered)
    return {"about": list(map(told, about(section))), "sides": sides,
            "note": order_text(view, section.window),
            "picture": drawn, "again": again(view, section), "sites": sites,
            "steps": [step_data(view, section.window.events[event]) for event, *_ in drawn["events"]],
            "more": max(0, len(section.sites) - MOST_SITES),
            "stacks": other_stacks(section, {side["stack"] for side in sides}, tables),
            "origins": [[told(parts), tables.add(frames)]
                        for parts, frames in origins(view, section)[:MOST_ORIGINS]]}


def side_data(view, section, access, tables):
    """An access, and the lines of code around it from the acquire of its newest lock on."""
    window, row = section.window, section.window.events[access]
    found, frames = view.source.place(row.location), view.stacks.of_event(access)
    locks = listed([lock_parts(lock) for lock, _ in row.locks], len(row.locks))
    side = {"at": told([place(row.location)]),
            "verb": VERBS[view.gathered.of(access, row.word, row.name)],
            "thread": short(row.thread, NAME),
            "locks": told(["holding ", *locks] if locks else [NO_LOCK]), "bare": not locks,
            "stack": tables.add(frames), "fault": found.fault if found else ""}
    if found and found.line() is not None:
        acquire = view.source.place(window.events[row.locks[-1][1]].location) if row.locks else None
        head, numbers, held = excerpt(found, acquire)
        uses = [view.source.place(use.location) for use in section.fact.uses()]
        atomics = {use.number for use in uses if use and use.path == found.path}
        head = function_words(head, frames, row.location) if head else b""
        side.update(first=numbers[0],
                    lines=[code_line(found.lines[number - 1].rstrip(), LINE) for number in numbers],
                    hit=found.number, held=list(held), atomics=sorted(atomics & set(numbers)),
                    head=code_line(head, LINE))
    return side


def step_data(view, shown):
    """Where an event is, its line of code, and the locks that its thread holds after it."""
    locks = [name for name, _ in shown.locks if name != shown.freed]
    locks += [shown.called] * (shown.word == b"acq" and shown.called not in locks)
    code = code_line(view.source.code(shown.location) or b"", LINE)
    held = ["holding ", *listed(map(lock_parts, locks), MOST_LOCKS)] if locks else [NO_LOCK]
    return [told([place(shown.location)]), code, told(held)]


def function_words(head, frames, location):
    """The function of a location: the line that it begins with, where this has its name, as not in a class;
    else its name in the stack."""
    function = next((bare(frame.function) for frame in frames if frame.location == location), b"")
    name = function.split(b"::")[-1].split(b"<")[0]
    return head.rstrip(b" {") if name in head else function


def again(view, section):
    """Commands that run the interleaving again, alone and in a debugger, and that judge its schedule."""
    has_schedule = bool(view.judge and section.window.schedule)
    judged = [["recompute and check its schedule", view.judge]] * has_schedule
    if not view.turns:
        return judged
    first = f"shb-record --replay {shlex.quote(view.turns)}"
    lines = dict.fromkeys(section.window.events[access].location for access in section.window.accesses)
    stops = [f"-ex {shlex.quote('break ' + readable(line))}" for line in lines if line_of(line)]
    in_debugger = " ".join([first, "gdb", *stops, "-ex run --args", view.command])
    return [["with the same thread switches", f"{first} {view.command}"],
            ["in a debugger that stops at the two lines", in_debugger], *judged]


def other_stacks(section, shown, tables):
    """Further stacks of the racing lines, with how many of a line's racing accesses have each."""
    found = []
    for site in section.sites[:MOST_SITES]:
        callers = section.callers.get(site.location, [])
        total = sum(count for _, count in callers)
        rows = [[told(share(count, total, is_bare, section.threads.get(frames, ()))), tables.add(frames)]
                for (frames, is_bare), count in callers[:MOST_STACKS]]
        if {stack for _, stack in rows} - shown - {-1}:
            found.append([told([place(site.location)]), rows, max(0, len(callers) - MOST_STACKS)])
    return found
