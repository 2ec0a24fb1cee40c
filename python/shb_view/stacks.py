"""What is shown of call stacks."""

import itertools
import re

from shb_common.known import OFFSET
from shb_common.locations import bare, parts_of
from shb_common.words import counted
from shb_view.words import Code, listed, lock_parts, place

MAKES_FIBER, HANDLER = b"__tsan_create_fiber", b"signal handler"
OF_SYSTEM = "({} of the system's headers or libraries)".format
WITHOUT_LINE = {MAKES_FIBER: " (which made the fiber)", HANDLER: ""}


def perhaps_ordered(sites, callers, stacks, calls):
    """The modules without hooks that both sides of the races call, are called by, or were started by."""
    found = []
    for site in [site for site in sites if site.partners]:
        frames = {frame for (its, _), _ in callers.get(site.location, ()) for frame in its}
        started = {frame for thread in site.threads for frame in stacks.of_thread(thread)[:1]}
        names = {bare(frame.function)
                 for frame in frames} | {parts_of(frame.location)[0] for frame in frames | started}
        found.append(set().union(*(calls.get(name, ()) for name in names)))
    return sorted(set.intersection(*found)) if found else []


def origins(view, section):
    """Where the threads of a group's racing lines were created, where the blocks of its variables were
    allocated, and where the locks that are held at its shown race were taken: what it is, as parts, with a
    stack. Threads, and blocks, whose stacks are told alike are told together, and neighbours in one block
    once."""
    threads = sorted({thread for site in section.sites if site.partners for thread in site.threads})
    found = told_together("thread", "created", [(it, view.stacks.of_thread(it)) for it in threads])
    blocks = {re.sub(OFFSET, b"", name): view.stacks.of_variable(name)
              for name in map(view.gathered.in_trace, section.group.names)}
    found += told_together("block", "allocated", blocks.items())
    window = section.window
    for shown in [window.events[access] for access in window.accesses] if window else []:
        found += [(["lock ", *lock_parts(lock), ", held at ", place(shown.location), ", was taken"],
                   view.stacks.of_event(acquire))
                  for lock, acquire in shown.locks]
    return [(list(parts), frames)
            for parts, frames in dict.fromkeys((tuple(parts), frames) for parts, frames in found if frames)]


def told_together(kind, verb, its):
    """What is said of named things with stacks, where these are told alike once."""
    found = {}
    for name, frames in its:
        key = tuple(map(tuple, caller_lines(frames, len(frames))))
        found.setdefault(key, ([], frames))[0].append(Code(name))
    return [([f"{kind} " if len(names) == 1 else f"{kind}s ", *listed(names),
              f" was {verb}" if len(names) == 1 else f" were {verb}"], frames)
            for names, frames in found.values()]


def caller_lines(frames, most):
    """What is said of a stack, the innermost frame first, each line as parts. Of frames in the system's
    headers and libraries the innermost are left out, since the access is named by the line that called them,
    and the outermost, which started the thread; several others are one line. Where all are of the system the
    innermost stands for them."""
    own = [number for number, frame in enumerate(frames) if not frame.in_system]
    if not own:
        more = [[OF_SYSTEM(counted(len(frames) - 1, "more function"))]]
        return [*map(frame_parts, frames[:1]), *more * (len(frames) > 1)]
    found = []
    for in_system, its in itertools.groupby(frames[own[0]:own[-1] + 1], lambda frame: frame.in_system):
        lines = list(map(frame_parts, its))
        if in_system and len(lines) > 1:
            lines = [[OF_SYSTEM(counted(len(lines), "function"))]]
        found += lines
    if len(found) > most:
        found = [*found[:most - 1], [f"({len(found) - most + 1:,} more)"]]
    return found


def frame_parts(frame):
    unknown = WITHOUT_LINE.get(frame.function,
                               " (no line is known: it called code without -fsanitize=thread)")
    where = [" ", Code(frame.location)] if frame.location else [unknown]
    return [Code(bare(frame.function)), *where] if frame.function else where[-1:]
