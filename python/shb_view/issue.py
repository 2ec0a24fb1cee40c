"""A race as a text that can be pasted into an issue."""

from shb_common.words import counted
from shb_view.names import code_line, short
from shb_view.stacks import caller_lines
from shb_view.words import KINDS, NO_LOCK, Code, flat_in, lock_parts, place, told_of

NAME = 120  # columns
MOST_FRAMES = 16  # of a stack


flat = flat_in(NAME)


def issue_lines(view, section):
    """The group's closest race, and what is said of the group; of one that isn't shown whole that alone."""
    window = section.window
    if not window:
        yield from (flat(parts) for parts in told_of(section))
        return
    one, other = map(window.events.get, window.accesses)
    yield (f"data race on {short(view.gathered.name(one.name), NAME)}: "
           f"{flat([place(one.location), ' and ', place(other.location)])}")
    for access in window.accesses:
        yield from access_lines(view, window, access)
    allocated = stack_lines(view.stacks.of_variable(view.gathered.in_trace(one.name)))
    if allocated:
        yield "  the block was allocated at"
        yield from allocated
    yield from (f"  {flat(parts)}" for parts in told_of(section))
    yield f"  {order_text(view, window)}"


def access_lines(view, window, access):
    """An access, its line of code, the locks that its thread holds, and how the thread was started."""
    shown, fork = window.events[access], window.forks[access]
    yield (f"  {KINDS[view.gathered.of(access, shown.word, shown.name)]} by "
           f"{flat([Code(shown.thread), ' at ', place(shown.location)])} (event {access})")
    code = view.source.code(shown.location)
    if code is not None:
        yield f"      {code_line(code, NAME)}"
    yield from stack_lines(view.stacks.of_event(access))
    for lock, acquire in shown.locks:
        at = place(window.events[acquire].location)
        yield f"    holds {flat([*lock_parts(lock), ', acquired at ', at])} (event {acquire})"
        yield from stack_lines(view.stacks.of_event(acquire))
    if shown.held > len(shown.locks):
        yield f"    and {counted(shown.held - len(shown.locks), 'more lock')}"
    if not shown.held:
        yield f"    {NO_LOCK}"
    if fork:
        start = window.events[fork]
        by = flat([Code(start.thread), " at ", place(start.location)])
        yield f"    thread started by {by} (event {fork})"
    yield from stack_lines(view.stacks.of_thread(shown.thread))


def stack_lines(frames):
    return [f"      #{number} {flat(parts)}"
            for number, parts in enumerate(caller_lines(frames, MOST_FRAMES))]


def order_text(view, window):
    """After what the two accesses can execute next, as far as it is known."""
    in_run = view.made.uses.in_run
    numbers = [f"{in_run[access]:,}" for access in window.accesses if access in in_run]
    of_run = f"In the run the accesses are events {' and '.join(numbers)}" if numbers else ""
    if window.schedule is None:
        of_run = of_run or "No schedule of this race is at hand"
        return f"{of_run}: events are shown in the order of the trace."
    of = f"`shb check` found the schedule of race {window.race.number} good"
    its = counted(window.schedule.length, "event") + " of the page's trace" * view.of_run
    return f"{of}: after its {its} both accesses can execute next." + f" {of_run}." * bool(of_run)
