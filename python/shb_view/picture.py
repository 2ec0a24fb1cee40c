"""What page.js draws a picture of a race from: a lane for each thread, a row for each event, and both
accesses last. Where lines and texts stand is decided here; the script writes them, and cuts texts in a narrow
window. All lines are left of the column of texts, so none crosses a text."""

import collections
import re

from shb_view.names import short
from shb_view.words import NO_LOCK, VERBS, flat_in, lock_parts

TEXT, TIP = 36, 240  # columns
VERSION = rb"(?s)@@?[0-9]+([<>].*)?$"
MOST_BARS = 4
STUB = 0.4  # rows that a bar goes on where its lock's acquire or release isn't shown
WORDS = {**VERBS, b"acq": "acquires", b"rel": "releases", b"fork": "starts", b"join": "joins",
         b"begin": "begins", b"end": "ends"}
ATOMICALLY = {b"acq": "loads atomic", b"rel": "stores atomic"}
# Pixels: of a row; of a thread's name; between a lane and what is right of it; between neighbours; of a bar
# and of a letter along it; the bends of arrows; the circle of an access.
ROW, HEAD, GAP, STEP, BAR, LETTER, ROUND, ACCESS = 38, 19, 16, 7, 16, 6.7, 5, 8
BAND, LINE = 22 + ROW, 14  # from the band's top to the accesses; between lines of text

# An arrow from an event to another one, by their places in the list of events. `is_seen`: the one reads what
# the other wrote.
Edge = collections.namedtuple("Edge", "first second is_seen")

# A lock that a lane's thread holds, from a row to a row.
Bar = collections.namedtuple("Bar", "lane name top bottom")


def picture(window, gathered):
    """`x` has the place of each lane and `texts` that of all texts, `band` is the top of the band
    with both accesses."""
    ends = {event for edge in window.edges for event in edge}
    before = [shown for shown in map(window.events.get, window.before)
              if shown.number in ends or not version_of(gathered, shown)]
    accesses = list(map(window.events.get, window.accesses))
    rows = [*before, *accesses]
    lanes = {thread: lane
             for lane, thread in enumerate(dict.fromkeys(shown.thread for shown in [*accesses, *before]))}
    edges = needed(window.edges, rows)
    drawn = Layout(len(lanes), [lanes[shown.thread] for shown in rows], edges, bars_of(rows, lanes))
    return {"lanes": [short(thread, TEXT) for thread in lanes], "x": drawn.x, "texts": drawn.texts,
            "band": drawn.band, "height": drawn.band + 26 + 3 * ROW,
            "events": [event_data(shown, gathered, drawn, at) for at, shown in enumerate(rows)],
            "gaps": gaps(rows),
            "edges": [[*drawn.arrow(it), int(edge.is_seen)] for it, edge in enumerate(edges)],
            "bars": [[*drawn.rectangle(it), bar.name, drawn.name(it)] for it, bar in enumerate(drawn.bars)]}


class Layout:
    """Where all stands. `events` are their lanes, in the order of their rows; the last two stand
    in one row."""

    def __init__(self, lanes, events, edges, bars):
        self.events, self.edges, self.bars, self.last = events, edges, bars, len(events) - 2
        self.top = HEAD * lanes + 4
        self.band = self.top + ROW * self.last + 6
        self.y = [self.height(min(at, self.last)) for at in range(len(events))]
        self.spans = [(bar.lane, self.height(bar.top), self.height(bar.bottom)) for bar in bars]
        self.bar_slots, most_bars = slots(self.spans)
        self.edge_slots, most_edges = slots(
            [(self.gap(edge), self.y[edge.first], self.y[edge.second]) for edge in edges])
        self.x, right = [], 6
        for lane in range(lanes):
            self.x.append(right + BAR * most_bars[lane] + 8)
            right = self.x[lane] + GAP + STEP * most_edges[lane]
        self.texts = right + 4

    def height(self, row):
        below = row - self.last
        return self.band + BAND + ROW * below if below >= 0 else self.top + ROW * row + ROW // 2

    def gap(self, edge):
        """The lane right of which an arrow goes down: left of the lane where it ends, or right of it if it
        comes from there."""
        first, second = self.events[edge.first], self.events[edge.second]
        return second - 1 if first < second else second

    def text(self, at):
        """The height of an event's first line of text."""
        return self.y[at] - 2 if at < self.last else self.band + 38 + (ROW + LINE) * (at - self.last)

    def rectangle(self, it):
        """Left, top and height of a bar."""
        lane, top, bottom = self.spans[it]
        return self.x[lane] - 8 - BAR * (self.bar_slots[it] + 1) + 2, round(top, 1), round(bottom - top, 1)

    def name(self, it):
        """As much of a bar's name as there is room for along it, above the line between the accesses."""
        _, top, bottom = self.spans[it]
        most = int((min(bottom, self.band + BAND - ACCESS) - top - 6) / LETTER)
        name = self.bars[it].name
        return name if len(name) <= most else f"{name[:most - 1]}…" if most > 7 else ""

    def unnamed(self, at):
        """The locks that begin to be held at an event, or are held there first, whose bars have no room
        for their names."""
        return [bar.name for it, bar in enumerate(self.bars) if self.name(it) != bar.name and at == next(
            event for event, lane in enumerate(self.events) if lane == bar.lane
            and min(event, self.last) >= bar.top)]

    def arrow(self, it):
        """The path of an arrow, its tip, and how far its back is from there."""
        edge = self.edges[it]
        down = self.x[self.gap(edge)] + GAP + STEP * self.edge_slots[it] - 6
        begin, end = self.x[self.events[edge.first]], self.x[self.events[edge.second]]
        first, second = self.y[edge.first], self.y[edge.second]
        turn, way = ROUND if begin < down else -ROUND, 1 if down < end else -1
        end -= way * (ACCESS + 1 if edge.second >= self.last else ROUND)
        return (f"M{begin} {first}H{down - turn}Q{down} {first} {down} {first + ROUND}V{second - ROUND}"
                f"Q{down} {second} {down + way * ROUND} {second}H{end}"), end, second, -7 * way


def slots(spans):
    """For each span, a group with a top and a bottom, the first place in its group where it overlaps no
    other; and how many such places each group has."""
    taken, found = {}, []
    for group, top, bottom in spans:
        slot = 0
        while any(top < end + STEP and start < bottom + STEP for start, end in taken.get((group, slot), ())):
            slot += 1
        taken.setdefault((group, slot), []).append((top, bottom))
        found.append(slot)
    return found, collections.Counter(group for group, _ in taken)


def event_data(shown, gathered, drawn, at):
    """An event with its lane, its height and that of its texts, what these are, and its tip."""
    does = WORDS[gathered.of(shown.number, shown.word, shown.name)]
    location = short(shown.location, TEXT) if shown.location else "(no location)"
    version = version_of(gathered, shown)
    if version and shown.name.partition(b"@")[0] in gathered.stacks.atomics:
        does = ATOMICALLY[shown.word]
    name = short(shown.called[:version.start()] if version else shown.called or b"", TEXT - 9)
    others = [lock for lock in drawn.unnamed(at) if lock != name] if at < drawn.last else []
    number = f"{at - drawn.last + 1}  " if at >= drawn.last else ""
    return [shown.number, drawn.events[at], drawn.y[at], drawn.text(at), f"{number}{does} {name}".rstrip(),
            f"{location} · {shown.number}" + (f" · holds {', '.join(others)}" if others else ""), tip(shown)]


def gaps(rows):
    """For each event whether events of its thread before it are left out."""
    last, found = {}, []
    for shown in rows:
        found.append(int(shown.previous != last.get(shown.thread, 0)))
        last[shown.thread] = shown.number
    return found


def version_of(gathered, shown):
    """What follows the name of a lock that stands for a version of an atomic, a semaphore or the like in a
    recorded run, or nothing. Its events are drawn only where an arrow ends."""
    of_lock = gathered.stacks.numbers and shown.word in (b"acq", b"rel") and shown.called
    return of_lock and re.search(VERSION, of_lock)


def bars_of(rows, lanes):
    at = {shown.number: min(row, len(rows) - 2) for row, shown in enumerate(rows)}
    bars = {}
    for shown in rows:
        row = at[shown.number]
        for lock, acquire in shown.locks[-MOST_BARS:]:
            top = bars[acquire].top if acquire in bars else at.get(acquire, row - STUB)
            bars[acquire] = Bar(lanes[shown.thread], short(lock, TEXT), top,
                                row + (0 if shown.freed == lock else STUB))
    return list(bars.values())


def needed(edges, rows):
    """The edges but for those that an earlier one from the same thread to the same thread makes needless."""
    at, latest, found = {shown.number: row for row, shown in enumerate(rows)}, {}, []
    for first, second in sorted(((at[source], at[event]) for source, event in edges),
                                key=lambda edge: (edge[1], -edge[0])):
        source, later = rows[first], rows[second]
        if first > latest.get((source.thread, later.thread), -1):
            latest[source.thread, later.thread] = first
            found.append(Edge(first, second, later.word == b"r" and later.source == source.number))
    return found


def tip(shown):
    """The line of an event and its number in the file, and the locks that its thread holds."""
    names = [flat_in(TEXT)(lock_parts(lock)) for lock, _ in shown.locks]
    more = [f"{shown.held - len(names):,} more"] if shown.held > len(names) else []
    return (f"line {shown.row}: {short(shown.line, TIP)}\n"
            + (f"holds {', '.join(names + more)}" if names or more else NO_LOCK))
