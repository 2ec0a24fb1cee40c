"""The tables of a farm: as tab-separated values, as text, for programs and for code review tools."""

import collections
import os

from shb_common import known, result, sarif
from shb_common.files import put
from shb_common.places import count, unknown_places
from shb_common.words import printable
from shb_farm import calls

WIDEST = 60         # columns of the text's tables; a longer field moves what stands after it
MOST_NAMED = 3      # variables in a table


# What a farm has found: a row for each two locations, how each trace ended, the facts as numbers, the lines
# of the known places that matched nothing, the status.
Found = collections.namedtuple("Found", "rows endings facts stale status")


def field(text):
    """A text as bytes that are one field of a table."""
    return known.written(os.fsencode(text))


def variables_of(row):
    """The variables of a row as one field: the unknown ones first."""
    names = [name for name, _ in sorted(row.variables, key=lambda one: one[1])]
    more = [b"%d more" % (len(names) - MOST_NAMED)] if len(names) > MOST_NAMED else []
    return b", ".join([*map(known.written, names[:MOST_NAMED]), *more, *[b".."] * row.has_more])


def places_table(found):
    """A line for each two locations; FARM.md has its fields."""
    rows = ([b"%d" % row.traces, field(row.state()), *row.names, field(row.example), field(row.report),
             variables_of(row)] for row in found.rows)
    return known.table(b"traces\tstate\tfirst\tsecond\texample\treport\tvariables", rows)


def traces_table(endings):
    """A line for each trace: how it ended, its places, the words of its outcome, and what it cost."""
    rows = []
    for name, ending in endings.items():
        places = b"%d" % count(ending.places) if ending.kind == "report" else b""
        cost = ending.cost and (b"%.2f" % ending.cost.seconds, b"%d" % (ending.cost.kib // 1024))
        rows.append([field(name), field(ending.kind), places, field(ending.words), *(cost or (b"", b""))])
    return known.table(b"trace\toutcome\tplaces\twords\tseconds\tMiB", rows)


def why(ending):
    said = {"memory": f"out of memory in {ending.words} MiB",
            "time": f"not done in {ending.words} s of processor time",
            "size": f"its report, or the text of a packed trace, is longer than {ending.words} MiB"}
    return said.get(ending.kind, ending.words)


def note_of(ending):
    """What a reader must know of a trace that has a report; nothing mostly."""
    if ending.kind != "report":
        return ""
    return "it has no events" if ending.words.startswith("events 0 ") else ending.words.partition("; ")[2]


def aligned(lines):
    """Lines of fields, each column but the last as wide as its longest field, up to WIDEST."""
    lines = [[printable(part) for part in line] for line in lines]
    widths = [min(max(map(len, column)), WIDEST) for column in zip(*lines)]
    return ["  ".join(part.ljust(width) for part, width in zip(line, widths)).rstrip() for line in lines]


def text(found):
    """What is printed: the numbers, the places, traces without a report, and those with something to know."""
    names = ("traces", "reports", "refused", "missing"), ("places", "unknown", "known")
    lines = [" ".join(f"{name} {found.facts[name]}" for name in of_line) for of_line in names]
    head = [b"traces", b"state", b"first", b"second", b"variables", b"example"]
    rows = [[b"%d" % row.traces, field(row.state()), *row.names, variables_of(row), field(row.example)]
            for row in found.rows]
    lost = [[b"missing" if ending.kind == "missing" else b"refused", field(name), field(why(ending))]
            for name, ending in found.endings.items() if ending.kind != "report"]
    noted = [[b"report", field(name), field(note_of(ending))]
             for name, ending in found.endings.items() if note_of(ending)]
    for table in ([head, *rows] if rows else [], lost, noted):
        lines += ["", *aligned(table)] if table else []
    return "".join(line + "\n" for line in lines)


def document(found, entries):
    traces = [{"trace": result.text(os.fsencode(name)), "outcome": ending.kind, "words": ending.words,
               **({"seconds": ending.cost.seconds, "MiB": ending.cost.kib // 1024} if ending.cost else {})}
              for name, ending in found.endings.items()]
    places = [result.entry(row, result.entry_of(entries, row), traces=row.traces,
                           example=result.text(os.fsencode(row.example)))
              for row in found.rows]
    return result.document("shb-farm", {**found.facts, "status": found.status}, places,
                           stale=result.stale_of(found.stale), traces=traces)


def log(found, sources, entries, accesses):
    """The log for code review tools. `accesses` has those of a race at each place with known stacks."""
    alerts = []
    for row in found.rows:
        facts = " ".join(result.entry_of(entries, row).get("facts", ()))
        seen = (f"{row.traces} of {len(found.endings)} traces {'has' if row.traces == 1 else 'have'} it, "
                f"for example {printable(field(row.example))}")
        alerts.append(sarif.Alert(row, facts, seen, os.fsencode(row.example),
                                  accesses.get(row.key, ()), {"traces": row.traces}))
    notes = [notification_of(name, ending) for name, ending in found.endings.items()
             if ending.kind != "report" or note_of(ending)]
    return sarif.log(alerts, sources, notes, found.status != 2, found.status)


LEVELS = {"missing": "error", "report": "note"}


def notification_of(name, ending):
    """What is said of a trace that has no report, or of whose report something is to know."""
    said = printable(field(note_of(ending) or why(ending)))
    return LEVELS.get(ending.kind, "warning"), f"{printable(field(name))}: {said}"


def write(out, room, found, sources, stacks):
    """Writes all tables, each whole, and returns the text. `sources` has the files that locations name,
    `stacks` the call stacks."""
    said, entries = text(found), calls.entries_of(found.rows, out)
    facts = "".join(f"{name}\t{count}\n" for name, count in found.facts.items()).encode()
    files = {"places.tsv": places_table(found), "traces.tsv": traces_table(found.endings),
             "facts.tsv": facts, "unknown.places": unknown_places(found.rows),
             "places.txt": said.encode(errors="surrogateescape"),
             "places.json": result.in_bytes(document(found, entries)),
             "places.sarif": log(found, sources, entries, stacks.accesses_of(found.rows, out))}
    for name, content in files.items():
        put(out / name, content, room)
    return said
