"""The tables of the results: as tab-separated values, for programs, for code review, as known places."""

import os
import re
import shlex

from shb_common import result, sarif
from shb_common.locations import parts_of
from shb_common.places import unknown_places
from shb_common.programs import pair_of
from shb_record.index import index
from shb_record.places import table

NUMBERS = r"#\d+| \(\d+ (?:or more )?(?:variables|blocks)\)|(?<= and )\d+ (?:or more )?(?=others)"


def tables_of(look, rows, status):
    """The tables of all that was looked at. `rows` are those of its places."""
    found, groups = {}, []
    for (process, trace), its in look.found.items():
        places = [{**place, "group": len(groups) + place["group"]} for place in its["places"]]
        found.update(result.entries_of((process, trace), places))
        groups += [{**group, "process": process, "trace": os.path.basename(trace)} for group in its["groups"]]
    entries = [entry(look, row, result.entry_of(found, row)) for row in rows]
    return written(shlex.join(look.options.words), document(look, rows, entries, groups, status), rows)


def written(title, its, rows):
    """The tables of a document, by their names. `rows` are those of its entries."""
    return {"unknown.places": unknown_places(rows), "places.tsv": table(rows),
            "places.json": result.in_bytes(its), "places.sarif": log(its, rows),
            "index.html": index(title, its)}


def document(look, rows, entries, groups, status):
    """All places with what is known of them, as `result.document` has them."""
    stale = look.stale()
    summary = {**counts(rows), "stale": len(stale), "status": status, "runs": len(look.runs)}
    return result.document("shb-record", summary, entries, stale=result.stale_of(stale),
                           notes=[*look.meaning(), *look.counts()], groups=groups,
                           is_whole=not look.has_failed and not look.is_cut)


def counts(rows):
    known = sum(row.is_known for row in rows)
    return {"places": len(rows), "unknown": len(rows) - known,
            "behind": sum(row.state() == "behind" for row in rows), "known": known}


def entry(look, row, found):
    """A row with the two accesses of its first race, what the view found, and the processes that have it."""
    process, trace = row.example
    reads = list(row.race.sides())
    if row.race.accesses[0].location != row.texts[0]:
        reads.reverse()
    return result.entry(row, found, reads, process=process, trace=os.path.basename(trace),
                        **({"group": found["group"]} if found else {}),
                        processes=[name for name, _ in look.places.seen[pair_of(row.key)].traces])


def log(its, rows):
    """The same for code review tools."""
    alerts = []
    for row, found in zip(rows, its["places"]):
        names = dict(zip(map(result.text, row.texts), row.names))
        accesses = tuple(access_of(one) for one in found["accesses"] if one.get("stacks"))
        blamed = found.get("blamed")
        if blamed:
            name, path = (result.name_of(blamed.get(its, "")) for its in ("in_trace", "file"))
            blamed = names.get(blamed["in_trace"], name), path
        alerts.append(sarif.Alert(row, without_numbers(found), "", result.name_of(found["trace"]), accesses,
                                  {"process": found["process"]}, blamed))
    notes = [("note", line) for line in its["notes"]]
    return sarif.log(alerts, sarif.Here(os.getcwd()), notes, its["is_whole"], its["summary"]["status"])


def without_numbers(found):
    """What is said of a place in each run alike: headline and remedy without numbers, and whose they are."""
    remedy = f"Remedy: {found['remedy']}" if found.get("remedy") else ""
    about = f"{found['about']}: " if "about" in found else ""
    return re.sub(NUMBERS, "", ". ".join(filter(None, (about + found.get("headline", ""), remedy))))


def access_of(one):
    from shb_common.stacks import Frame  # takes its time, and most runs have no place
    its = one["stacks"][0]["frames"]
    frames = [Frame(frame["function"].encode(), frame["location"].encode(), frame.get("in_system", False))
              for frame in its]
    files = {parts_of(frame.location)[0]: one.get("file", "").encode() for frame, one in zip(frames, its)}
    return sarif.Access(one["thread"].encode(), one["operation"].encode(), frames, files)
