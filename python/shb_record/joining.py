"""Several recordings as one, as those of the machines of a CI: their places once each, with their runs."""

import os

from shb_common import result
from shb_common.known import CALL, Side, written
from shb_common.locations import parts_of
from shb_common.places import Row
from shb_common.programs import Location
from shb_common.report import Race
from shb_common.words import Refused, counted, printable
from shb_record import tables
from shb_record.index import shown
from shb_record.parts import say
from shb_record.results import Results

STATES = "unknown", "behind", "known"   # a place is the first of these that it is in any of them


def join(options):
    """Writes the tables and index.html of all. Returns the status: 66 if a place is unknown in any, else the
    greatest of theirs."""
    paths = [path_of(word) for word in options.words]
    if os.path.realpath(options.folder) in map(os.path.realpath, paths):
        raise Refused("--join: -o names one of the folders, whose pages would be replaced")
    documents = [result.read(path, row_of) for path in paths]
    for path, its in zip(paths, documents):
        if its.get("command") != "shb-record":
            raise Refused(f"{printable(path)}: it isn't of shb-record")
    results = Results(options.folder, "--join")
    joined, rows = joined_of(paths, documents, results.folder)
    summary, recordings = joined["summary"], counted(len(paths), "recording")
    faults = results.write(tables.written(f"{recordings} joined", joined, rows))
    results.close(True)
    if faults:
        raise faults[0]
    say(f"{counted(summary['unknown'], 'unknown place')} with races in {recordings} of "
        f"{counted(summary['runs'], 'run')}; the overview: {results.folder}/index.html")
    return summary["status"]


def path_of(word):
    """The folder of results that a word names, by itself or by its places.json; else the path of a file."""
    folder, name = os.path.split(os.path.abspath(word))
    return folder if name == result.NAME else os.path.join(folder, name)


def row_of(entry):
    """An entry as the row that it was written of, as far as tables need it."""
    names, texts = (tuple(result.name_of(access[name]) for access in entry["accesses"])
                    for name in ("location", "in_trace"))
    return Row(tuple(Location(result.name_of(access.get("file", "")), b"") for access in entry["accesses"]),
               names, texts, tuple(map(side_of, names, entry["accesses"])),
               tuple((result.name_of(one["name"]), one["state"] == "known") for one in entry["variables"]),
               entry["has_more_variables"], entry["state"] == "known", len(entry["processes"]),
               (entry["process"], entry["trace"]),
               Race(0, sorted(access["event"] for access in entry["accesses"]), (), None),
               entry["state"] == "behind")


def side_of(name, access):
    file, _ = parts_of(name)
    return Side((name,), tuple((b"%b:%b%b" % (file, written(result.name_of(function)), CALL),)
                               for function in access["functions"]))


def joined_of(paths, documents, target):
    """The documents as one, and the rows of its places. A process has its folder's name before its own, and
    `pages` has all pages of a place, each as a process and the number of its group."""
    places, groups, notes = {}, [], {}
    top = os.path.commonpath(list(map(os.path.dirname, paths)))
    for path, its in zip(paths, documents):
        folder = path if os.path.isdir(path) else os.path.dirname(path)
        whose = f"{printable(os.fsencode(os.path.relpath(path, top)))}, "
        way = result.text(os.fsencode(os.path.relpath(folder, target))) + "/"
        for place in its["places"]:
            key = tuple(sorted(access["location"] for access in place["accesses"]))
            new = {**moved(place, whose, way), "processes": [whose + name for name in place["processes"]],
                   "pages": [[whose + process, group + len(groups)] for process, group in shown(place)]}
            if "group" in place:
                new["group"] += len(groups)
            places[key] = merged(places[key], new) if key in places else new
        groups += [moved(group, whose, way) for group in its["groups"]]
        notes.update(dict.fromkeys(its["notes"]))
    entries = [places[key] for key in sorted(places)]
    rows, sums = list(map(row_of, entries)), [its["summary"] for its in documents]
    counts = tables.counts(rows)
    status = 66 if counts["unknown"] else max(its["status"] for its in sums)
    summary = {**counts, "stale": 0, "status": status, "runs": sum(its["runs"] for its in sums)}
    return result.document("shb-record", summary, entries, stale=[], notes=list(notes), groups=groups,
                           is_whole=all(its.get("is_whole", True) for its in documents)), rows


def moved(one, whose, way):
    return {**one, "process": whose + one["process"], "trace": way + one["trace"]}


def merged(one, other):
    """A place as two recordings have it: the accesses and the group are those of the first with a page. A
    variable is known if both know it."""
    variables = {its["name"]: its for its in sorted((*one["variables"], *other["variables"]),
                                                    key=lambda its: its["state"])}
    return {**(other if other["pages"] and not one["pages"] else one),
            "state": min(one["state"], other["state"], key=STATES.index),
            "variables": [variables[name] for name in sorted(variables)],
            "has_more_variables": one["has_more_variables"] or other["has_more_variables"],
            "processes": one["processes"] + other["processes"], "pages": one["pages"] + other["pages"]}
