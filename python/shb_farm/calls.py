"""The call stacks that the recorder wrote beside traces: `NAME.stacks` is of `NAME.std`."""

import json
import os
import pathlib

from shb_common import result, stacks
from shb_common.programs import Origin
from shb_common.report import BadReport, Report
from shb_common.sarif import Access
from shb_common.standard import tell
from shb_common.words import printable
from shb_farm import passes
from shb_farm.traces import LEADS_OUT, SUFFIXES, is_below

MOST_FOUND = 64 << 20   # bytes of what the view says of a trace


class Calls:
    def __init__(self, folder, links):
        self.folder, self.links, self.damaged = folder, links, set()

    def path_of(self, name):
        """The file of stacks of a trace; None where there is none that is read."""
        return file_of(self.folder, name, self.links, self.pass_over)

    def origin_of(self, name):
        path = self.path_of(name)
        try:
            return Origin(stacks.Stacks(path))
        except (stacks.BadStacks, OSError) as fault:
            self.pass_over(path, fault)
            return Origin(stacks.Stacks())

    def pass_over(self, path, fault):
        if path not in self.damaged:
            self.damaged.add(path)
            said = fault.strerror if isinstance(fault, OSError) else fault
            tell(f"shb-farm: {printable(path)}: {said}; its call stacks are left out")

    def accesses_of(self, rows, out):
        """By the key of each row whose example has stacks and a report: the two accesses of a race there."""
        by_example, found = {}, {}
        for row in rows:
            if row.report.endswith(".report") and self.path_of(row.example):
                by_example.setdefault((row.example, row.report), []).append(row)
        for (example, report), their_rows in by_example.items():
            path = self.path_of(example)
            try:
                pairs = {frozenset(row.texts) for row in their_rows}
                accesses = accesses_in(pathlib.Path(out) / report, pairs, path)
            except (stacks.BadStacks, BadReport, OSError) as fault:
                self.pass_over(path, fault)
                continue
            found.update((row.key, accesses.get(frozenset(row.texts), ())) for row in their_rows)
        return found


def file_of(folder, name, links, pass_over=lambda path, why: None):
    """The file of stacks of a trace; None where there is none. As with traces, what isn't in the folder is no
    part of it unless `links` says so, and a device or a FIFO is none: `pass_over` is told."""
    stem = next((name[:-len(suffix)] for suffix in SUFFIXES if name.endswith(suffix)), name)
    path = os.path.join(folder, stem + ".stacks")
    if not os.path.lexists(path):
        return None
    if not links and not is_below(os.path.realpath(path), os.path.realpath(folder)):
        pass_over(path, LEADS_OUT)
    elif not os.path.isfile(path):
        pass_over(path, "it isn't a regular file")
    else:
        return path
    return None


def accesses_in(report, pairs, path):
    """By each of these pairs of locations that race in a report: the accesses of the first race there."""
    with open(report, "rb") as file:
        read = Report(file)
        calls = stacks.Stacks(path, read.counts.events)
        found = {}
        for race in read.races():
            pair = frozenset(race.place)
            if pair in pairs and pair not in found:
                found[pair] = tuple(
                    Access(one.thread, b"%b(%b)" % (one.word, one.name), calls.of_event(event), calls.sources)
                    for event, one in race.sides())
    return found


def entries_of(rows, out):
    """What the view says of the places of examples: by example and the two locations there."""
    found = {}
    for example in {row.example for row in rows if row.report.endswith(".report")}:
        path = passes.kept_path(out, example, "json")
        try:
            if path.stat().st_size <= MOST_FOUND:
                places = json.loads(path.read_text(encoding="ascii"))["places"]
                found.update(result.entries_of(example, places))
        except (OSError, ValueError, KeyError, TypeError):
            continue    # the view didn't take it: then it is a place without facts
    return found
