"""The facts of the view, read again by facts_reader.py: of made traces, and of programs with a line to blame
where the recorder is built."""

import collections
import os
import tempfile
import types

import facts_reader
import facts_traces
import program
import shb
from viewing import QUIET, asked, gathered_of

from shb_common.report import Counts
from shb_common.result import text
from shb_common.stacks import Stacks
from shb_view import result, view
from shb_view.analyser import Verdict
from shb_view.trace import Trace

MADE = int(os.environ.get("SHB_FACTS", 300))  # traces


def facts_of(trace, stacks, written=None):
    """The facts of a trace's groups, each with the pairs of lines of its group, as `places.json` has them.
    `written` is a report, where it isn't the trace's own."""
    with tempfile.TemporaryFile() as file, tempfile.TemporaryFile() as report, \
            tempfile.NamedTemporaryFile() as beside:
        file.write(trace)
        report.write(written or shb.report(trace, False))
        beside.write(stacks)
        for one in (file, report, beside):
            one.flush()
        report.seek(0)
        given = view.Given((), report, Verdict(None, ""))
        counts, gathered = Counts(*shb.counts_of(shb.read_trace(trace)[0])), gathered_of(report)
        gathered.know(Stacks(beside.name, counts.events))
        shown = types.SimpleNamespace(gathered=gathered)
        made = view.Subject(given, counts, counts.events)
        how = asked()._replace(has_windows=False)
        for section in view.make_sections(how, gathered, made, Trace(file, QUIET), gathered.groups())[1]:
            yield result.group_entry(shown, section), [tuple(map(text, pair.locations))
                                                       for pair in section.group.pairs]


def read_again(traces):
    """How many facts of each form were found, and the faults, each with its trace."""
    forms, faults = collections.Counter(), []
    for trace, stacks in traces:
        found = list(facts_of(trace, stacks))
        forms.update(fact["form"] for fact, _ in found)
        faults += [(trace, fault) for fault in facts_reader.Reader(trace, stacks).faults(found)]
    return forms, faults


class Facts(program.Case):
    def test_made_traces(self):
        forms, faults = read_again(facts_traces.made(MADE, 1))
        self.assertEqual(faults, [])
        self.assertLessEqual(set(facts_reader.KNOWN) - {"uncounted", "ordered"}, set(forms))

    def test_a_lock_of_each_element(self):
        """Elements that different threads use have a lock in their own element, which no element alone
        tells of the one line that holds another's."""
        lines = [f"{thread}|{does}|f.c:{at}" for thread, lock, element, at in (
                     ("A", 0, 0, 10), ("B", 1, 1, 20), ("C", 1, 0, 30), ("D", 0, 1, 30))
                 for does in (f"acq(a[{lock}].door)", f"w(a[{element}].sum)", f"rel(a[{lock}].door)")]
        trace = "".join(f"{line}\n" for line in lines).encode()
        stacks = b"shb-stacks 1 %020d\n" % len(lines) + bytes(4 * len(lines))
        [(fact, pairs)] = facts_of(trace, stacks)
        self.assertEqual((fact["form"], fact["name"], fact["lines"], fact["locks"]), (
            "without", "a[*].door", ["f.c:30"], {"a[0].sum": "a[0].door", "a[1].sum": "a[1].door"}))
        reader = facts_reader.Reader(trace, stacks)
        self.assertEqual(list(reader.faults([(fact, pairs)])), [])
        fact["locks"] = {"a[0].sum": "a[1].door", "a[1].sum": "a[0].door"}
        self.assertNotEqual(list(reader.faults([(fact, pairs)])), [])

    def test_a_report_of_no_race(self):
        """A report may be wrong: accesses that hold one lock don't race, and that is the fact."""
        lines = [b"%b|%b|a.c:%d" % (thread, operation, number) for number, (thread, operation) in enumerate(
            (thread, operation) for thread in (b"T0", b"T1")
            for operation in (b"acq(m)", b"w(x)", b"rel(m)"))]
        report = (b"shb-report 2\nevents 6 threads 2 locks 1 variables 1\nraces 1\nplaces 1\nplace 1: 1\nat "
                  b"a.c:1\nand a.c:4\nrace 1: 2 5\nfirst %b\nsecond %b\nend\n" % (lines[1], lines[4]))
        trace = b"".join(line + b"\n" for line in lines)
        [(fact, pairs)] = facts_of(trace, b"shb-stacks 1 %020d\n" % len(lines) + bytes(4 * len(lines)),
                                   report)
        self.assertEqual(
            (fact["form"], list(facts_reader.Reader(trace).faults([(fact, pairs)]))), ("ordered", []))
        fact["form"] = "apart"
        self.assertNotEqual(list(facts_reader.Reader(trace).faults(
            [({**fact, "lines": ["a.c:1", "a.c:4"], "held": {}, "all_hold": False}, pairs)])), [])
