"""The report of one trace."""

import os
import sys

from shb_common import analyser, refused
from shb_common.files import put_file, temporary_file
from shb_common.parts import part
from shb_common.report import BadReport, Report
from shb_common.variables import variable_of
from shb_farm import calls, passes, running, traces
from shb_farm.running import METER, End

MARKED = "a byte order mark before the first line is part of the first thread's name"


def analysed(work, name, trace):
    """How the program ended on an open trace. A report that is kept is put in place."""
    unpacker = traces.UNPACKERS.get(os.path.splitext(name)[1])
    if not unpacker:
        return analysed_text(work, name, trace)
    with temporary_file(work.room) as (text, _):
        end = traces.unpack(unpacker, trace, text, work)
        return analysed_text(work, name, text) if end.kind == "report" else end


def analysed_text(work, name, text):
    """The same of a trace that isn't packed: by one race of each variable at each place."""
    METER.text = os.fstat(text.fileno()).st_size
    with temporary_file(work.room) as (out, new):
        end = running.analyse(work, text, out)
        if end.kind != "report":
            return told(end, text)
        out.seek(0)
        try:
            report = Report(out)
            places = list(map(place_of, analyser.places_in(report.races())))
        except BadReport as fault:
            return End("failed", f"`shb` wrote no whole report: {fault}")
        if work.form == passes.KEPT:
            return End("report", str(kept(work, name, text, new)))
        counts = " ".join(f"{name} {count}" for name, count in report.counts._asdict().items())
        is_marked = os.pread(text.fileno(), len(refused.MARK), 0) == refused.MARK
        return End("report", f"{counts}; {MARKED}" if is_marked else counts, places)


def kept(work, name, text, report):
    """Puts the report of a trace in place, with what the view says of it. Returns the report's bytes."""
    put_found(work, text, name)
    size = os.stat(report).st_size
    put_file(report, passes.kept_path(work.out, name, "report"))
    return size


def told(end, trace):
    """How it ended, with the line for which the trace was refused."""
    return End("refused", refused.explained(end.words, trace)) if end.kind == "refused" else end


def place_of(place):
    """A place as an outcome has it: atomics are named as one variable."""
    by_name = {}
    for found in place.variables.values():
        by_name.setdefault(variable_of(found), found.events)
    return place._replace(variables=by_name)


def put_found(work, trace, name):
    """Has the view say what is known of the places of a trace. If it fails, that is left out."""
    stacks = calls.file_of(work.traces, name, work.links)
    path = passes.kept_path(work.out, name, "json")
    path.parent.mkdir(parents=True, exist_ok=True)
    beside = ["--stacks", stacks] if stacks else []
    words = [sys.executable or "python3", part("shb-view"), "--shb", work.shb, "--json", str(path), *beside,
             f"/dev/fd/{trace.fileno()}"]
    with open(os.devnull, "wb") as out:
        running.run(work, words, trace, out, pass_fds=[trace.fileno()])
