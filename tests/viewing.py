"""Runs python/shb-view, as a command and in this process, on texts."""

import contextlib
import io
import os
import random
import subprocess
import sys
import tempfile
from unittest import mock

import made_traces
import program
import shb

PYTHON = program.HERE.parent / "python"
EXAMPLES = program.HERE.parent / "examples"
sys.path.insert(0, str(PYTHON))

from shb_common.report import Counts, Report
from shb_common import standard
from shb_common.uses import Uses
from shb_view import command, view
from shb_view.analyser import Verdict
from shb_view.groups import Gathered
from shb_view.trace import Trace

MADE = 150  # traces
QUIET = standard.Progress("shb-view", io.StringIO())


def sections(text, report, is_good=True):
    """The groups of a trace and its report, with what comes before their closest races."""
    with tempfile.TemporaryFile() as file, tempfile.TemporaryFile() as written:
        file.write(text)
        written.write(report)
        file.flush()
        written.seek(0)
        given = view.Given((), written, Verdict(is_good, ""))
        counts, gathered = Counts(*shb.counts_of(shb.read_trace(text)[0])), gathered_of(written)
        gathered.know(view.Stacks())
        made = view.Subject(given, counts, counts.events)
        return view.make_sections(asked(), gathered, made, Trace(file, QUIET), gathered.groups())[1]


def gathered_of(file):
    """The races of an open report that has all of them."""
    gathered, report = Gathered(), Report(file)
    for race in report.races():
        gathered.share(race)
        gathered.add(race)
    return gathered


def asked(shb=None):
    """That all is to be shown, but sources."""
    return view.Asked(shb or program.PATH, True, [], False, None)


def recorded_run(trace, uses, stacks, **more):
    """A run that was recorded: paths of its page's trace, which is the whole run, of its uses and
    of its stacks."""
    listed = Report(io.BytesIO(program.run(["places", "--list", "--variables"], trace.read_bytes()).out))
    uses = Uses(uses)
    return view.RecordedRun(trace, listed.counts, list(listed.races()), uses, view.Stacks(stacks, uses.count),
                            **more)


def windows(text, report, is_good=True):
    """What comes before the closest race of each group."""
    return [section.window for section in sections(text, report, is_good)]


def settings(**more):
    """The environment in which the view finds the built program, and in which Python writes as it does
    for a user."""
    return {name: value for name, value in program.with_settings(SHB=program.PATH, **more).items()
            if name != "PYTHONUNBUFFERED"}


def run(words, command=PYTHON / "shb-view", **how):
    how = {"stdout": subprocess.PIPE, "stderr": subprocess.PIPE, "env": settings(), **how}
    ran = subprocess.run([sys.executable, command, *words], timeout=program.SECONDS, **how)
    return program.Answer(ran.returncode, ran.stdout, ran.stderr)


def run_here(words, **more):
    """The same in this process: what isn't answered ends the test. `more` is what `shb-record` hands over."""
    out, err = io.TextIOWrapper(io.BytesIO(), "utf-8"), io.StringIO()
    words, shb = [str(word) for word in words], os.environ.get("SHB") or program.PATH
    with contextlib.redirect_stdout(out), contextlib.redirect_stderr(err):
        of_run = view.RecordedRun(*[None] * 5, **more)
        with mock.patch("shb_view.command.make_view",
                        lambda *words: view.make_view(*words, of_run)) if more else contextlib.nullcontext():
            status = command.main(words, shb)
    out.flush()
    return status, out.buffer.getvalue().decode(), err.getvalue()


def made(how_many, seed=1):
    """Made traces that keep the rules, with their events."""
    pick = random.Random(seed)
    while how_many:
        trace = made_traces.made_trace(pick)
        with contextlib.suppress(shb.Refused):
            yield pick, trace, shb.read_trace(trace)[0]
            how_many -= 1
