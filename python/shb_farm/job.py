#!/usr/bin/env python3
"""Makes the outcomes of some traces of a pass, whatever engine asks for them.

    job.py PASS EVERY [FIRST]

PASS is the file of the pass. Of its traces, each EVERY-th is run, from number FIRST on, or from
SLURM_ARRAY_TASK_ID. Run twice, even at once, it does no harm: a valid outcome isn't made again. The
status is 0, or 1 if a trace got no valid outcome.
"""

import os
import pathlib
import sys

HOME = pathlib.Path(__file__).resolve().parents[1]
sys.path.insert(0, str(HOME))

from shb_common.children import end_with
from shb_common.files import open_regular, put
from shb_common.standard import tell, words_of
from shb_farm import outcomes, passes, reports, running, traces
from shb_farm.outcomes import Cost
from shb_farm.running import METER


def make_outcome(work, name):
    """Makes the outcome of a trace, unless there is a valid one. Returns its kind. If the trace changes
    meanwhile, the outcome has the stamp of before, and doesn't count."""
    path, place = pathlib.Path(work.traces) / name, passes.outcome_path(work.out, work.form, name)
    old, stamp = outcomes.read(place, name), outcomes.stamp_of(os.stat(path))
    if old and old.stamp == stamp and passes.is_valid(old, work, name):
        return old.kind
    if not work.links and not traces.is_below(os.path.realpath(path), work.traces):
        raise running.NotHere(traces.LEADS_OUT)
    METER.clear()
    with open_regular(path) as trace:
        stamp = outcomes.stamp_of(os.fstat(trace.fileno()))
        checksum = outcomes.checksum_of_file(trace)
        if old and old.trace == checksum and passes.is_valid(old, work, name):
            new = old._replace(stamp=stamp)
        else:
            end = reports.analysed(work, name, trace)
            cost = Cost(round(METER.seconds, 2), METER.kib, METER.text)
            new = outcomes.Outcome(name, work.program, checksum, stamp, cost, *end)
    put(place, outcomes.text_of(new), work.room)
    if new.kind == "failed":
        tell(f"shb-farm: {name}: {new.words}")
    return new.kind


def has_parent_in_session():
    """Whether the parent is of the same session: the new parent of an orphan is of another one."""
    try:
        return os.getsid(os.getppid()) == os.getsid(0)
    except ProcessLookupError:
        return False


def main(words):
    end_with(os.getppid())
    # what started it is of its session, and has ended already
    if len(words) > 2 and not has_parent_in_session():
        return 1
    sys.stderr.reconfigure(errors="backslashreplace")
    work, every = passes.read(words[0]), int(words[1])
    first = int(words[2] if len(words) > 2 else os.environ["SLURM_ARRAY_TASK_ID"])
    status = 0
    for name in work.names[first::every]:
        try:
            kind = make_outcome(work, name)
        except (OSError, running.NotHere) as fault:
            kind = "failed"
            tell(f"shb-farm: {name}: {words_of(fault)}")
        try:
            with open(pathlib.Path(work.room) / passes.DONE, "ab") as done:
                done.write(b".")    # counted by who watches the pass
        except OSError as fault:
            tell(f"shb-farm: {words_of(fault)}")
        if kind == "failed":
            status = 1
    return status


if __name__ == "__main__":
    sys.exit(main(sys.argv[1:]))
