"""The words of the command, its passes and its statuses."""

import argparse
import os
import pathlib
import shlex
import shutil
import signal
import sys
import traceback

from shb_common import known
from shb_common.commands import Parser, number
from shb_common.parts import ANALYSER, NO_ANALYSER
from shb_common.sources import Sources
from shb_common.standard import open_standard_files, tell, words_of, write_texts
from shb_common.words import Refused, counted
from shb_farm import engines, merging, outcomes, passes, tables, traces
from shb_farm.calls import Calls

ABOUT = """\
Analyses all traces in a folder and below, and joins what was found: one row per
two locations that race, whichever comes first, with their variables and the
number of traces that have them. A place is such a pair in one order. A trace is
NAME.std, NAME.std.gz or NAME.std.xz; links within the folder are followed. Each
trace ends as a file in OUT/outcomes, put in place whole and last. To resume, or
when traces or the program have changed, run the same command again: it makes
what isn't there yet."""
NOTES = f"""\
Files in OUT:
  places.txt      the places as text, which is also printed; then the traces
                  without a report
  places.tsv      the places as a table, with an example and its report
  places.json     the places with all that is known of them, for programs
  places.sarif    the places for code review tools, in SARIF 2.1.0
  facts.tsv       what was found, one number per line (see Exit status)
  unknown.places  the places that aren't known, as a file of known places
  traces.tsv      how each trace ended: a report, refused, out of memory, time
                  or size, or missing; with its seconds and MiB
  reports/        for each unknown place what 'shb places --list --variables'
                  writes of the smallest trace that has it

{known.HELP}  Functions are known if the recorder's NAME.stacks is beside NAME.std. Lines
  that match nothing are reported, unless a trace has no list of places.

Exit status:
  The first that applies:

  3  wrong command line
  4  no trace, or a folder, a file or an engine failed; the reason is on
     standard error
  2  a trace has no outcome: it is missing
  1  there is a place that isn't known; with --fail-on-stale also: a line of
     the known places matched nothing
  5  a trace was refused, or memory, time or size didn't suffice
  6  a file of call stacks is damaged
  0  none of these

  Several may be true. A script asks for one by its line in OUT/facts.tsv, a
  name, a tab and a number: traces, reports, refused, missing, damaged (call
  stacks), places, unknown, known, stale (lines of known places), unreported
  (places whose report is missing). For example

      awk '$1 == "refused" && $2 > 0 {{ bad = 1 }} END {{ exit bad }}' out/facts.tsv

Environment:
  SHB  the program to run, if not the one that came with this command
"""
OPTIONS = """\
--known FILE: places to skip
--fail-on-stale: end with status 1 if a line of --known matched nothing
--links: follow links that lead out of TRACES
--source DIR: the repository: places.sarif names its files if it finds them
--engine NAME: xargs: this machine (the default); slurm: a job array on a cluster whose nodes see the same
  folders
--jobs N: with xargs: traces at once (as many as processors)
--memory MIB: memory of a trace (%(default)s)
--seconds N: processor time of a trace (%(default)s)
--size MIB: most of a report, and of the text of a packed trace (%(default)s)
--sbatch WORDS: with slurm: further words for sbatch
TRACES: the folder of the traces
OUT: the folder for outcomes and tables
"""


def arguments(words):
    parser = Parser("shb-farm", ABOUT, NOTES, usage="shb-farm [OPTION].. TRACES OUT")
    numbers = {"jobs": len(os.sched_getaffinity(0)), "memory": 1024, "seconds": 3600, "size": 1024}
    parser.add(OPTIONS, engine={"choices": sorted(engines.ENGINES), "default": "xargs", "metavar": None},
               sbatch={"type": shell_words, "default": []},
               **{name: {"type": number(1), "default": its} for name, its in numbers.items()})
    return parser.parsed(joined(words))


def joined(words):
    """The words of the command line, `--sbatch` and its value as one: that begins with a dash too."""
    if "--sbatch" not in words[:-1]:
        return words
    at = words.index("--sbatch")
    return [*words[:at], f"--sbatch={words[at + 1]}", *words[at + 2:]]


def shell_words(text):
    try:
        return shlex.split(text)
    except ValueError as fault:
        raise argparse.ArgumentTypeError(f"{fault} in {text}") from None


def analyser():
    """The program to run: the one that SHB names, else the one that came with this command."""
    named = os.environ.get("SHB")
    found = shutil.which(named or ANALYSER)
    if not found:
        raise Refused(f"{named}: no such program" if named else NO_ANALYSER(ANALYSER))
    return os.path.realpath(found)


def pass_of(options, room):
    shb = analyser()
    with open(shb, "rb") as program:
        checksum = outcomes.checksum_of_file(program)
    traces, out = os.path.realpath(options.traces), os.path.realpath(options.out)
    return passes.Pass(shb, checksum, traces, out, str(room), options.links, memory=options.memory,
                       seconds=options.seconds, size=options.size)


def run_pass(options, work, names, outside=()):
    """Runs those traces of these names that have no outcome that counts, the longest first, and returns how
    each ended. `outside` are links to skip."""
    endings = {name: merging.ending_of(work, name, outside) for name in names}
    waiting = [name for name, ending in endings.items()
               if ending.kind == "missing" and ending.size is not None]
    if waiting:
        now = work._replace(names=sorted(waiting, key=lambda name: -endings[name].size))
        engines.ENGINES[options.engine](now, passes.write(now), options)
        endings.update((name, merging.ending_of(work, name)) for name in waiting)
    return endings


def with_reports(options, work, rows):
    """The rows of places, those that aren't known with the report of their example."""
    examples = sorted({row.example for row in rows if not row.is_known})
    kept = work._replace(form=passes.KEPT)
    endings = run_pass(options, kept, examples)
    return [row if row.is_known else row._replace(report=report_of(kept, row.example, endings[row.example]))
            for row in rows]


def report_of(work, name, ending):
    """Where the report of a trace is, below the folder of the outcomes, or why there is none."""
    if ending.kind != "report":
        return "missing" if ending.kind == "missing" else tables.why(ending)
    return os.path.relpath(passes.kept_path(work.out, name, "report"), work.out)


def run(options):
    if traces.is_below(os.path.realpath(options.traces), os.path.realpath(options.out)):
        raise Refused(f"{options.out}: TRACES is this folder or below it; name another OUT, which may be "
                      "below TRACES")
    if options.source and not os.path.isdir(options.source):
        raise Refused(f"{options.source}: no such folder of sources")
    known_places = known.given(options.known, engines.say)
    with passes.room_in(os.path.realpath(options.out)) as room:
        work = pass_of(options, room)
        names, outside = traces.names_in(work.traces, work.out, work.links)
        if not names:
            raise Refused(f"{options.traces}: there is no trace in this folder and below (NAME.std, "
                          "NAME.std.gz or NAME.std.xz)")
        endings, calls = run_pass(options, work, names, outside), Calls(work.traces, work.links)
        rows, files = merging.rows_of(endings, known_places, calls)
        rows = with_reports(options, work, rows)
        found = found_of(options, rows, endings, known_places, len(calls.damaged))
        for words in known.words_of_stale(found.stale, files):
            engines.say(f"{options.known}, {words}")
        unseen = merging.unseen(endings)
        if options.known and unseen:
            engines.say(f"{options.known}: which lines are stale isn't known: {counted(unseen, 'trace')} "
                        "without a list of places")
        write_texts([tables.write(pathlib.Path(work.out), room, found, Sources(options.source), calls)],
                    sys.stdout)
        return found.status


def found_of(options, rows, endings, known_places, damaged):
    """All that was found. Which known lines are stale isn't known unless the places of all traces are."""
    stale = [] if merging.unseen(endings) else known_places.stale()
    facts = merging.facts_of(rows, endings, len(stale), damaged)
    return tables.Found(rows, endings, facts, stale, merging.status_of(facts, options.fail_on_stale))


def main(words):
    open_standard_files()
    sys.stderr.reconfigure(errors="backslashreplace")
    for name in (signal.SIGTERM, signal.SIGHUP):
        signal.signal(name, lambda number, frame: sys.exit(128 + number))
    try:
        return run(arguments(words))
    except (Refused, OSError) as fault:
        said = words_of(fault)
    except Exception:
        # 1, with which Python would end, says that there is an unknown place
        said = traceback.format_exc().rstrip()
    tell(f"shb-farm: {said}")
    return 4
