"""The words of the command, its runs and its statuses."""

import argparse
import contextlib
import itertools
import os
import re
import shlex
import shutil
import signal

from shb_common import known
from shb_common.children import adopt_orphans
from shb_common.commands import Parser, number
from shb_common.files import put
from shb_common.limits import MOST_EVENTS
from shb_common.standard import open_standard_files, words_of
from shb_common.stops import Stops
from shb_common.words import Refused, counted, printable
from shb_record.converting import Records
from shb_record.looking import Look
from shb_record.parts import LIBRARY, check_parts, say
from shb_record.results import Results
from shb_record.running import REPLAYED, CannotRun, jobs_of, runs
from shb_record.tables import counts, tables_of

MOST_PASSED, WAIT = 8, 10  # known races that are named; seconds
RACES, STALE, CUT, FAILED, CANNOT_RUN, NOT_THERE = 66, 67, 124, 125, 126, 127
# Numbers of the environment that the recorder reads, each with the least.
SETTINGS = {"SHB_SEED": 0, "SHB_SLICE": 1, "SHB_CELLS": 0, "SHB_RECORDS": 1, "SHB_STALL": 1, "SHB_SEGMENT": 1}
# What options of ThreadSanitizer's are called here.
OF_TSAN = {"suppressions": "--known", "halt_on_error": "--until-found", "log_path": "--log"}
USAGE = "shb-record [OPTION].. [--] PROGRAM [ARGUMENT].."
ABOUT = f"""\
Runs and records a program, and explains its data races.

The program has to be compiled with `-fsanitize=thread -g`. Every process that it starts is
recorded too, and the races of the run are explained on standard error. Programs built by
gcc need nothing else. With clang, which links a library of its own, set

  LDFLAGS = -fsanitize=thread -fno-sanitize-link-runtime -L{LIBRARY} -ltsan

A place is a pair of locations that race, that of the first access and that of the second,
each of its own program's source file."""
NOTES = f"""\
{known.HELP}
The environment's SHB names another analyser. SHB_SEED, SHB_SLICE, SHB_CELLS, SHB_RECORDS and SHB_STALL are
the recorder's (docs/RECORDER.md).

The first SIGINT or SIGTERM stops the program, which it is passed on to unless the terminal did so, and shows
what was recorded. A second one ends shb-record at once, and keeps the records that weren't shown.

Exit status: 125 if a check failed, whatever else was found; 66 if there is a race of a variable that isn't
known at its place, whatever the program's own status was; 67 with --fail-on-stale if there is none, and a
line of known places matched nothing; 125 if nothing was recorded or something failed, with the reason; 124 if
the recording is incomplete and there is no such race (if a signal killed the program, its own status,
128 + N, is returned instead); 126 or 127 if the program can't be run or isn't there; else the program's own.
The last lines print the program's own status and the path of the page."""
OPTIONS = f"""\
-o DIR: the folder of the results (PROGRAM.shb in this folder): for each process with a place its page's
  trace, the list of its places and a page with its races; places.tsv, places.json, places.sarif and
  unknown.places; and a list of what was made there. What the list of an earlier call names is replaced, and
  nothing else. While another call uses DIR, the results go to DIR-2, DIR-3 and so on
--runs N: run it N times, each with another interleaving (1); each place is shown once
--until-found N: run it at most N times, and end after the first run with a race that isn't known
--jobs N: record N runs at once (as many as there are processors; 1 with --replay, and if standard input is
  a file or pipe that isn't at its end). What they write is in files first, and printed run by run
--join: make one of several folders of results, or their places.json, which PROGRAM and its words name, as
  of several machines: the tables and index.html, in DIR
--live: show each place while the program runs, once. The run is recorded in segments. If they come faster
  than they can be analysed, the oldest are dropped, so memory and disk are bounded. A race between two
  segments is missed (SHB_SEGMENT=N: N records in one)
--replay RUN.turns: run it with the order of turns of an earlier run, as long as that fits. A run with a
  place that isn't known leaves the list in the folder of its results. If the list is left, it prints after
  how many turns; from there on the run is like any other
--known FILE: places to skip, as unknown.places has them. Lines that match nothing are reported
--fail-on-stale: end with status 67 for lines that match nothing, if no race is unknown. A race that is in
  few runs needs --runs
--source DIR: look for source files below this folder too; may be given again. Those of the debug
  information are found without it
--strip DIR: name files below this folder by their paths from it (shb-std --help)
--window N: the most events of a page's trace (%(default)s)
--wait N: wait up to N seconds for what outlives the program ({WAIT}), and for processes that SIGINT or
  SIGTERM is passed on to, before they are killed. If it is given, what is shown after such a signal has N
  seconds too
--log FILE: write to this file what otherwise goes to standard error, which then is the program's alone
--keep: keep the records (16 bytes per access)
--verify: find the races once more, in a trace that omits nothing, and end with status 125 if they differ.
  It takes about as long again
PROGRAM: the program, and the words that it is given
"""


def arguments(words):
    parser, least = Parser("shb-record", ABOUT, NOTES, FAILED, usage=USAGE), {"type": number(1)}
    parser.add(OPTIONS, ("runs", "until_found", "join", "live"), runs=least, until_found=least, jobs=least,
               o={"dest": "folder"}, known={"dest": "known_path"}, source={"action": "append", "default": []},
               window={**least, "default": MOST_EVENTS}, wait={"type": number(0)},
               program={"nargs": argparse.REMAINDER})
    found = parser.parsed(words)
    found.words = found.program[1:] if found.program[:1] == ["--"] else found.program
    if not found.words:
        parser.error("no program is named")
    found.program = found.words[0]
    if found.join and not found.folder:
        parser.error("--join: -o DIR, before the folders, names that of the joined results")
    found.folder = os.path.abspath(found.folder or os.path.basename(found.program) + ".shb")
    if "%p" in found.folder or "%s" in found.folder:
        parser.error("the folder of the results can't have %p or %s in its name")
    if found.live and (found.replay or found.keep):
        parser.error("--live keeps no records and no order of turns: it isn't for --keep or --replay")
    return found


def completed(options):
    """The options with what is read of the environment and of files."""
    check_settings()
    check_folders(options)
    options.seed = int(os.environ.get("SHB_SEED", "1"))
    options.show, options.wait = options.wait, WAIT if options.wait is None else options.wait
    options.runs, options.until_found = options.runs or options.until_found or 1, bool(options.until_found)
    options.jobs = jobs_of(options)
    if options.replay:
        from shb_record import turns  # as `live`, takes its time, and most calls do without
        options.turns = turns.read(options.replay)
    options.known = known.given(options.known_path, say)
    return options


def check_settings():
    """Refuses a setting that the recorder would read as another one."""
    for name, least in SETTINGS.items():
        try:
            number(least)(os.environ.get(name, "1"))
        except argparse.ArgumentTypeError as fault:
            raise Refused(f"{name}: {fault}, not `{os.environ[name]}`") from None
    for name in re.findall(r"\w+(?==)", os.environ.get("TSAN_OPTIONS", "")):
        if name in OF_TSAN:
            say(f"TSAN_OPTIONS isn't read: what it calls {name} is {OF_TSAN[name]}")
    if os.environ.get("SHB_STACKS", "1") not in ("0", "1"):
        raise Refused(f"SHB_STACKS: it takes 0 or 1, not `{os.environ['SHB_STACKS']}`")


def check_folders(options):
    """Refuses folders that aren't there, but the path of one on the machine that compiled the program."""
    for folder in options.source:
        if not os.path.isdir(folder):
            raise Refused(f"--source: {folder} isn't a folder")
    if options.strip and not os.path.isdir(options.strip) and not os.path.isabs(options.strip):
        raise Refused(f"--strip: {options.strip} isn't a folder")


def check_program(name):
    """Returns the status if the program can't be run, and says why."""
    if shutil.which(name):
        return None
    if not os.path.exists(name):
        say(f"{name}: not found" + f"; variables are set by env: shb-record env {name} PROGRAM"
            * bool(re.match(r"\w+=", name)))
        return NOT_THERE
    if "/" not in name and shutil.which(f"./{name}"):
        say(f"{name}: not on the PATH; ./{name} names the one in this folder")
        return NOT_THERE
    say(f"{name}: can't be run: {'Is a directory' if os.path.isdir(name) else 'Permission denied'}")
    return CANNOT_RUN


def record(options):
    """Runs the program, looks at its runs, and says what was found. Returns the status."""
    results = Results(options.folder, shlex.join(options.words).replace("\n", "\\n"), options.replay)
    if options.replay:
        put(f"{results.work}/{REPLAYED}", options.turns.content)
    stops = Stops("shb-record: {}: what was recorded is still shown; another one ends at once, and keeps the "
                  "record\n".format, options.show)
    adopt_orphans()
    look = Look(options, results, stops, source_of(options, results.work))
    try:
        run_all(look)
    except CannotRun:
        raise
    except (Refused, OSError) as fault:
        look.fail(fault)
    except KeyboardInterrupt:
        look.fail(Refused(f"stopped {counted(options.show, 'second')} after the signal (--wait)"
                          if stops.is_late else "stopped at once"))
        results.keep_records()
    finally:
        stops.close()
        rows = look.places.rows()
        is_recorded = bool(look.runs) or results.has_more()
        if is_recorded:
            for fault in results.write(tables_of(look, rows, status_of(look, rows))):
                look.fail(fault)
        results.close(is_recorded)
    status = status_of(look, rows)
    if is_recorded:
        conclude(look, rows, status)
    else:
        say(f"nothing was recorded; the program's own status: {look.own}")
    return status


def run_all(look):
    options = look.options
    with contextlib.closing(runs(options, look.results.work,
                                 look.look_meanwhile if options.live else None)) as ended:
        for number, run in enumerate(ended, 1):
            look.own = look.own or run.own
            look.stops.note(run.stop, run.stopped)
            look.run(number)
            if look.stops.first:
                say(f"stopped by {signal.Signals(look.stops.first).name}")
                break
            if options.until_found and look.places.unknown():
                say(f"run {number:,} of at most {options.runs:,} is the first with "
                    f"{'an unknown place' if options.known_path else 'a place'} with races; its seed is "
                    f"{options.seed + number - 1}")
                break
    if options.replay and not look.has_replayed:
        raise Refused(f"{options.replay} belongs to `{options.turns.command}`, and no recorded process was "
                      "that: nothing was replayed")
    if look.modules.has_no_hooks():
        raise Refused("none of the recorded code was compiled with -fsanitize=thread, so no access was seen: "
                      "the flag is needed to compile, not to link alone (CFLAGS, CXXFLAGS)")


def source_of(options, folder):
    """Where records come from."""
    if options.live:
        from shb_record.live import Segments
        return Segments(folder)
    return Records(folder)


def status_of(look, rows):
    if look.is_contradicted:
        return FAILED
    if any(not row.is_known for row in rows):
        return RACES
    if look.options.fail_on_stale and look.stale():
        return STALE
    if look.has_failed:
        return FAILED
    return CUT if look.is_cut or look.is_killed and not look.own else look.own


def conclude(look, rows, status):
    options, folder = look.options, look.results.folder
    unknown, passed_over, behind = map(counts(rows).get, ("unknown", "known", "behind"))
    for words in known.words_of_stale(look.stale(), look.places.names):
        say(f"{options.known_path}, {words}")
    for first, second in itertools.islice(look.passed_over, MOST_PASSED):
        say(f"{printable(second)} read what {printable(first)} wrote, a known race: a second look left it "
            "out")
    shown = (counted(unknown, "unknown place" if options.known_path else "place") + " with races"
             + (f" ({'' if behind == unknown else f'{behind:,} of them '}behind known races: real if these "
                "are harmless)" if behind else "")
             + (f", {counted(passed_over, 'known one')} skipped" if passed_over else ""))
    unshown = f"{counted(look.unshown, 'place')} with races that can't be shown"
    say("; ".join([shown] * bool(rows or not look.unshown) + [unshown] * bool(look.unshown))
        + ("; not the whole of the run was seen" if look.is_cut or look.is_killed else "")
        + ("; not all could be looked at" if look.has_failed else "")
        + f"; the program's own status: {look.own}; files in {folder}")
    for line in dict.fromkeys([*look.counts(), *look.verified(), *look.notes, *look.meaning()]):
        say(line)
    if len(look.runs) > 1:
        orders = {tuple(sorted(orders)) for orders in look.runs}
        say(f"{counted(len(look.runs), 'run')} gave {counted(len(orders), 'different interleaving')}")
    if look.again and options.runs > 1 and not options.replay:
        words = ["shb-record", "--replay", look.again, *options.words]
        say(f"the first run with such a place again: {shlex.join(words)}")
    if look.pages:
        first, *more = look.pages
        say(f"pages: {first} and {len(more):,} more; the bugs of all: {folder}/index.html" if more
            else f"page: {first}")
    if status == STALE:
        say(f"status {STALE}: {counted(len(look.stale()), 'line')} of {options.known_path} matched no "
            f"race of {'this run' if len(look.runs) == 1 else 'these runs'}; --runs N with a greater N may "
            "find one")


def main(words):
    open_standard_files()
    try:
        options = arguments(words)
        if options.join:
            from shb_record.joining import join
            return join(options)
        options = completed(options)
        status = check_program(options.program)
        if status:
            return status
        check_parts()
        if not options.log:
            return record(options)
        with open(options.log, "w", encoding="utf-8", errors="backslashreplace") as log, \
                contextlib.redirect_stderr(log):
            return record(options)
    except CannotRun as fault:
        say(fault)
        return CANNOT_RUN
    except (Refused, OSError) as fault:
        say(words_of(fault))
    return FAILED
