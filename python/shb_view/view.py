"""What is shown of a trace, for the text and the page alike."""

import collections
import contextlib
import functools
import os
import shlex
import stat
import tempfile

from shb_common.analyser import FULL, VARIABLES
from shb_common.report import Report, in_order
from shb_common.stacks import BadStacks, Stacks
from shb_common.uses import Uses
from shb_common.variables import without_block
from shb_common.words import Refused
from shb_view.advice import advised
from shb_view.analyser import Analyser, Verdict
from shb_view.counting import Counting
from shb_view.facts import RANKS, blamed_of
from shb_view.group_facts import Facts, merged_groups
from shb_view.groups import MOST_SHOWN, Gathered
from shb_view.names import by_numbers, readable
from shb_view.source import Source
from shb_view.stacks import perhaps_ordered
from shb_view.trial import after_trials, still_racing, trials_of
from shb_view.trace import CHANGED, Trace, warnings
from shb_view.windows import make_windows
from shb_view.words import MOST_DETAILED

MOST_GROUPS = 10_000
MOST_REPORT = 100_000_000  # bytes of a report with schedules that the view asks for
NUMBER = 7  # bytes of an event in a schedule, about
TOO_LONG = Verdict(None, "No schedules were made, since they would take over 100 MB.")


class Given(collections.namedtuple("Given", "words file verdict")):
    """What `shb` wrote by these words."""

    def order(self, race, events):
        """Some events in the order of a race's schedule, with that, if it may be shown; else as they are."""
        has_schedule = self.verdict.is_good and race.schedule is not None
        return in_order(self.file, race, events) if has_schedule else (events, None)


NO_REPORT = Given((), None, Verdict(None, ""))


# The races of a trace with so many events: of each variable at each place the nearest. A recorded run has
# `uses`, and its `counts` are the run's.
Subject = collections.namedtuple("Subject", "given counts events uses", defaults=(Uses(),))

# What is to be made of a trace: the `shb` to run, whether what comes before the races is to be shown, folders
# of sources, whether those that the stacks name are to be shown, the title, and notes on the trace.
Asked = collections.namedtuple("Asked", "shb has_windows sources has_recorded title notes", defaults=((),))

# A recorded run: the path of its page's trace, with the run's counts and its races as `Report.races` has
# them, and the `Uses` and `Stacks` of that trace. `new` has by two locations the names of the variables that
# are new there, None if all are; `behind` those that were found behind known races. `about` is what the
# recorder has to say, and `unseen` has by the name of a function, a file or a module which modules without
# hooks it calls or is. `turns` is the list of turns that runs the interleaving again, and `command` the
# program's words.
RecordedRun = collections.namedtuple("RecordedRun",
                                     "trace counts races uses stacks new behind about unseen turns command",
                                     defaults=(None, {}, (), {}, "", ""))
NO_RUN = RecordedRun(*[None] * 5)  # of a trace alone


class View(collections.namedtuple("View", "title made pairs groups sections source notes stacks gathered "
                                          "about turns command judge")):
    """All that is shown. `pairs` and `groups` are how many there are, `sections` those that are shown.
    `notes` are what the caller said of the trace, `about` what it said of the recorder. `judge` is the
    command that makes the schedules of a page again and judges them, or nothing."""

    @property
    def of_run(self):
        return self.made.uses.count is not None

    @property
    def verdict(self):
        return self.made.given.verdict


def are_at(places, section):
    """Whether a group has one of some places: names of variables by two locations, the lesser first."""
    group = section.group
    names = {*map(without_block, group.variables), *group.names}
    return any(not names.isdisjoint(places.get(pair, ())) for pair in group.places())


def make_view(path, stacks, asked, progress, run=NO_RUN):
    with contextlib.ExitStack() as room:
        file, gathered = room.enter_context(open_regular(path)), Gathered()
        made = of_trace(asked, file, gathered, room)
        try:
            gathered.know(Stacks(stacks, made.events))
        except BadStacks as fault:
            raise BadStacks(f"{readable(stacks)} {fault}") from None
        return view_of(file, made, gathered, asked, progress, run)


def view_of_run(run, asked, progress):
    with contextlib.ExitStack() as room:
        file, gathered = room.enter_context(open(run.trace, "rb")), Gathered()
        made = of_run(run, asked, file, gathered, room)
        gathered.know(run.stacks)
        return view_of(file, made, gathered, asked, progress, run)


def view_of(file, made, gathered, asked, progress, run):
    """The view of the races of an open trace, with what the recorder hands over."""
    groups, stacks = gathered.groups(), gathered.stacks
    trace = Trace(file, progress, made.uses.parts)
    count, sections = make_sections(asked, gathered, made, trace, groups, run.unseen)
    title = readable(asked.title or os.path.basename(file.name))
    source = Source(asked.sources, os.fstat(file.fileno()).st_mtime,
                    stacks.sources if asked.has_recorded else {})
    notes = [*map(readable, asked.notes), *warnings(file.name)]
    sections = [advised(section, source, stacks.functions)._replace(
        is_asked_for=run.new is None or are_at(run.new, section), is_behind=are_at(run.behind, section))
        for section in sections]
    pairs = sum(len(group.pairs) for group in groups)
    return View(title, made, pairs, count, sections, source, notes, stacks, gathered,
                list(map(readable, run.about)), readable(run.turns), readable(run.command),
                judge_of(made, file.name))


def of_trace(asked, file, gathered, room):
    """The races of an open trace, with schedules if pictures are asked for."""
    report = Analyser(asked.shb, file).nearest(room.enter_context(tempfile.TemporaryFile()))
    races = list(report.races())
    return Subject(gather(asked, file, races, races, gathered, room), report.counts, report.counts.events)


def of_run(run, asked, file, gathered, room):
    """The races of a run with both accesses in its trace, with schedules if there are any: of those
    in one part."""
    races = [race._replace(events=pair) for race in run.races
             for pair in [run.uses.pair(*race.events)] if pair]
    near = [race for race in races if not run.uses.are_apart(*race.events)]
    return Subject(gather(asked, file, races, near, gathered, room), run.counts, run.uses.count, run.uses)


def gather(asked, file, races, near, gathered, room):
    """Gathers these races, and gives the report with the schedules of those that are near, if any."""
    given, found = schedules(asked.shb, file, near, room) if near and asked.has_windows else (NO_REPORT, {})
    of_near = {race.events: found.get(race.events, race) for race in near}
    for race in races:
        gathered.share(race)
        gathered.add(of_near.get(race.events, race))
    return given


def schedules(shb, file, races, room):
    """The report of `shb places` on the trace of a page, as `shb check` judges it, and its races by their
    events: those of each variable at each place, or of each place alone if these would be too long. A
    schedule has events before the second access alone."""
    most, every = MOST_REPORT // NUMBER, sum(race.events[1] for race in races)
    ends = {race.place: race.events[1] for race in races}
    if sum(ends.values()) > most:
        return NO_REPORT._replace(verdict=TOO_LONG), {}
    words = VARIABLES if every <= most else FULL
    analyser, report = Analyser(shb, file), room.enter_context(tempfile.TemporaryFile())
    try:
        analyser.run(words, file, report)
        given = Given(words, report, analyser.check(report))
        good = Report(report).races() if given.verdict.is_good else ()
        return given, {race.events: race for race in good}
    except Refused as fault:
        return NO_REPORT._replace(verdict=Verdict(None, f"No schedules were made: {fault}")), {}


def judge_of(made, path):
    """The command that makes a page's schedules again and judges them, in any folder."""
    if not made.given.words:
        return ""
    path = shlex.quote(readable(os.path.abspath(path)))
    return f"shb {' '.join(made.given.words)} {path} | shb check {path}"


def open_regular(path):
    """A file that can be read as often as is needed, which - as a name of standard input isn't."""
    if os.path.isfile(f"{path}/made-by-shb-record.txt"):
        raise Refused(f"{readable(path)} is a folder of results: index.html in it is their overview, and "
                      "run*.std are the traces")
    if path == "-" or not stat.S_ISREG(os.stat(path).st_mode):
        raise Refused(f"{readable(path)} isn't a regular file: the trace is read more than "
                      "once, so save it to a file")
    return open(path, "rb")


def make_sections(asked, gathered, made, trace, groups, unseen={}):
    """How many groups there are, and those that are shown, in their order; the first MOST_DETAILED with their
    windows if these are asked for."""
    if not groups:
        return 0, []
    wanted = {event for group in groups for pair in group.pairs[:MOST_SHOWN]
              for event in pair.closest.events}
    variables = {variable: number for number, group in enumerate(groups) for variable in group.names}
    counting = Counting(variables, wanted, gathered, made.uses)
    try:
        counting.read(trace, made.events)
        facts = Facts(counting, "run" if counting.is_of_run else "trace")
        find = functools.partial(merged_groups, groups, counting.used, facts)
        found = find()
        trials = trials_of(found, facts, counting)
        if trials:
            left = still_racing(asked.shb, trace, list(trials.values()))
            found = after_trials(found, facts, trials, left, find)
        found.sort(key=order_of)
        sections = [make_section(it, counting, unseen) for it in found[:MOST_GROUPS]]
        if asked.has_windows:
            races = [section.group.closest(blamed_of(section.fact, section.group.locations()))
                     for section in sections[:MOST_DETAILED]]
            windows = make_windows(trace, races, counting, made.given.order)
            sections[:len(races)] = [one._replace(window=window) for one, window in zip(sections, windows)]
    except (IndexError, KeyError, ValueError):
        raise Refused(CHANGED) from None
    return len(found), sections


def order_of(found):
    """By the form that the headline tells; then what isn't in blocks alone, which hang on it; then most used
    first."""
    rank = min(RANKS[one.fact.form] for one in found.fact.parts or [found])
    return rank, all(b"#" in name for name in found.group.names), -found.uses.total()


def make_section(found, counting, calls):
    """A group as it is shown, but for its window."""
    places = found.group.places()
    seen = sorted((pair for pair in counting.seen if tuple(sorted(pair)) in places),
                  key=lambda pair: list(map(by_numbers, pair)))
    callers, threads = callers_of(found.group, counting)
    unseen = perhaps_ordered(found.sites, callers, counting.gathered.stacks, calls) if calls else []
    return found._replace(callers=callers, seen=seen, threads=threads, unseen=unseen)


def callers_of(group, counting):
    """The stacks of a group's racing lines, each with whether it is told that no lock is held; and the
    threads that have each stack, as far as the trace tells."""
    gathered, found, threads = counting.gathered, {}, collections.defaultdict(set)
    for location in group.locations():
        stacks = collections.Counter()
        for variable in dict.fromkeys(map(gathered.in_trace, group.names)):
            for (stack, is_bare), count in counting.callers[variable, location].items():
                frames = gathered.stacks.stack(stack)
                stacks[frames, is_bare] += count
                threads[frames] |= counting.callers_threads.get(stack, set())
        is_told = len({is_bare for _, is_bare in stacks}) > 1
        found[location] = [((frames, is_bare and is_told), count)
                           for (frames, is_bare), count in stacks.most_common()]
    return found, threads
