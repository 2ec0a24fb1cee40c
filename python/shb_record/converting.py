"""From a record to traces."""

import collections
import contextlib
import itertools
import os
import re
import select
import shutil
import signal
from subprocess import PIPE

from shb_common.analyser import LIST_VARIABLES, Run, places_in
from shb_common.children import apart
from shb_common.files import remove
from shb_common.report import BadReport, Report
from shb_common.sums import sha256
from shb_common.words import Refused, counted, printable
from shb_record.parts import ANALYSER, CONVERTER, files_in

CUTS = "the recording is not the whole run: ", "the trace is cut "
KILLED = CUTS[0] + "the program was killed"
CRASHED = "the program crashed: "
NOT_WHOLE = 1  # shb-std's status where the trace is a part of the run
HEADER_BYTES, ENTRY_BYTES = 65536, 16  # record.h says where an entry has its thread and operation
LINE_BYTES = 64  # about those of an event in a trace
BUNDLE = b"~"  # at the end of a bundle's name
MOST_FINER = 2  # traces after a coarse one


class Process(collections.namedtuple("Process", "name base command record modules replay blocks",
                                     defaults=(None, None))):
    """A recorded process of a run. `base` is what the names of its results begin with; `modules` are the
    paths of its code, that of the program first; `replay` says how far it followed the list of turns that was
    to be replayed. Of a segment of a record `blocks` is the file of the blocks that are there when it
    begins."""

    def beside(self, ending):
        """The path of a file beside the record."""
        return os.path.splitext(self.record)[0] + ending

    @property
    def program(self):
        return self.modules[0] if self.modules else b""


class Records:
    """The records of plain runs: each process has one, which is there when its run has ended."""

    meaning, dropped = [], 0

    def __init__(self, folder):
        self.folder = folder

    def left(self, number):
        """What was recorded in this run, by the numbers of processes, which are looked at together."""
        records = {os.path.basename(path)[:-len(".rec")]: path
                   for path in files_in(self.folder, f"run{number}.", ".rec")}
        found = [process_of(records[base], f"run {number}, process {base.split('.')[1]}", base)
                 for base in sorted(records, key=lambda base: list(map(int, re.findall(r"\d+", base))))]
        return [found] if found else []

    def release(self, process):
        """Deletes a record that was looked at, and isn't kept."""
        remove(process.record)

    def counts(self, _events, _passed):
        return ()


def process_of(record, name, base):
    with open(record, "rb") as file:
        lines = file.read(HEADER_BYTES).partition(b"\0")[0].split(b"\n")
    fields = dict(line.partition(b" ")[::2] for line in lines)
    command = fields.get(b"command", b"?").decode(errors="backslashreplace").strip()
    modules = [line.split(b" ", 3)[3].replace(b"\1", b"\n") for line in lines[2:] if line.count(b" ") > 2]
    replay = replay_of(fields[b"replays"], fields.get(b"replayed")) if b"replays" in fields else None
    return Process(name, base, command, record, modules, replay)


def replay_of(there, done):
    """How far a process followed a list of so many turns."""
    there, done = int(there), done and int(done)
    if done is None:
        return f"a list of {there:,} turns was followed, until the program was killed or became another one"
    if done == there:
        return f"all {there:,} turns of the list were followed"
    return f"the replay was left after {done:,} of {there:,} turns; from there on slices were drawn"


def check_room(process, most_events):
    """A page's trace has so many events at most. In measured programs at most a tenth of the record's entries
    have a line."""
    needed = min(os.path.getsize(process.record) // 2, most_events * LINE_BYTES)
    free = shutil.disk_usage(process.record).free
    if needed > free:
        raise Refused(f"its page may take about {needed:,} bytes of the disk, and {free:,} are free; "
                      "--window makes a smaller one")


class Contradiction(Refused):
    """A check failed: the parts of this command don't fit each other."""


class Listing(Run):
    """A running `shb places --list`, which reads an open pipe, or PIPE, and writes to an open file."""

    def __init__(self, text, pipe):
        super().__init__([ANALYSER, *LIST_VARIABLES], pipe, text, **apart())
        self.text = text
        self.races, self.counts = [], None  # of the run, when all is read, as a `Report` has them
        if pipe != PIPE:
            pipe.close()  # now its reader's alone

    def close(self):
        """Ends what still runs, and lets go of what it wrote."""
        super().close()
        self.text.close()

    def places(self):
        """The places of the run, with their variables, when all is read."""
        answer = self.answer()
        if answer.status:
            raise Refused(f"`shb places --list` ended with status {answer.status}: {answer.words}")
        self.text.seek(0)
        try:
            report = Report(self.text)
            self.races, self.counts = list(report.races()), report.counts
            return places_in(self.races)
        except BadReport as fault:
            raise Contradiction(f"`shb places --list` wrote no whole report: {fault}") from None


class Conversion:
    """Turns a record into the run's trace, for `shb places --list`, and if that finds races into the trace of
    their page. `trace`, `uses` and `stacks` are the files of that trace, `place_list` is the list of places;
    `numbers` has for the events of a race those of that trace, if it has both in one part."""

    def __init__(self, process, options):
        self.process = process
        self.trace, self.place_list, self.uses, self.stacks = map(
            process.beside, (".std", ".places", ".uses", ".stacks"))
        strip = ["--strip", options.strip] if options.strip else []
        blocks = ["--blocks", process.blocks] if process.blocks else []
        left = ["--left", process.beside(".left")] if options.live else []  # blocks at its end
        self.options, self.has_known = options, options.known_path is not None
        self.record_words = [*strip, *blocks, process.record]
        self.list_words = [CONVERTER, "--list", *self.record_words]
        self.words = [CONVERTER, "--list", "--page", self.trace, *left, *self.page_words()]
        # known at the end: how much there is, what is said of it, what makes it a part
        self.size, self.notes, self.cuts = "", [], []
        # `used` and `called` have what the files of a page's trace have
        self.numbers, self.used, self.called = {}, None, None
        # once they are listed: the places of the run, of these what no process before had (`places.New`), all
        # as `Places.add_new` names them, and what a second look found behind known races
        self.places, self.new, self.named, self.behind = [], [], [], []
        self.races, self.counts, self.events = [], None, 0  # of the run
        self.has_files = False  # are those of its page among the results?

    def page_words(self):
        return ["--only", "/dev/stdin", "--uses", self.uses, "--stacks", self.stacks,
                "-n", str(self.options.window), *self.record_words]

    def find(self, choose):
        """Finds the places of the run. The page's trace then has those that `choose` returns of them."""
        with contextlib.ExitStack() as opened:
            pipes = [os.pipe() for _ in range(MOST_FINER)]
            finer = [opened.enter_context(open(reading, "rb")) for reading, _ in pipes]
            writing = [number for _, number in pipes]
            words = [*self.words, *(f"--finer={number}" for number in writing)]
            ran = opened.enter_context(Run(words, PIPE, PIPE, pass_fds=writing, **apart()))
            for number in writing:
                os.close(number)
            chosen, fault = [], None
            try:
                self.take_places(ran, finer)
                chosen = choose(self.process, self.places)
            except Refused as its:
                fault = its
            ran.give(lines_of(chosen))
            answer = ran.answer()
            if fault and answer.status in (0, NOT_WHOLE, -signal.SIGPIPE):
                raise fault
            self.end(answer)
        if self.options.verify:
            self.verify()
        if chosen:
            self.note_page(chosen)

    def verify(self):
        """Finds the races again, in a trace that omits nothing and has no bundles: they are the same. Of a
        place with more variables than are kept these aren't compared."""
        words = [self.words[0], "-a", *self.list_words[1:]]
        with Run(words, None, PIPE, **apart()) as ran, \
                Listing(open(self.process.beside(".verified"), "w+b"), ran.out) as listed:
            again = listed.places()
            self.said(ran.answer())
        found, wanted = ({(place.first, place.second, name) for place in its
                          for name in ([b"all"] if place.has_more else place.variables)}
                         for its in (self.places, again))
        differ = sorted(found ^ wanted)
        for first, second, name in differ[:1]:
            where = "that omits nothing" if (first, second, name) in wanted else "of the run"
            raise Contradiction(f"--verify: only the trace {where} has a race of {printable(name)} at "
                                f"{printable(first)} and {printable(second)}; "
                                f"{counted(len(differ), 'such race')}")

    def take_places(self, ran, finer):
        """Takes the places of the run. In a coarse trace variables that are used alike are one, a bundle. As
        long as bundles are in a race the next one of `finer` brings a trace where these are apart, at last
        all. A second look numbers events as in the trace where all are."""
        bundles = self.take(ran.out)
        for pipe in finer:
            if has_writer(pipe) and (bundles or (self.has_known and self.races)):
                ran.say([*map(line_of, [] if self.has_known else bundles), b"again\n"])
                bundles = self.take(pipe)

    def take(self, pipe):
        """Takes the places of the run, and returns the races of bundles."""
        with Listing(open(self.place_list, "w+b"), pipe) as listed:
            self.places = listed.places()
        self.races, self.counts, self.events = listed.races, listed.counts, listed.counts.events
        return [race for race in self.races if race.accesses[0].name.endswith(BUNDLE)]

    def note_page(self, places):
        """The page's trace is there: its events that are those of races of the run have the same lines."""
        from shb_common.stacks import BadStacks, Stacks  # takes its time, and most runs have no place
        from shb_common.uses import BadUses, Uses
        try:
            uses = Uses(self.uses)
            self.called = Stacks(self.stacks, uses.count)
        except BadUses as fault:
            raise Contradiction(f"the file of uses {fault}") from None
        except BadStacks as fault:
            raise Refused(f"{self.stacks} {fault}") from None
        races = [race for place in places for race in place.variables.values()]
        asked = {event for race in races for event in race.events}
        # else some may have given way
        window = self.options.window
        has_all = uses.count < window and max(asked) - min(asked) <= window
        lost = len(asked - uses.events.keys()) if has_all else 0
        wanted = {uses.events[event]: access for race in races
                  for event, access in race.sides() if event in uses.events}
        at, of_list = 0, "of `shb places --list`"
        with open(self.trace, "rb") as trace:
            for number in sorted(wanted):
                line, at = next(itertools.islice(trace, number - at - 1, None), None), number
                lost += line is None
                if line and line != b"%b|%b(%b)|%b\n" % wanted[number]:
                    raise Contradiction(f"event {number:,} of the page's trace isn't that {of_list}")
        if lost:
            raise Contradiction(f"the page's trace lacks {counted(lost, 'event')} {of_list}")
        self.numbers = {race.events: pair for race in races for pair in [uses.pair(*race.events)] if pair}
        self.used = uses

    def write_page(self, places):
        """Writes the trace of a page anew, around the races of these places."""
        with open(self.trace, "wb") as out, Run([CONVERTER, *self.page_words()], PIPE, out, **apart()) as ran:
            ran.give(lines_of(places))
            self.end(ran.answer())
        self.note_page(places)

    def said(self, answer):
        """What the converter said, in lines, if it didn't fail."""
        said = answer.said.decode(errors="backslashreplace").replace("shb-std: ", "").splitlines()
        if answer.status not in (0, NOT_WHOLE):
            how = f"status {answer.status}" if answer.status > 0 else f"signal {-answer.status}"
            raise Refused("; ".join(said) or f"shb-std ended with {how}")
        return said

    def end(self, answer):
        said = self.said(answer)
        sizes = [line for line in said if re.match(r"\d+ records, ", line)]
        one = [re.sub(r"\b1 (\w+)s\b", r"1 \1", line) for line in sizes]
        self.size = ", ".join(re.sub(r"\d+", lambda number: f"{int(number[0]):,}", line) for line in one)
        self.notes = [line for line in said if line not in sizes]
        self.cuts = [note for note in self.notes if note.startswith(CUTS)] * (answer.status == NOT_WHOLE)


def has_writer(pipe):
    """Whether a process has the other end of a pipe open."""
    ends = select.poll()
    ends.register(pipe, 0)
    return not ends.poll(0)


def line_of(race):
    """What `shb-std --only` is given."""
    return b"%d %d %b\n" % (*race.events, race.accesses[0].name)


def lines_of(places):
    return [line_of(race) for place in places for race in place.variables.values()]


def order_of(record):
    """A sum of the threads and operations of a record, in their order: of two runs that do the same in other
    orders they differ."""
    found = sha256()
    with open(record, "rb") as file:
        file.seek(HEADER_BYTES)
        for part in iter(lambda: file.read(1 << 20), b""):
            found.update(part[6::ENTRY_BYTES] + part[7::ENTRY_BYTES] + part[14::ENTRY_BYTES])
    return found.digest()
