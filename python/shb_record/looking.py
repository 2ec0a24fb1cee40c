"""Converts, analyses and shows the processes of all runs."""

import os
import shlex
import sys

from shb_common.places import count
from shb_common.programs import Origin
from shb_common.standard import words_of
from shb_common.words import Refused, counted, printable
from shb_record.converting import CRASHED, KILLED, Contradiction, Conversion, check_room, order_of
from shb_record.modules import Modules
from shb_record.parts import ANALYSER, now, say
from shb_record.places import New, Places
from shb_record.running import cause, preloading

KINDS = {b"r": "read", b"w": "written"}
TOLD = 10     # of so many runs one with nothing new is said
MOST_KEPT = 3  # segments that couldn't be looked at
EVERY = "every race on the page has a schedule"
OF_ALL = "every race on the pages has a schedule that `shb check` accepts; each page has the command."
LATE = "the C library comes before the recorder's"     # the end of such a record


class Look:
    """Looks at the records of runs that have ended (`Records`), or of one that goes on (`Segments`)."""

    def __init__(self, options, results, stops, source):
        self.options, self.results, self.stops, self.source = options, results, stops, source
        self.started = now()[:-3]
        self.places, self.pages, self.found = Places(options.known, options.live), [], {}
        # events that were looked at; segments without a page; records that can't be looked at
        self.events = self.passed = self.failed = 0
        self.said = set()  # notes on segments, each of which is said once
        self.own = 0  # the program's own status, of the first run where it isn't 0
        self.unshown = 0  # places of processes that can't be shown
        self.runs = []  # of each run: the order of each process
        # did a process follow the list? the list of the first with an unknown place
        self.has_replayed, self.again = False, None
        self.notes, self.checked = {}, []   # what is to know of pages
        # known races whose second access reads what the first wrote
        self.modules, self.passed_over = Modules(), {}
        self.is_cut = self.is_killed = self.has_failed = self.is_contradicted = self.has_threads = False

    def look_meanwhile(self):
        """Looks at a segment of the run that goes on, if one is closed. Returns whether one was."""
        process = self.source.closed()
        if process:
            self.look_at(1, [process])
        return process is not None

    def run(self, number):
        """Looks at what a run left that has ended."""
        looked = [one for found in self.source.left(number) for one in self.look_at(number, found)]
        if len(self.runs) < number:
            raise Refused(f"{self.options.program} left no record. {cause(self.options.program)}")
        self.is_cut |= self.source.dropped > 0
        if not self.options.live and not any(one is None or one.events for one in looked):
            if self.is_cut:
                late = any(one and LATE in cut for one in looked for cut in one.cuts)
                words = preloading(*self.options.words)
                hint = f"; for a module with hooks that the program loads later run `{words}`"
                raise Refused("nothing of the run was recorded" + hint * late)
            say(f"run {number}: {counted(len(looked), 'recorded process')}, none with "
                "a second thread")

    def look_at(self, number, found):
        """Analyses, then shows processes of a run, as names depend on all; one that can't be looked at
        doesn't keep others from being shown. Returns what was found in each, or None."""
        if len(self.runs) < number:
            self.runs.append([])
        looked = [Conversion(process, self.options) for process in found]
        for do in (self.analyse, self.look_again, self.show):
            looked = [one and self.tried(do, one) for one in looked]
        for process in found:
            self.source.release(process)
        return looked

    def tried(self, do, looked):
        """Does something for a process. If it fails the record is kept, and None is returned."""
        process = looked.process
        try:
            do(looked)
        except (Refused, OSError) as fault:
            self.fail(fault, f"{process.name}: ")
            self.say_unshown(looked)
            if os.path.exists(process.record) and os.path.getsize(process.record):
                self.failed += 1
                if self.failed <= MOST_KEPT or not self.options.live:
                    say(f"the record is kept: {self.results.keep(process.record, process.base + '.rec')}")
            return None
        if self.options.keep and do == self.show:
            self.results.keep(process.record, f"{process.base}.rec")
        return looked

    def say_unshown(self, looked):
        """Says which places are listed of a process that can't be shown."""
        if not looked.named:
            self.unshown += count(looked.places)
        if not self.stops.first:  # else they were said before
            say_places(self.places.unknown_of(looked.new) if looked.named else as_new(looked.places),
                       f"{looked.process.name}: ", "with races that can't be shown")

    def stale(self):
        """The lines of the known places that matched nothing, which is asked when all places were."""
        return self.places.given.stale() if self.runs and not self.has_failed else []

    def meaning(self):
        """A line each on what a run says nothing about."""
        yield from self.modules.lines()
        if self.options.runs == 1 and (self.has_threads or self.places.seen):
            words = ["shb-record", "--runs", "10", *self.options.words]
            yield f"One interleaving of many was seen; ten: {shlex.join(words)}"
        yield from self.source.meaning

    def verified(self):
        """What `shb check` found of the schedules: a line for a page, and one for several if it found all."""
        if len(self.checked) > 1 and all(EVERY in words for words in self.checked):
            return [self.checked[0][:self.checked[0].index(EVERY)] + OF_ALL]
        return self.checked

    def counts(self):
        """How much was looked at, where it isn't said of each process."""
        return self.source.counts(self.events, self.passed)

    def fail(self, fault, whose=""):
        say(whose + words_of(fault))
        self.has_failed = True
        self.is_contradicted |= isinstance(fault, Contradiction)

    def analyse(self, looked):
        check_room(looked.process, self.options.window)
        looked.find(self.choose)
        if looked.events:
            self.modules.add(looked.process.modules)
        looked.new, looked.named = self.add_new(looked, looked.places)
        self.keep_files(looked)

    def add_new(self, looked, places, is_behind=False):
        """Takes places of a process, as `Places.add_new` does; without a page they are earlier segments'."""
        process = looked.process
        if not looked.used:
            return [], self.places.met_in(process, places)
        self.modules.callers |= looked.called.files
        origin = Origin(looked.called, process.program)
        origin.add_modules(process.modules)
        return self.places.add_new(process, f"{self.results.folder}/{process.base}.std", origin, places,
                                   looked.numbers, is_behind)

    def keep_files(self, looked):
        """Moves the files of a page out of the folder of work; of a segment where something in it is new."""
        if looked.has_files or not (looked.new if self.options.live else looked.places):
            return
        looked.has_files = True
        looked.trace, looked.place_list, looked.uses, looked.stacks = (
            self.results.keep(path, looked.process.base + os.path.splitext(path)[1])
            for path in (looked.trace, looked.place_list, looked.uses, looked.stacks))

    def choose(self, process, places):
        """The places that are to be on a page: none of a segment with those of earlier ones alone. Those of a
        whole record are said where the command was told to end: what comes then takes its time."""
        if self.options.live:
            has_met = self.places.met_in(process, places) is not None
            self.passed += has_met and bool(places)
            return [] if has_met else places
        if self.stops.first:
            say_places(as_new(places), f"{process.name}: ", "with races")
        return places

    def look_again(self, looked):
        """Takes a second look, without the known races of a process."""
        accesses, races = self.places.known_in(looked.named)
        if not accesses:
            return
        from shb_record import second  # takes its time, and most calls do without
        found, seen = second.look(looked, self.results.work, accesses, races)
        looked.behind = second.besides(looked.places, found)
        self.passed_over.update(dict.fromkeys((one.location, other.location) for one, other in seen))
        if looked.behind:
            looked.places = [*looked.places, *looked.behind]
            looked.write_page(looked.places)
            looked.races += [race for place in looked.behind for race in place.variables.values()]
            new, _ = self.add_new(looked, looked.behind, True)
            looked.new = [*looked.new, *new]
            self.keep_files(looked)

    def show(self, looked):
        process, unknown = looked.process, self.places.unknown_of(looked.new)
        whose, turns = f"{process.name} ({process.command}): ", self.kept_turns(process, unknown)
        if unknown:
            self.show_places(looked, unknown, turns)
        self.note_cuts(looked)
        if process.replay:
            self.has_replayed = True
            say(whose + process.replay)
        self.events += looked.events
        if looked.events and self.options.runs > 1:
            self.runs[-1].append(order_of(process.record))
        is_told = (unknown or self.options.replay or self.options.runs < TOLD or len(self.runs) == 1
                   or not len(self.runs) % TOLD)
        if unknown if self.options.live else looked.events and is_told:
            found = [one.place for one in unknown] if self.options.live else looked.places
            words = counted(count(found), "new place" if self.options.live else "place")
            say(f"{whose}{looked.size}; {words} with races")
        for note in looked.notes:
            if (looked.events or note != KILLED) and note not in self.said:
                self.said.update([note] if self.options.live else [])
                is_full = "SHB_RECORDS is reached" in note
                more = "; SHB_RECORDS=NUMBER allows more records, of 16 bytes each" if is_full else ""
                say(whose + note + more)

    def note_cuts(self, looked):
        """Takes what makes a record a part of its run. A thread too many doesn't, nor that a program of one
        thread was killed."""
        cuts = [cut for cut in looked.cuts if "a thread too many" not in cut
                and (looked.events or cut != KILLED)]
        self.is_cut |= bool(cuts) and cuts != [KILLED]
        self.is_killed |= cuts == [KILLED]
        self.has_threads |= bool(looked.events)

    def kept_turns(self, process, unknown):
        """Keeps a process's turns if there is something to run again. Returns their path, or nothing."""
        turns = process.beside(".turns")
        if not os.path.exists(turns) or not (unknown or self.options.keep):
            return ""
        kept = self.results.keep(turns, f"{process.base}.turns")
        if unknown:
            self.again = self.again or kept
        return kept

    def show_places(self, looked, unknown, turns):
        """The page and text of new unknown places, and what the view found; if it fails, the places alone."""
        process = looked.process
        lost = [one for one in unknown if not any(race.events in looked.numbers and name in one.variables
                                                  for name, race in one.place.variables.items())]
        say_places(lost, "", "of the run without a page, since their accesses don't fit")
        if len(lost) == len(unknown):
            return
        first = [note for note in looked.notes if note.startswith(CRASHED)] + looked.cuts
        notes = [f"{note[0].upper()}{note[1:]}." for note in [*first, process.replay] if note]
        page = self.results.path(f"{process.base}.html")
        # takes its time, and a run without a place does without
        from shb_view.command import explain, show_run
        from shb_view.result import document
        from shb_view.view import Asked, RecordedRun
        from shb_view.words import VERIFIED, bad_words
        run = RecordedRun(
            looked.trace, looked.counts, looked.races, looked.used, looked.called,
            new=variables_at(unknown),
            behind=variables_at(one for one in unknown if one.place in looked.behind),
            about=list(self.meaning()), unseen=self.modules.calls(process.modules), turns=turns,
            command=shlex.join(self.options.words))
        title = f"{process.command} ({process.name}, {self.started})"
        asked = Asked(ANALYSER, True, self.options.source, True, title, notes)
        _, view = explain(show_run, run, asked, page, sys.stderr)
        if not view:
            say_places(unknown)
            return
        if view.verdict.is_good is False:
            self.fail(Contradiction(bad_words(view)), f"{process.name}: ")
        self.pages.append(page)
        self.found[process.name, looked.trace] = found = document(view)
        its = [note for note in found["notes"] if note not in notes]
        self.checked += [note for note in its if note.startswith(VERIFIED)]
        self.notes.update(dict.fromkeys(note for note in its if not note.startswith(VERIFIED)))


def say_places(found, whose="", what=""):
    """Says how many places these are, and of each and some of its variables a race."""
    if found and what:
        say(f"{whose}{counted(count(one.place for one in found), 'place')} {what}:")
    for one in found:
        for name in sorted(one.place.variables.keys() & one.variables):
            first, second = (f"{printable(access.location)} {KINDS[access.word]} by "
                             f"{printable(access.thread)}" for access in one.place.variables[name].accesses)
            say(f"  {printable(name)}: {first}, and {second}")


def as_new(places):
    return [New(None, place, place.variables.keys()) for place in places]


def variables_at(new):
    """The variables of new places by their two locations, the lesser first."""
    found = {}
    for one in new:
        found.setdefault(tuple(sorted((one.place.first, one.place.second))), set()).update(one.variables)
    return found
