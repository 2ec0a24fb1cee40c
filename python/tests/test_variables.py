"""The variables of the races at each place, of a report that has one race of each."""

import io
import random
import subprocess

import farm
import side_by_side
from shb_common import analyser, variables
from shb_common.report import Access, BadReport, Race, Report

HEAD = b"shb-report 2\nevents 6 threads 2 locks 0 variables 3\nraces 2\nplaces 1\nplace 1: 2\nat 1\nand 2\n"
RACE = b"race %d: %d 4\nfirst A|w(%b)|1\nsecond B|w(%b)|2\n"


def asked(words, text):
    return Report(
        io.BytesIO(subprocess.run([farm.SHB, *words], input=text, stdout=subprocess.PIPE, check=True).stdout))


class Asked(side_by_side.Case):
    def test_all_variables_of_each_place(self):
        text = b"T1|w(x)|a:1\nT1|w(y)|a:1\r\n\nT2|w(x)|a:2|b\nT2|r(y)|a:2|b\nT2|w(q)\nT1|w(q)"
        found = {(place.first, place.second): {name: race.events for name, race in place.variables.items()}
                 for place in analyser.places_in(asked(analyser.LIST_VARIABLES, text).races())}
        self.assertEqual(
            found, {(b"a:1", b"a:2|b"): {b"x": (1, 3), b"y": (2, 4)}, (b"", b""): {b"q": (5, 6)}})

    def test_the_same_as_in_the_list_of_all_races(self):
        """Random traces with few variables, locations and locks."""
        pick = random.Random(1)
        for _ in range(60):
            lines, held = [], {}
            for _ in range(40):
                thread, lock = f"T{pick.randrange(3)}", f"L{pick.randrange(2)}"
                if pick.random() < 0.2 and held.get(lock, thread) == thread:
                    operation = f"rel({lock})" if lock in held else f"acq({lock})"
                    held.pop(lock) if lock in held else held.update({lock: thread})
                else:
                    operation = f"{pick.choice('rw')}({pick.choice('xyz')})"
                lines.append(f"{thread}|{operation}|{pick.choice(['1', '2', 'a.c:3', ''])}\n")
            text, wanted = "".join(lines).encode(), {}
            for race in asked(["races", "--list"], text).races():
                wanted.setdefault(race.place, set()).add(race.accesses[0].name)
            found = {(place.first, place.second): set(place.variables)
                     for place in analyser.places_in(asked(analyser.LIST_VARIABLES, text).races())}
            self.assertEqual(found, wanted, text)

    def test_more_than_are_kept(self):
        many = variables.MOST_VARIABLES
        text = b"".join(b"%s|w(x%d)|%s\n" % (thread, number, thread) for thread in (b"A", b"B")
                        for number in range(many + 1))
        [place] = analyser.places_in(asked(analyser.LIST_VARIABLES, text).races())
        self.assertEqual((len(place.variables), place.has_more), (many, True))

    def test_a_variable_that_is_there_twice(self):
        for names in ((b"x", b"y"), (b"x", b"x")):
            races = b"".join(RACE % (number, number, name, name) for number, name in enumerate(names, 1))
            report = Report(io.BytesIO(HEAD + races + b"end\n"))
            if len(set(names)) == 2:
                self.assertEqual([place.variables.keys() for place in analyser.places_in(report.races())],
                                 [{b"x", b"y"}])
                continue
            with self.assertRaises(BadReport) as refused:
                analyser.places_in(report.races())
            self.assertEqual(str(refused.exception),
                             "race 2 of the report: its variable has a race at this place already")


class Names(side_by_side.Case):
    def test_names_as_the_pages_have_them(self):
        """An atomic is one variable, a local has its own name where it is the same at both accesses, and a
        member of a block's type has none of the block's number, which differs from run to run."""
        access = lambda thread, word, name: Access(thread, word, name, b"a:1")
        locals_ = {(b"stack.m-0x20", 1): b"q of m", (b"stack.m-0x20", 2): b"q of m",
                   (b"stack.m-0x20", 3): b""}
        members = {b"a.c:9#2+40": b"Account.balance", b"a.c:9#3+40": b"Account[1].balance of a of b.c:9#3",
                   b"a.c:9#4": b"T+4 of app+0x1f#4"}
        local_of = lambda variable, event: members.get(variable) or locals_.get((variable, event), b"")
        for name, events, wanted in ((b"x", (1, 2), b"x"), (b"x!T1", (1, 2), b"x"),
                                     (b"x!T9", (1, 2), b"x!T9"), (b"stack.m-0x20", (1, 2), b"q of m"),
                                     (b"stack.m-0x20", (1, 3), b"stack.m-0x20"),
                                     (b"stack.m-0x20!T1", (1, 2), b"q of m"),
                                     (b"a.c:9#2+40", (1, 2), b"Account.balance"),
                                     (b"a.c:9#3+40!T1", (1, 2),
                                      b"Account[1].balance"), (b"a.c:9#4", (1, 2), b"T+4"),
                                     (b"a.c:9#5", (1, 2), b"a.c:9#5")):
            race = Race(1, events, (access(b"T1", b"w", name), access(b"T2", b"r", name)), None)
            self.assertEqual(variables.name_of(race, local_of), wanted)
