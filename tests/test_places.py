"""One race of each place, or of each place and variable, with its schedule and without: reports worked by
hand, and the plain program of the definitions."""

import random
import re
import subprocess

import judge
import made_traces
import program
import shb
import test_traces


def report(counts, places, blocks):
    """A report of these places, each with its count, and these blocks."""
    lines = [b"shb-report 2", b"events %d threads %d locks %d variables %d" % counts]
    lines += [b"races %d" % len(blocks), b"places %d" % len(places)]
    for q, (count, first, second) in enumerate(places, 1):
        lines += [b"place %d: %d" % (q, count), b"at " + first, b"and " + second]
    for k, (pair, first, second, schedule) in enumerate(blocks, 1):
        lines += [b"race %d: %s" % (k, pair), b"first " + first, b"second " + second, b"schedule " + schedule]
    return b"".join(line + b"\n" for line in [*lines, b"end"])


def one_each(counts, races):
    """A report whose races have a place each: their events, locations, lines and schedules."""
    places = [(1, at, other) for _, at, other, _, _, _ in races]
    return report(counts, places, [(pair, *block) for pair, _, _, *block in races])


def listed(wanted):
    """The report without its schedules."""
    return b"".join(line for line in wanted.splitlines(keepends=True) if not line.startswith(b"schedule "))


NOTHING = one_each((0, 0, 0, 0), [])

# Both writes race with both reads, at one place. Event 3 is the least later one, and 2 the greatest that
# races with it.
NEAREST = (
    b"T1|w(x)|a\nT1|w(x)|a\nT2|r(x)|b\nT2|r(x)|b\n",
    one_each((4, 2, 0, 1), [(b"2 3", b"a", b"b", b"T1|w(x)|a", b"T2|r(x)|b", b"1: 1")]),
)

# Locations in either order are two places.
CROSSED = (
    b"T1|w(x)|a\nT2|w(x)|b\nT3|w(y)|b\nT4|w(y)|a\nT5|w(z)|a\nT6|w(z)|b\n",
    one_each(
        (6, 6, 0, 3),
        [(b"1 2", b"a", b"b", b"T1|w(x)|a", b"T2|w(x)|b",
          b"0:"), (b"3 4", b"b", b"a", b"T3|w(y)|b", b"T4|w(y)|a", b"0:")],
    ),
)

# The order is that of later events, then of earlier ones.
ORDERED = (
    b"T1|w(x)|c\nT2|w(x)|b\nT3|w(x)|a\n",
    one_each(
        (3, 3, 0, 1),
        [
            (b"1 2", b"c", b"b", b"T1|w(x)|c", b"T2|w(x)|b", b"0:"),
            (b"1 3", b"c", b"a", b"T1|w(x)|c", b"T3|w(x)|a", b"0:"),
            (b"2 3", b"b", b"a", b"T2|w(x)|b", b"T3|w(x)|a", b"0:"),
        ],
    ),
)

# The race of the variable that is accessed first is listed last, since its later event is.
CROSSWISE = (
    b"T1|w(x)|a\nT1|w(y)|b\nT2|w(y)|c\nT2|w(x)|d\n",
    one_each(
        (4, 2, 0, 2),
        [(b"2 3", b"b", b"c", b"T1|w(y)|b", b"T2|w(y)|c",
          b"1: 1"), (b"1 4", b"a", b"d", b"T1|w(x)|a", b"T2|w(x)|d", b"1: 3")],
    ),
)

# No second bar, and nothing after it: both locations are empty, and each line is as it stands. Further bars
# are kept.
EMPTY = (
    b"T1|w(x)\nT2|w(x)|\nT3|r(x)|a|b\nT4|w(y)|\nT5|w(y)|||\n",
    one_each(
        (5, 5, 0, 2),
        [
            (b"1 2", b"", b"", b"T1|w(x)", b"T2|w(x)|", b"0:"),
            (b"2 3", b"", b"a|b", b"T2|w(x)|", b"T3|r(x)|a|b", b"0:"),
            (b"4 5", b"", b"||", b"T4|w(y)|", b"T5|w(y)|||", b"0:"),
        ],
    ),
)

# Of carriage returns before a line feed, and at the end, one is dropped.
RETURNS = (
    b"T1|w(x)|a\r\n\r\nT2|w(x)|a\r\r\nT3|w(x)|\ra\r",
    one_each(
        (3, 3, 0, 1),
        [
            (b"1 2", b"a", b"a\r", b"T1|w(x)|a", b"T2|w(x)|a\r", b"0:"),
            (b"1 3", b"a", b"\ra", b"T1|w(x)|a", b"T3|w(x)|\ra", b"0:"),
            (b"2 3", b"a\r", b"\ra", b"T2|w(x)|a\r", b"T3|w(x)|\ra", b"0:"),
        ],
    ),
)

# Names are bytes; what is a name here may look like an operation. Threads and variables don't share
# their names.
NAMES = (
    b" |w(f(a))|p\n\x00\xff|r(f(a))|q\nw(x)|w(w(x))|\xc3\n |r(w(x))|r(\n",
    one_each(
        (4, 3, 0, 2),
        [
            (b"1 2", b"p", b"q", b" |w(f(a))|p", b"\x00\xff|r(f(a))|q", b"0:"),
            (b"3 4", b"\xc3", b"r(", b"w(x)|w(w(x))|\xc3", b" |r(w(x))|r(", b"1: 1"),
        ],
    ),
)

# A read learns of the write that it reads: 1 and 2 race, 1 and 3 don't. The lock orders 5 and 9, and nothing
# 7 and 10.
ORDERS = (
    b"T1|w(x)|a\nT2|r(x)|b\nT2|w(x)|c\nT3|acq(l)\nT3|w(y)|d\nT3|rel(l)\nT3|w(z)|e\n"
    b"T4|acq(l)\nT4|w(y)|f\nT4|w(z)|g\nT4|rel(l)\n",
    one_each(
        (11, 4, 1, 3),
        [
            (b"1 2", b"a", b"b", b"T1|w(x)|a", b"T2|r(x)|b", b"0:"),
            (b"7 10", b"e", b"g", b"T3|w(z)|e", b"T4|w(z)|g", b"5: 4 5 6 8 9"),
        ],
    ),
)

# Marks, forks, joins and locks stand at locations too, which make no places.
OTHERS = (
    b"T1|fork(T2)|s\nT1|begin|s\nT1|w(x)|s\nT2|acq(l)|s\nT2|r(x)|t\nT2|rel(l)|s\nT1|join(T2)|s\n"
    b"T1|w(x)|u\nT1|end|s\n",
    one_each((9, 2, 1, 1), [(b"3 5", b"s", b"t", b"T1|w(x)|s", b"T2|r(x)|t", b"3: 1 2 4")]),
)

# Of the four races at a and d the nearest is 2 5; both races need what comes before their events.
LOOP = (
    b"T1|w(x)|a\nT1|w(x)|a\nT1|w(y)|b\nT2|acq(l)|c\nT2|w(x)|d\nT2|w(y)|e\nT2|w(x)|d\nT2|rel(l)|c\n",
    one_each(
        (8, 2, 1, 2),
        [(b"2 5", b"a", b"d", b"T1|w(x)|a", b"T2|w(x)|d",
          b"2: 1 4"), (b"3 6", b"b", b"e", b"T1|w(y)|b", b"T2|w(y)|e", b"4: 1 2 4 5")],
    ),
)

# In each of these a place is raced at by one variable, and so both forms have the same text.
ROWS = [
    (b"", NOTHING),
    (b"\n\r\n\n\r", NOTHING),
    (b"T1|w(x)|a\nT1|r(x)|b\n", one_each((2, 1, 0, 1), [])),
    NEAREST, ORDERED, CROSSWISE, EMPTY, RETURNS, NAMES, ORDERS, OTHERS, LOOP,
]

# Two variables race at one place, each with its nearest race; the other form lists the place once.
TWO = (
    b"T1|w(x)|a\nT1|w(f(y))|a\nT1|w(x)|a\nT2|w(x)|b\nT2|w(f(y))|b\nT2|w(x)|b\n",
    one_each((6, 2, 0, 2), [(b"3 4", b"a", b"b", b"T1|w(x)|a", b"T2|w(x)|b", b"2: 1 2")]),
    report(
        (6, 2, 0, 2),
        [(2, b"a", b"b")],
        [(b"3 4", b"T1|w(x)|a", b"T2|w(x)|b", b"2: 1 2"),
         (b"2 5", b"T1|w(f(y))|a", b"T2|w(f(y))|b", b"2: 1 4")],
    ),
)

# The nearest race of a place and variable isn't nearest of its place: it has a later event of its own.
LATER = (
    b"T1|w(x)|a\nT2|w(x)|b\nT1|w(y)|a\nT1|w(y)|a\nT2|w(y)|b\n",
    one_each((5, 2, 0, 2), [(b"1 2", b"a", b"b", b"T1|w(x)|a", b"T2|w(x)|b", b"0:")]),
    report(
        (5, 2, 0, 2),
        [(2, b"a", b"b")],
        [(b"1 2", b"T1|w(x)|a", b"T2|w(x)|b", b"0:"), (b"4 5", b"T1|w(y)|a", b"T2|w(y)|b", b"3: 1 2 3")],
    ),
)

# A place stands where its first race is listed, and counts the variables that race there also after those of
# other places.
COUNTED = (
    b"T1|w(x)|a\nT1|w(y)|c\nT1|w(z)|a\nT2|w(x)|b\nT2|w(y)|d\nT2|w(z)|b\n",
    one_each(
        (6, 2, 0, 3),
        [(b"1 4", b"a", b"b", b"T1|w(x)|a", b"T2|w(x)|b",
          b"0:"), (b"2 5", b"c", b"d", b"T1|w(y)|c", b"T2|w(y)|d", b"2: 1 4")],
    ),
    report(
        (6, 2, 0, 3),
        [(2, b"a", b"b"), (1, b"c", b"d")],
        [
            (b"1 4", b"T1|w(x)|a", b"T2|w(x)|b", b"0:"),
            (b"2 5", b"T1|w(y)|c", b"T2|w(y)|d", b"2: 1 4"),
            (b"3 6", b"T1|w(z)|a", b"T2|w(z)|b", b"4: 1 2 4 5"),
        ],
    ),
)

# Two variables race at a and b, as above, and the order of the locations still makes two places.
CROSSED_BY_VARIABLE = (
    *CROSSED,
    report(
        (6, 6, 0, 3),
        [(2, b"a", b"b"), (1, b"b", b"a")],
        [
            (b"1 2", b"T1|w(x)|a", b"T2|w(x)|b", b"0:"),
            (b"3 4", b"T3|w(y)|b", b"T4|w(y)|a", b"0:"),
            (b"5 6", b"T5|w(z)|a", b"T6|w(z)|b", b"0:"),
        ],
    ),
)

BY_VARIABLE = [*((text, wanted, wanted) for text, wanted in ROWS), TWO, LATER, COUNTED, CROSSED_BY_VARIABLE]

MADE = 150
SEED = 23
FORMS = ([], False), (["--variables"], True)
WORKERS = ("1", "2", "64")
EXAMPLES = program.HERE.parent / "examples"


def places_in(text):
    """The locations of the places of a report."""
    lines = text.split(b"\n")
    return [(line, lines[k + 1]) for k, line in enumerate(lines) if line.startswith(b"at ")]


class Places(program.Case):
    def expect_report(self, text, option, wanted):
        """The report with schedules, which `check` and the plain judge accept, and the same without them."""
        trace, races = self.file(text), wanted.count(b"\nrace ")
        for workers in WORKERS:
            words = ["places", "--workers", workers, *option]
            self.expect(program.run([*words, trace]), 0, wanted)
            self.expect(program.run([*words, "--list"], text), 0, listed(wanted))
        self.expect(program.run(["places", *option], text), 0, wanted)
        self.expect(program.run(["places", "--list", *option, trace]), 0, listed(wanted))
        self.expect(program.run(["check", trace], wanted), 0, b"ok %d\n" % races)
        self.assertEqual(judge.verdict(text, wanted), b"ok %d\n" % races)

    def test_worked_rows(self):
        for text, *reports in BY_VARIABLE:
            for (option, by_variable), wanted in zip(FORMS, reports):
                with self.subTest(text, option=option):
                    self.assertEqual(shb.places_report(text, True, by_variable), wanted)
                    self.assertEqual(shb.places_report(text, False, by_variable), listed(wanted))
                    self.expect_report(text, option, wanted)

    def test_refused_traces(self):
        for text, said in test_traces.FAULTS:
            with self.subTest(said):
                self.assertRaisesRegex(shb.Refused, f"^{said}$", shb.places_report, text, True)
                for option, _ in FORMS:
                    self.expect(program.run(["places", *option], text), 2, b"", said.encode() + b"\n")

    def test_made_traces(self):
        """Traces of few threads and of many, and one of each three with a small damage."""
        pick = random.Random(SEED)
        listed_races, refused = [0, 0], 0
        for number in range(MADE):
            text = made_traces.made_trace(pick, is_crowd=number % 8 == 0)
            if number % 3 == 0 and text:
                text = made_traces.changed(pick, text)
            with self.subTest(number=number, seed=SEED):
                for option, by_variable in FORMS:
                    try:
                        wanted = shb.places_report(text, True, by_variable)
                    except shb.Refused as fault:
                        self.expect_refusals(text, option, str(fault).encode() + b"\n")
                        refused += 1
                        continue
                    self.expect_report(text, option, wanted)
                    listed_races[by_variable] += wanted.count(b"\nrace ")
        self.assertGreater(refused, MADE // 10)
        self.assertGreater(listed_races[0], MADE)
        self.assertGreater(listed_races[1], listed_races[0])

    def expect_refusals(self, text, option, said):
        for form in ([], ["--list"]):
            self.expect(program.run(["places", *form, *option], text), 2, b"", said)
            self.expect_refused(program.run(["places", *form, *option, self.file(text)]), said.rstrip(b"\n"))

    def test_the_places_are_those_of_all_races(self):
        for trace in [*EXAMPLES.glob("*.std"), *(program.HERE / "rows").glob("*.std")]:
            for option, _ in FORMS:
                ways = [program.run(words).out
                        for words in (["races", "--list", trace], ["places", "--list", *option, trace])]
                self.assertEqual(*map(sorted, map(places_in, ways)))

    def test_many_schedules_at_once(self):
        """More races than results can wait, each at a place of its own, each with a schedule."""
        text = b"".join(b"T%d|w(a%d)|s\nT%d|w(x)|p%d\n" % (k, k, k, k) for k in range(64))
        answer = program.run(["places", "--workers", "1"], text)
        self.assertIn(b"\nraces 2016\nplaces 2016\n", answer.out)
        self.assertEqual(answer, program.run(["races"], text))
        for workers in ("2", "64"):
            self.assertEqual(program.run(["places", "--workers", workers], text), answer)

    def test_the_help_shows_what_the_program_writes(self):
        self.expect(program.run(["places", "--help"]), 0, program.run(["help", "places"]).out)
        text = program.run(["help", "places"]).out.decode()
        self.assertLessEqual(max(map(len, text.splitlines())), 80)
        for wanted in ("Usage: shb places [OPTIONS] [TRACE]", "  --list ", "  --variables ",
                       "4294967294 events,\n65535 threads", "4096 bytes"):
            self.assertIn(wanted, text)
        command, shown = re.search(r"^Example:\n  \$ (.*) \| shb places\n((?:  .*\n)+)", text, re.M).groups()
        trace = subprocess.run(["sh", "-c", command], stdout=subprocess.PIPE, check=True).stdout
        self.expect(program.run(["places"], trace), 0,
                    "".join(line[2:] + "\n" for line in shown.splitlines()).encode())

    def test_refused_words(self):
        for words in (["places", "a", "b"], ["places", "--workers", "0"], ["places", "--workers", "65"],
                      ["places", "--all"], ["races", "--variables"]):
            answer = program.run(words)
            self.assertEqual((answer.status, answer.out, answer.err[:7]), (3, b"", b"error: "))
