"""Sizes that small traces never reach: more than 100,000 races with schedules, more than 65,536 names, kept
clocks and events of a schedule; as many locks, names and events of a schedule as a trace of the most events
has; an empty line before each of a million events; and clocks of 1,024 threads, a variable with more races
than memory could hold, a report with a schedule that is far longer than its trace, and one with far more
places than races, in little memory."""

import resource

import program

THREADS = 460
RACING_VARIABLES = 250_000
ROUNDS = 35_000
MOST_EVENTS = 4_194_304


def places(count):
    return b"places 1\nplace 1: %d\nat \nand \n" % count


def many_races():
    """Each thread writes the variable once: every pair races, and nothing has to run before it."""
    lines = [b"T%d|w(x)\n" % k for k in range(1, THREADS + 1)]
    pairs = [(i, j) for j in range(1, THREADS + 1) for i in range(1, j)]
    report = [b"shb-report 2\nevents %d threads %d locks 0 variables 1\n" % (THREADS, THREADS)]
    report.append(b"races %d\n" % len(pairs) + places(len(pairs)))
    for k, (i, j) in enumerate(pairs, 1):
        report.append(b"race %d: %d %d\nfirst T%d|w(x)\nsecond T%d|w(x)\nschedule 0:\n" % (k, i, j, i, j))
    return b"".join(lines), b"".join([*report, b"end\n"]), len(pairs)


def many_racing_variables():
    """Two threads write each of many variables, with nothing between them: each variable has one race, all
    at one place."""
    count = RACING_VARIABLES
    lines = [b"T1|w(v%d)|a\nT2|w(v%d)|b\n" % (k, k) for k in range(count)]
    report = [b"shb-report 2\nevents %d threads 2 locks 0 variables %d\n" % (2 * count, count)]
    report.append(b"races %d\nplaces 1\nplace 1: %d\nat a\nand b\n" % (count, count))
    for k in range(count):
        pair = (k + 1, 2 * k + 1, 2 * k + 2, k, k)
        report.append(b"race %d: %d %d\nfirst T1|w(v%d)|a\nsecond T2|w(v%d)|b\n" % pair)
    return b"".join(lines), b"".join([*report, b"end\n"])


def many_names():
    """Two threads take a lock in turn, each time for variables of their own; at the end both
    write without it."""
    lines = []
    for k in range(ROUNDS):
        lines.append(b"T1|acq(l)\nT1|w(v%d)\nT1|rel(l)\nT2|acq(l)\nT2|r(v%d)\nT2|w(u%d)\nT2|rel(l)\n"
                     % (k, k, k))
    lines.append(b"T1|w(z)\nT2|w(z)\n")
    events = 7 * ROUNDS + 2
    numbers = b"".join(b" %d" % k for k in range(1, events - 1))
    report = [
        b"shb-report 2\nevents %d threads 2 locks 1 variables %d\n" % (events, 2 * ROUNDS + 1),
        b"races 1\n" + places(1),
        b"race 1: %d %d\nfirst T1|w(z)\nsecond T2|w(z)\n" % (events - 1, events),
        b"schedule %d:" % (events - 2) + numbers + b"\nend\n",
    ]
    return b"".join(lines), b"".join(report), 1


def the_most():
    """As many events as there may be. Two threads go through groups of six events, each with a lock and a
    variable of its own; at the end both write without a lock, and all other events stand in the schedule of
    this race."""
    groups = (MOST_EVENTS - 4) // 6
    group = b"T1|acq(l%d)\nT1|w(v%d)\nT1|rel(l%d)\nT2|acq(l%d)\nT2|r(v%d)\nT2|rel(l%d)\n"
    lines = [b"T1|begin\nT2|begin\n", *(group % ((k,) * 6) for k in range(groups)), b"T1|w(z)\nT2|w(z)\n"]
    numbers = b"".join(b" %d" % k for k in range(1, MOST_EVENTS - 1))
    report = [
        b"shb-report 2\nevents %d threads 2 locks %d variables %d\n" % (MOST_EVENTS, groups, groups + 1),
        b"races 1\n" + places(1),
        b"race 1: %d %d\nfirst T1|w(z)\nsecond T2|w(z)\n" % (MOST_EVENTS - 1, MOST_EVENTS),
        b"schedule %d:" % (MOST_EVENTS - 2) + numbers + b"\nend\n",
    ]
    return b"".join(lines), b"".join(report), 1


def random_locks(threads, rounds):
    """The threads take locks by fixed numbers, each time for the lock's own variable; at the end two of them
    write without one."""
    lines, number = [], 1
    for k in range(rounds):
        number = (number * 1_103_515_245 + 12_345) % 2**32
        thread, lock = (k, k) if k < threads else ((number >> 6) % threads, (number >> 16) % threads)
        lines.append(b"T%d|acq(l%d)\nT%d|w(v%d)\nT%d|rel(l%d)\n" % (thread, lock, thread, lock, thread, lock))
    lines.append(b"T0|w(z)\nT1|w(z)\n")
    events = 3 * rounds + 2
    report = [
        b"shb-report 2\nevents %d threads %d locks %d variables %d\n"
        % (events, threads, threads, threads + 1),
        b"races 1\n" + places(1),
        b"race 1: %d %d\nfirst T0|w(z)\nsecond T1|w(z)\nend\n" % (events - 1, events),
    ]
    return b"".join(lines), b"".join(report)


def hot_variable(writes):
    """Two threads write one variable in turn, and nothing orders them: each write of one races with each of
    the other. The report of a race of each place, with schedules: 2 may come before 1, and 2 and 3 may change
    places after 1."""
    report = [
        b"shb-report 2\nevents %d threads 2 locks 0 variables 1\n" % (2 * writes),
        b"races 2\nplaces 2\nplace 1: 1\nat a\nand b\nplace 2: 1\nat b\nand a\n",
        b"race 1: 1 2\nfirst T1|w(x)|a\nsecond T2|w(x)|b\nschedule 0:\n",
        b"race 2: 2 3\nfirst T2|w(x)|b\nsecond T1|w(x)|a\nschedule 1: 1\nend\n",
    ]
    return b"T1|w(x)|a\nT2|w(x)|b\n" * writes, b"".join(report)


def square_of_places(locations):
    """One thread writes a variable at so many locations, and then another does: each pair of these is a
    place, and has one race."""
    count = locations * locations
    lines = [b"T%d|w(x)|%c%d\n" % (t, b"ab"[t - 1], k) for t in (1, 2) for k in range(locations)]
    pairs = [(i, j) for j in range(locations) for i in range(locations)]
    report = [b"shb-report 2\nevents %d threads 2 locks 0 variables 1\n" % (2 * locations)]
    report.append(b"races %d\nplaces %d\n" % (count, count))
    report += [b"place %d: 1\nat a%d\nand b%d\n" % (q, i, j) for q, (i, j) in enumerate(pairs, 1)]
    for k, (i, j) in enumerate(pairs, 1):
        report.append(b"race %d: %d %d\nfirst T1|w(x)|a%d\nsecond T2|w(x)|b%d\n"
                      % (k, i + 1, locations + j + 1, i, j))
    return b"".join(lines), b"".join([*report, b"end\n"])


def long_schedule(numbers, last):
    """Two writes, and a report of their race with so many numbers in its schedule and one more."""
    report = [
        b"shb-report 1\nevents 2 threads 2 locks 0 variables 1\nraces 1\n",
        b"race 1: 1 2\nfirst T1|w(x)\nsecond T2|w(x)\n",
        b"schedule %d:" % (numbers + 1) + b" 1" * numbers + b" %s\nend\n" % last,
    ]
    return b"T1|w(x)\nT2|w(x)\n", b"".join(report)


def many_places(count, last):
    """Two writes, and a report of their race with so many places, the last of which has this count."""
    report = [
        b"shb-report 2\nevents 2 threads 2 locks 0 variables 1\nraces 1\nplaces %d\n" % count,
        *(b"place %d: 1\nat \nand \n" % number for number in range(1, count)),
        b"place %d: %s\nat \nand \n" % (count, last),
        b"race 1: 1 2\nfirst T1|w(x)\nsecond T2|w(x)\nschedule 0:\nend\n",
    ]
    return b"T1|w(x)\nT2|w(x)\n", b"".join(report)


def within(room):
    """How to run the program with so many bytes of memory."""
    return {"preexec_fn": lambda: resource.setrlimit(resource.RLIMIT_AS, (room, room))}


class Large(program.Case):
    def compare(self, text, report, races):
        trace = self.file(text)
        for workers in ("1", "2", "64"):
            answer = program.run(["races", "--workers", workers, trace])
            self.assertEqual((answer.status, answer.err), (0, b""))
            self.assertTrue(answer.out == report, "the reports differ")
        self.expect(program.run(["check", trace], report), 0, b"ok %d\n" % races)
        return trace

    def test_many_races(self):
        text, report, races = many_races()
        self.assertGreater(races, 100_000)
        trace = self.compare(text, report, races)
        forged = (b"second T%d|w(x)" % (THREADS - 1)).join(report.rsplit(b"second T%d|w(x)" % THREADS, 1))
        self.expect(program.run(["check", trace], forged), 5, b"bad race %d\n" % races)

    def test_many_racing_variables(self):
        """Each variable is a piece of work of its own: many more than 256 for each worker."""
        text, report = many_racing_variables()
        for workers in ("1", "4"):
            self.expect(program.run(["races", "--list", "--workers", workers], text), 0, report)

    def test_a_hot_variable_in_little_memory(self):
        """2^42 races of 8 bytes each don't fit; `places` makes no list of them."""
        writes = MOST_EVENTS // 2
        text, report = hot_variable(writes)
        room = len(text) + 300 * 2**20
        self.assertGreater(8 * writes * writes, room)
        listed = b"".join(line for line in report.splitlines(keepends=True)
                          if not line.startswith(b"schedule"))
        trace = self.file(text)
        for workers in ("1", "2", "64"):
            self.expect(program.run(["places", "--list", "--workers", workers, trace], **within(room)), 0,
                        listed)
        self.expect(program.run(["places", "--workers", "2", trace], **within(room)), 0, report)
        self.expect(program.run(["check", trace], report), 0, b"ok 2\n")

    def test_many_places(self):
        text, report = square_of_places(500)
        trace = self.file(text)
        for form in ("places", "races"):
            self.assertTrue(program.run([form, "--list", trace]) == program.Answer(0, report, b""),
                            "the reports differ")

    def test_many_names_clocks_and_events_of_a_schedule(self):
        text, report, races = many_names()
        trace = self.compare(text, report, races)
        forged = b" %d %d\nend\n" % (7 * ROUNDS - 1, 7 * ROUNDS)
        self.assertTrue(report.endswith(forged))
        swapped = report[: -len(forged)] + b" %d %d\nend\n" % (7 * ROUNDS, 7 * ROUNDS - 1)
        self.expect(program.run(["check", trace], swapped), 5, b"bad race 1\n")

    def test_the_most_events(self):
        text = b"T|r(x)\n" * MOST_EVENTS
        report = (b"shb-report 2\nevents %d threads 1 locks 0 variables 1\nraces 0\nplaces 0\nend\n"
                  % MOST_EVENTS)
        self.expect(program.run(["races"], text), 0, report)
        said = b"line %d: there are more than %d events\n" % (MOST_EVENTS + 1, MOST_EVENTS)
        self.expect(program.run(["races"], text + b"T|r(x)\n"), 2, b"", said)
        said = b"line %d: the line has no operation field\n" % (MOST_EVENTS + 1)
        self.expect(program.run(["races"], text + b"oops\n"), 2, b"", said)

    def test_an_empty_line_before_each_event(self):
        """The number of a line is searched for among all empty lines: to do so for each event
        would take minutes."""
        events = 1_000_000
        text = b"\nT1|r(x)\n\nT2|w(y)\n" * (events // 2)
        report = b"shb-report 2\nevents %d threads 2 locks 0 variables 2\nraces 0\nplaces 0\nend\n" % events
        self.expect(program.run(["races"], text), 0, report)
        self.expect(program.run(["check", self.file(text)], report), 0, b"ok 0\n")
        said = b"line %d: the lock is not held by this thread\n" % (2 * events + 2)
        self.expect(program.run(["races"], text + b"\nT1|rel(l)\n"), 2, b"", said)

    def test_the_most_locks_variables_and_events_of_a_schedule(self):
        text, report, races = the_most()
        self.assertEqual(text.count(b"\n"), MOST_EVENTS)
        self.compare(text, report, races)

    def test_clocks_of_many_threads_in_little_memory(self):
        """A clock of 1,024 threads has 4 KiB, and each acquire makes one: all together they don't fit."""
        threads, rounds = 1024, 100_000
        text, report = random_locks(threads, rounds)
        room = len(text) + 200 * 2**20
        self.assertGreater(4 * threads * rounds, room)
        self.expect(program.run(["races", "--list"], text, **within(room)), 0, report)

    def test_a_long_schedule_in_little_memory(self):
        """A position takes 4 bytes: those of all numbers don't fit. The last number is read all the same."""
        numbers = 60_000_000
        for last, said in ((b"1", b"bad race 1\n"), (b"3", b"bad race 1\n"), (b"01", b"bad line 7\n")):
            text, report = long_schedule(numbers, last)
            room = len(report) + 32 * 2**20
            self.assertGreater(4 * numbers, room)
            self.expect(program.run(["check", self.file(text)], report, **within(room)), 5, said)

    def test_many_places_in_little_memory(self):
        """A place takes 24 bytes: those of all places don't fit. The last place is read all the same."""
        count = 2_300_000
        for last, said in ((b"1", b"bad places\n"), (b"01", b"bad line %d\n" % (3 * count + 2))):
            text, report = many_places(count, last)
            room = len(report) + 32 * 2**20
            self.assertGreater(len(report) + 24 * count, room)
            self.expect(program.run(["check", self.file(text)], report, **within(room)), 5, said)
