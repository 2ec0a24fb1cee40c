"""As many of each thing as a trace may have, or as fit into the memory of a small machine: names, locks,
racing variables, pieces of work, races that are kept, reads, locations, places, clocks and blocks.
docs/GUARANTEES.md has a table of these sizes. Each report is worked out from its trace by a formula, and what
is long is compared by its digest."""

import hashlib
import itertools
import signal
import subprocess

import program
import shb
import test_large
import test_long_lists

MOST_EVENTS = 4_194_304
MOST_THREADS = 1_024
OTHER_VARIABLES = 70_000


def head(events, threads, locks, variables, races):
    return (b"shb-report 2\nevents %d threads %d locks %d variables %d\nraces %d\n"
            % (events, threads, locks, variables, races))


def one_place(count):
    return b"places 1\nplace 1: %d\nat \nand \n" % count


def without_races(events, threads, locks, variables):
    return head(events, threads, locks, variables, 0) + b"places 0\nend\n"


def together(parts):
    """The same bytes in fewer parts."""
    parts = iter(parts)
    return iter(lambda: b"".join(itertools.islice(parts, 2**12)), b"")


def digest(parts):
    made = hashlib.sha256()
    for part in together(parts):
        made.update(part)
    return made.hexdigest()


def filled(form, *columns):
    """The form, filled with the first of each column, with the second of each, and so on."""
    return map(form.__mod__, zip(*columns))


def other_variables(count):
    """Reads of so many variables, so that the next one has a number above them. No other thread
    comes to them."""
    return b"".join(b"T|r(y%d)\n" % k for k in range(count))


def racing_variables(count):
    """Each variable is written by two threads, at a location of its own."""
    return b"".join(b"T|w(%d)|%d\nU|w(%d)|%d\n" % (k, k, k, k) for k in range(count))


def report_of_racing_variables(count):
    names = range(count)
    yield head(2 * count, 2, 0, count, count) + b"places %d\n" % count
    yield from filled(b"place %d: 1\nat %d\nand %d\n", itertools.count(1), names, names)
    block = b"race %d: %d %d\nfirst T|w(%d)|%d\nsecond U|w(%d)|%d\n"
    yield from filled(block, itertools.count(1), itertools.count(1, 2), itertools.count(2, 2), names, names,
                      names, names)
    yield b"end\n"


class Writes:
    """So many threads write one variable, one after the other, and perhaps a second time. Each write is at a
    location of its own, and races with all those of other threads. Before a race a thread that comes to its
    second write has made the first."""

    def __init__(self, threads, times):
        self.threads = threads
        self.events = threads * times
        self.lines = [b"T%d|w(x)|l%d" % (e % threads, e) for e in range(self.events)]
        self.pairs = [(i, j) for j in range(self.events) for i in range(j) if j - i != threads]

    def trace(self):
        return b"".join(line + b"\n" for line in self.lines)

    def schedule(self, i, j):
        before = [b" %d" % (e + 1 - self.threads) for e in (i, j) if e >= self.threads]
        return b"schedule %d:%s\n" % (len(before), b"".join(before))

    def report(self, with_schedules, marks=0):
        """The report of the trace and of so many marks after it."""
        yield (head(self.events + marks, self.threads, 0, 1, len(self.pairs)) + b"places %d\n"
               % len(self.pairs))
        for q, (i, j) in enumerate(self.pairs, 1):
            yield b"place %d: 1\nat l%d\nand l%d\n" % (q, i, j)
        for k, (i, j) in enumerate(self.pairs, 1):
            yield b"race %d: %d %d\nfirst %s\nsecond %s\n" % (k, i + 1, j + 1, self.lines[i], self.lines[j])
            if with_schedules:
                yield self.schedule(i, j)
        yield b"end\n"


class LongSchedules:
    """Two of some threads read by turns, and then each thread writes one variable. Before a race of the two
    all reads have come; before one of the first, every other of them, and so of the second; before one of two
    others none."""

    def __init__(self, threads, reads):
        self.threads, self.reads = threads, reads
        self.pairs = [(i, j) for j in range(threads) for i in range(j)]

    def trace(self):
        return (b"T0|r(y)\nT1|r(z)\n" * (self.reads // 2)
                + b"".join(b"T%d|w(x)\n" % t for t in range(self.threads)))

    def schedules(self):
        """That of the two, one of the first, one of the second, and one of two others."""
        for numbers in (range(1, self.reads + 1), range(1, self.reads + 1, 2),
                        range(2, self.reads + 1, 2), ()):
            yield b"schedule %d:" % len(numbers) + b"".join(b" %d" % k for k in numbers) + b"\n"

    def report(self):
        both, first, second, none = self.schedules()
        yield (head(self.reads + self.threads, self.threads, 0, 3, len(self.pairs))
               + one_place(len(self.pairs)))
        for k, (i, j) in enumerate(self.pairs, 1):
            yield (b"race %d: %d %d\nfirst T%d|w(x)\nsecond T%d|w(x)\n"
                   % (k, self.reads + i + 1, self.reads + j + 1, i, j))
            yield both if j == 1 else (first, second)[i] if i < 2 else none
        yield b"end\n"


class Locations:
    """One thread writes a variable at so many locations, at the first of them once more, and then another
    thread writes it three times at one location. The variable has a number above those of other variables."""

    later = 3

    def __init__(self, others, locations, writes):
        self.others, self.locations, self.writes = others, locations, writes

    def trace(self):
        written = b"".join(b"T|w(x)|%d\n" % (k % self.locations) for k in range(self.writes))
        return other_variables(self.others) + written + b"U|w(x)|u\n" * self.later

    def report(self):
        races, at = self.later * self.writes, range(self.locations)
        yield (head(self.others + self.writes + self.later, 2, 0, self.others + 1, races) + b"places %d\n"
               % self.locations)
        counts = (self.later * len(range(q, self.writes, self.locations)) for q in at)
        yield from filled(b"place %d: %d\nat %d\nand u\n", itertools.count(1), counts, at)
        block = b"race %d: %d %d\nfirst T|w(x)|%d\nsecond U|w(x)|u\n"
        for u in range(self.later):
            numbers, firsts = (itertools.count(u * self.writes + 1),
                               range(self.others + 1, self.others + self.writes + 1))
            yield from filled(block, numbers, firsts, itertools.repeat(firsts[-1] + u + 1),
                              itertools.cycle(at))
        yield b"end\n"


class SquareOfPlaces:
    """One thread writes a variable at so many locations, and then another does: each pair of these is a
    place, and has one race. The variable has a number above those of other variables."""

    def __init__(self, others, locations):
        self.others, self.locations = others, locations
        self.pairs = [(i, j) for j in range(locations) for i in range(locations)]

    def trace(self):
        written = (b"%c|w(x)|%c%d\n" % (t, l, k) for t, l in ((b"T", b"a"), (b"U", b"b"))
                   for k in range(self.locations))
        return other_variables(self.others) + b"".join(written)

    def report(self):
        count = len(self.pairs)
        yield head(self.others + 2 * self.locations, 2, 0, self.others + 1, count) + b"places %d\n" % count
        for q, (i, j) in enumerate(self.pairs, 1):
            yield b"place %d: 1\nat a%d\nand b%d\n" % (q, i, j)
        first, second = self.others + 1, self.others + self.locations + 1
        for k, (i, j) in enumerate(self.pairs, 1):
            yield b"race %d: %d %d\nfirst T|w(x)|a%d\nsecond U|w(x)|b%d\n" % (k, first + i, second + j, i, j)
        yield b"end\n"


class ReadsByTurns:
    """Two threads read one variable by turns, so often each, and then one of them writes it."""

    def __init__(self, reads):
        self.reads = reads

    def trace(self, before_the_write=b""):
        return b"T|r(x)\nU|r(x)\n" * self.reads + before_the_write + b"T|w(x)\n"

    def report(self):
        last = 2 * self.reads + 1
        yield head(last, 2, 0, 1, self.reads) + one_place(self.reads)
        block = b"race %d: %d %d\nfirst U|r(x)\nsecond T|w(x)\n"
        yield from filled(block, range(1, self.reads + 1), itertools.count(2, 2), itertools.repeat(last))
        yield b"end\n"


def locks_with_clocks(threads, locks):
    """Each lock is taken by a thread, and then by the next one, which learns of the first there: then all
    releases have clocks that differ. At the end two threads write without a lock."""
    held = b"T%d|acq(l%d)\nT%d|rel(l%d)\n"
    turns = [((k + turn) % threads, k) for turn in (0, 1) for k in range(locks)]
    return b"".join(held % (t, k, t, k) for t, k in turns) + b"T0|w(z)\nT1|w(z)\n"


def beginnings(threads):
    return b"".join(b"T%d|begin(t)\n" % t for t in range(threads))


def reads_after_a_race(threads, reads):
    """Two threads write a variable, and then a third one reads it so often. All that it learns is
    the second write."""
    return beginnings(threads) + b"T0|w(x)|a\nT1|w(x)|b\n" + b"T2|r(x)|c\n" * reads


def report_of_reads(threads, reads):
    """The first write races with all else, and the second with the first read alone."""
    first, second, read = threads + 1, threads + 2, threads + 3
    yield head(threads + 2 + reads, threads, 0, 1, reads + 2)
    yield b"places 3\nplace 1: 1\nat a\nand b\nplace 2: %d\nat a\nand c\nplace 3: 1\nat b\nand c\n" % reads
    yield b"race 1: %d %d\nfirst T0|w(x)|a\nsecond T1|w(x)|b\n" % (first, second)
    yield b"race 2: %d %d\nfirst T0|w(x)|a\nsecond T2|r(x)|c\n" % (first, read)
    yield b"race 3: %d %d\nfirst T1|w(x)|b\nsecond T2|r(x)|c\n" % (second, read)
    block = b"race %d: %d %d\nfirst T0|w(x)|a\nsecond T2|r(x)|c\n"
    yield from filled(block, range(4, reads + 3), itertools.repeat(first), itertools.count(read + 1))
    yield b"end\n"


def reads_of_writes(readers, rounds):
    """Each round a thread takes a lock of each other one, and writes a variable. Then each other thread reads
    it, and takes its own lock. So each read races with the write that it saw, and with no other."""
    theirs = b"".join(b"W|acq(l%d)\nW|rel(l%d)\n" % (t, t) for t in range(readers))
    read = b"T%d|r(x)|r\nT%d|acq(l%d)\nT%d|rel(l%d)\n"
    return (theirs + b"W|w(x)|w\n" + b"".join(read % ((t,) * 5) for t in range(readers))) * rounds


def report_of_writes(readers, rounds):
    events, races = 5 * readers + 1, readers * rounds
    yield head(events * rounds, readers + 1, readers, 1, races)
    yield b"places 1\nplace 1: %d\nat w\nand r\n" % races
    for k in range(races):
        r, t = divmod(k, readers)
        write = events * r + 2 * readers + 1
        yield b"race %d: %d %d\nfirst W|w(x)|w\nsecond T%d|r(x)|r\n" % (k + 1, write, write + 3 * t + 1, t)
    yield b"end\n"


def report_of_locks(threads, locks):
    events = 4 * locks + 2
    block = b"race 1: %d %d\nfirst T0|w(z)\nsecond T1|w(z)\n" % (events - 1, events)
    return head(events, threads, locks, 1, 1) + one_place(1) + block + b"end\n"


class SmallSizes(program.Case):
    """What the reports of this module are, by the plain program of the definitions."""

    def expect_report(self, trace, parts, with_schedules=False, report=shb.report):
        self.assertEqual(report(trace, with_schedules), b"".join(parts))

    def test_reports(self):
        self.expect_report(racing_variables(5), report_of_racing_variables(5))
        self.expect_report(racing_variables(5), report_of_racing_variables(5), report=shb.places_report)
        self.expect_report(ReadsByTurns(5).trace(), ReadsByTurns(5).report())
        self.expect_report(ReadsByTurns(5).trace(b"T|join(U)\n"), [without_races(12, 2, 0, 1)])
        self.expect_report(Locations(3, 4, 7).trace(), Locations(3, 4, 7).report())
        self.expect_report(SquareOfPlaces(3, 4).trace(), SquareOfPlaces(3, 4).report(),
                           report=shb.places_report)
        self.expect_report(locks_with_clocks(4, 6), [report_of_locks(4, 6)])
        self.expect_report(LongSchedules(4, 6).trace(), LongSchedules(4, 6).report(), with_schedules=True)
        self.expect_report(reads_after_a_race(4, 5), report_of_reads(4, 5))
        self.expect_report(reads_of_writes(3, 4), report_of_writes(3, 4))
        for threads, times in ((5, 1), (2, 2), (4, 2)):
            self.expect_report(Writes(threads, times).trace(), Writes(threads, times).report(False))
            self.expect_report(Writes(threads, times).trace(), Writes(threads, times).report(True),
                               with_schedules=True)


class Sizes(program.Case):
    def digest_of(self, words, seconds=program.LONG_SECONDS):
        """The digest of what the program prints, which isn't held in memory here."""
        with program.start(words, seconds) as started:
            made = digest(iter(lambda: started.stdout.read(2**20), b""))
            said = started.stderr.read()
        self.assertEqual((started.returncode, said), (0, b""))
        return made

    def written(self, parts):
        """A file with a report, and the digest of it."""
        path, made = self.folder / "report", hashlib.sha256()
        with open(path, "wb") as out:
            for part in together(parts):
                out.write(part)
                made.update(part)
        return path, made.hexdigest()

    def expect_good(self, trace, report, races):
        with open(report, "rb") as given:
            self.expect(program.run_over(["check", trace], given), 0, b"ok %d\n" % races)

    def test_that_a_program_that_crawls_is_ended(self):
        with program.start(["races"], seconds=0.1, stdin=subprocess.PIPE) as waiting:
            self.assertEqual(waiting.wait(program.SECONDS), -signal.SIGKILL)

    def test_the_most_variables(self):
        text = b"".join(b"T|r(v%d)\n" % k for k in range(MOST_EVENTS))
        self.expect(program.run(["races"], text), 0, without_races(MOST_EVENTS, 1, 0, MOST_EVENTS))

    def test_the_most_locks(self):
        """Their names are longer than those that are hashed at once."""
        text = b"".join(b"T|acq(a lock that has number %d)\n" % k for k in range(MOST_EVENTS))
        self.expect(program.run(["races"], text), 0, without_races(MOST_EVENTS, 1, MOST_EVENTS, 0))

    def test_a_lock_taken_again_and_again(self):
        text = b"T|acq(l)\n" * (MOST_EVENTS // 2) + b"T|rel(l)\n" * (MOST_EVENTS // 2)
        self.expect(program.run(["races"], text), 0, without_races(MOST_EVENTS, 1, 1, 0))

    def test_the_most_racing_variables(self):
        """Each is a piece of work of its own, and there are as many races: 32,768 rounds of the ring's 64
        places. Each race has a place of its own, so `places` lists them all."""
        count = MOST_EVENTS // 2
        trace = self.file(racing_variables(count))
        wanted = digest(report_of_racing_variables(count))
        for words in (["races", "--workers", "1"], ["races", "--workers", "4"], ["places"]):
            self.assertEqual(self.digest_of([*words, "--list", trace]), wanted)

    def test_lines_longer_than_what_is_written_at_once(self):
        """Up to 1,024 bytes of a block are written at once, and a line may have 4,096."""
        for length in (1_000, 1_010, 1_017, 1_018, 1_024, 1_025, 4_096):
            text = b"T|w(x)|".ljust(length, b"a") + b"\n" + b"U|w(x)|".ljust(length, b"b") + b"\n"
            self.expect(program.run(["races"], text), 0, shb.report(text, True))

    def test_many_reads_by_turns(self):
        """None of them is ordered after the one before. After a join of the other thread the write
        has no race."""
        made = ReadsByTurns(600_000)
        self.assertEqual(self.digest_of(["races", "--list", self.file(made.trace())]), digest(made.report()))
        trace = made.trace(b"T|join(U)\n")
        self.expect(program.run(["races"], trace), 0, without_races(trace.count(b"\n"), 2, 0, 1))

    def test_two_million_places(self):
        """Each place is an entry of a table, which grows with them."""
        made = SquareOfPlaces(OTHER_VARIABLES, 1_450)
        self.assertGreater(len(made.pairs), 2**21)
        words = ["places", "--list", self.file(made.trace())]
        self.assertEqual(self.digest_of(words, 2 * program.SECONDS), digest(made.report()))

    def test_a_million_locations(self):
        """There are more races than events, so they are counted; each later write has 2,050,000 of them."""
        made = Locations(OTHER_VARIABLES, 1_050_000, 2_050_000)
        self.assertEqual(self.digest_of(["races", "--list", self.file(made.trace())]), digest(made.report()))

    def test_clocks_of_many_locks(self):
        """More than 65,536 clocks of 1,024 threads are in use at the end."""
        locks = 66_000
        trace = locks_with_clocks(MOST_THREADS, locks)
        self.expect(program.run(["races", "--list"], trace), 0, report_of_locks(MOST_THREADS, locks))

    def expect_within(self, room, trace, parts):
        """The list of a trace, in so much memory beside its text."""
        answer = program.run(["races", "--list"], trace, **test_large.within(len(trace) + room))
        self.expect(answer, 0, b"".join(parts))

    def test_that_clocks_are_shared(self):
        """A clock of 1,024 threads has 4 KiB: one for each read doesn't fit. The reads of a thread that
        learns nothing share one. Of reads that learn something the rows of a turn are kept: 256 MiB, and
        half as much again while they grow."""
        room, reads, readers, rounds = 96 * 2**20, 100_000, MOST_THREADS - 1, 100
        self.assertGreater(4 * MOST_THREADS * reads, 4 * room)
        self.expect_within(room, reads_after_a_race(MOST_THREADS, reads),
                           report_of_reads(MOST_THREADS, reads))
        room += 416 * 2**20
        self.expect_within(room, reads_of_writes(readers, rounds), report_of_writes(readers, rounds))

    def test_races_that_are_kept_with_schedules(self):
        """100 threads have 4,950 races, and with as many marks after these there are no more
        races than events."""
        made, marks = Writes(100, 1), 5_000
        self.assertEqual(len(made.pairs), 4_950)
        trace, report = self.file(made.trace() + b"T1|begin(m)\n" * marks), b"".join(made.report(True, marks))
        for workers in ("1", "4"):
            self.expect(program.run(["races", "--workers", workers, trace]), 0, report)
        self.expect(program.run(["check", trace], report), 0, b"ok %d\n" % len(made.pairs))

    def test_as_many_threads_as_race_on_one_variable(self):
        """1,024 threads that write twice have 2,095,104 races, each with a place of its own."""
        made = Writes(MOST_THREADS, 2)
        self.assertEqual(len(made.pairs), 2_095_104)
        trace = self.file(made.trace())
        self.assertEqual(self.digest_of(["races", "--list", trace]), digest(made.report(False)))
        report, wanted = self.written(made.report(True))
        self.assertEqual(self.digest_of(["races", trace]), wanted)
        self.expect_good(trace, report, len(made.pairs))

    def test_a_race_listed_five_million_times(self):
        """`check` doesn't mind that a race is listed more than once."""
        count = 5_000_000
        blocks = filled(b"race %d: 1 2\nfirst T|w(x)\nsecond U|w(x)\nschedule 0:\n", range(1, count + 1))
        report, _ = self.written(itertools.chain([head(2, 2, 0, 1, count) + one_place(count)],
                                                 blocks, [b"end\n"]))
        self.expect_good(self.file(b"T|w(x)\nU|w(x)\n"), report, count)

    def test_schedules_of_the_most_events(self):
        """One schedule has all events but ten, and sixteen have every other of these: more than
        37 million numbers."""
        made = LongSchedules(10, MOST_EVENTS - 10)
        trace = self.file(made.trace())
        report, wanted = self.written(made.report())
        for workers in ("1", "4"):
            self.assertEqual(self.digest_of(["races", "--workers", workers, trace]), wanted)
        self.expect_good(trace, report, len(made.pairs))

    def test_two_million_blocks_of_more_races_than_events(self):
        rounds = 1_500
        numbers = range(1, rounds * rounds + 1)
        front = test_long_lists.head_of(rounds)
        wanted = digest(
            itertools.chain([front], (test_long_lists.block(rounds, k) for k in numbers), [b"end\n"]))
        self.assertEqual(self.digest_of(["races", "--list", self.file(test_long_lists.two_writers(rounds))]),
                         wanted)
