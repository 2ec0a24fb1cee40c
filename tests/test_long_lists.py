"""Lists of more races than events, which the program searches for more than once, a batch of variables at a
time: more of them than fit into memory as pairs, more bytes than 32 bits count, pipes that break in the
middle, and each request for memory and each device that fails on the way."""

import collections
import resource
import signal

import program
import test_devices
import test_refusals

FRONT = 1_000_000
LAST = 10_000
PART = 2**20
ROUNDS = 3_000
MANY_ROUNDS = 2_097_152
FULL_FILE = b"cannot write\nshb: standard output: File too large (os error 27)\n"


def two_writers(rounds):
    """One thread writes a variable so often, then another one does. Nothing orders the two, so each write of
    the second races with each of the first."""
    return b"T1|w(x)|a\n" * rounds + b"T2|w(x)|b\n" * rounds


def head_of(rounds):
    races = rounds * rounds
    head = b"shb-report 2\nevents %d threads 2 locks 0 variables 1\nraces %d\n" % (2 * rounds, races)
    return head + b"places 1\nplace 1: %d\nat a\nand b\n" % races


def block(rounds, number):
    """The block of the race with this number: by the later write, then by the earlier."""
    second, first = divmod(number - 1, rounds)
    events = b"race %d: %d %d\n" % (number, first + 1, rounds + second + 1)
    return events + b"first T1|w(x)|a\nsecond T2|w(x)|b\n"


def report_of(rounds):
    return head_of(rounds) + b"".join(block(rounds, k) for k in range(1, rounds * rounds + 1)) + b"end\n"


def front_of(rounds, length):
    parts, number = [head_of(rounds)], 0
    while sum(map(len, parts)) < length:
        parts.append(b"".join(block(rounds, number + k) for k in range(1, 10_001)))
        number += 10_000
    return b"".join(parts)[:length]


def two_writers_of_each(rounds):
    """For each of these numbers a variable, which one thread writes so often; then another thread does, all
    variables in the same order. Nothing orders the two."""
    return b"".join(b"T%d|w(%d)|%d\n" % (thread, x, x % 2) * many for thread in (1, 2)
                    for x, many in enumerate(rounds))


def races_of_each(rounds):
    """Their races: by the variable, then by the later write, then by the earlier."""
    events, start = sum(rounds), 1
    for x, many in enumerate(rounds):
        yield from ((x, first, events + second) for second in range(start, start + many)
                    for first in range(start, start + many))
        start += many


def report_of_each(rounds):
    races = list(races_of_each(rounds))
    head = (b"shb-report 2\nevents %d threads 2 locks 0 variables %d\nraces %d\n"
            % (2 * sum(rounds), len(rounds), len(races)))
    counts = [sum(many * many for many in rounds[start::2]) for start in (0, 1)]
    places = b"places %d\n" % len([count for count in counts if count])
    places += b"".join(b"place %d: %d\nat %d\nand %d\n" % (x + 1, count, x, x)
                       for x, count in enumerate(counts) if count)
    block = b"race %d: %d %d\nfirst T1|w(%d)|%d\nsecond T2|w(%d)|%d\n"
    blocks = b"".join(block % (k + 1, first, second, x, x % 2, x, x % 2)
                      for k, (x, first, second) in enumerate(races))
    return head + places + blocks + b"end\n"


def at_most(room):
    """How to run the program with so many bytes of memory."""
    return {"preexec_fn": lambda: resource.setrlimit(resource.RLIMIT_AS, (room, room))}


def written_at_most(size):
    """How to run the program such that no file grows above so many bytes."""

    def limit():
        signal.signal(signal.SIGXFSZ, signal.SIG_IGN)
        resource.setrlimit(resource.RLIMIT_FSIZE, (size, size))

    return {"preexec_fn": limit}


class LongLists(test_refusals.Refusing):
    def expect_front(self, words, room, wanted):
        """What is written with so many bytes of memory before the reader goes away."""
        started = program.start(["races", "--list", *words], **at_most(room))
        front = started.stdout.read(FRONT)
        started.stdout.close()
        said = started.stderr.read()
        started.stderr.close()
        self.assertTrue(front == wanted, "the fronts differ")
        self.assertEqual((started.wait(program.SECONDS), said), (4, test_devices.CLOSED_PIPE))

    def test_whole_reports(self):
        for rounds in (2, 3, 50, 200):
            trace, report = self.file(two_writers(rounds)), report_of(rounds)
            for workers in ("1", "4", "64"):
                answer = program.run(["races", "--list", "--workers", workers, trace])
                self.assertEqual((answer.status, answer.err), (0, b""))
                self.assertTrue(answer.out == report, "the reports differ")

    def test_several_batches(self):
        """More races than events: of variables of which some fit into a batch, and of some that
        have more alone."""
        for rounds in ((3,) * 40, (3,) * 20 + (50,)
                       + (2,) * 30, (60, 70), (1, 30, 1, 1, 40), (7, 3, 3, 5), (1,) * 9 + (30,)):
            trace, report = self.file(two_writers_of_each(rounds)), report_of_each(rounds)
            self.assertGreater(sum(many * many for many in rounds), 2 * sum(rounds))
            for workers in ("1", "4", "64"):
                answer = program.run(["races", "--list", "--workers", workers, trace])
                self.assertEqual((answer.status, answer.err), (0, b""))
                self.assertTrue(answer.out == report, f"the reports of {rounds} differ")

    def test_more_races_than_fit_into_memory_as_pairs(self):
        """A pair has 8 bytes. The reader goes away after the front, in the middle of the
        search that writes."""
        room = 48 * 2**20
        self.assertGreater(8 * ROUNDS * ROUNDS, room)
        trace, wanted = self.file(two_writers(ROUNDS)), front_of(ROUNDS, FRONT)
        for workers in ("1", "4"):
            self.expect_front(["--workers", workers, trace], room, wanted)

    def test_more_races_than_can_be_gone_through(self):
        """2^42 races of the most events, more than 4 * 10^12: counted at once, and as little memory is taken
        as for few."""
        self.assertEqual(MANY_ROUNDS * MANY_ROUNDS, 2**42)
        trace, wanted = self.file(two_writers(MANY_ROUNDS)), front_of(MANY_ROUNDS, FRONT)
        self.expect_front([trace], 2**30, wanted)

    def test_a_disk_that_fills_up(self):
        """All that fits is written, and it is the front of the report."""
        trace, report = self.file(two_writers(40)), report_of(40)
        front = len(head_of(40))
        for size in (0, 1, front - 1, front, front + 1, 60_000, len(report) - 5, len(report) - 1):
            written = self.folder / "written"
            with self.subTest(size), open(written, "wb") as out:
                answer = program.run(["races", "--list", trace], stdout=out, **written_at_most(size))
                self.assertEqual((answer.status, answer.err), (4, FULL_FILE))
            self.assertTrue(written.read_bytes() == report[:size], "another front")

    def test_memory(self):
        """Each request of all searches is refused in turn. Six threads have fifteen races
        with twelve events."""
        self.assertIn(b"\nraces 15\n", program.run(["races", "--list"], test_refusals.racing(6)).out)
        for workers in ("1", "2"):
            self.refuse_in_turn(["races", "--list", "--workers", workers], test_refusals.racing(6))

    def test_memory_for_several_batches(self):
        """With 36 events a variable of 49 races alone, in two parts, then batches of one and
        of two variables."""
        given = two_writers_of_each((7, 3, 3, 5))
        self.assertIn(b"\nraces 92\n", program.run(["races", "--list"], given).out)
        for workers in ("1", "2"):
            self.refuse_in_turn(["races", "--list", "--workers", workers], given)


class WholeList(program.Case):
    """A list is read to its end, and its last blocks are compared. A block has more than 50 bytes: more
    than 2^32 together."""

    rounds = 9_300
    seconds = program.LONG_SECONDS

    def test_end(self):
        races = self.rounds * self.rounds
        blocks = (block(self.rounds, number) for number in range(races - LAST + 1, races + 1))
        wanted = b"".join(blocks) + b"end\n"
        with program.start(["races", "--list", self.file(two_writers(self.rounds))], self.seconds) as started:
            parts = collections.deque(iter(lambda: started.stdout.read(PART), b""), len(wanted) // PART + 2)
            said = started.stderr.read()
        self.assertEqual((started.returncode, said), (0, b""))
        self.assertTrue(b"".join(parts).endswith(wanted), "the ends differ")
