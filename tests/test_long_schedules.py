"""Reports with schedules of more races than events: long ones whole, a pipe that breaks in the middle, and
each request for memory on the way."""

import program
import test_devices
import test_long_lists
import test_refusals

ROUNDS = 400
ROOM = 48 * 2**20


def texts_of(numbers):
    """For each count the text of so many of these numbers, a blank before each."""
    texts = [b""]
    for number in numbers:
        texts.append(texts[-1] + b" %d" % number)
    return texts


class Report:
    """The report with schedules of two threads that write a variable so often, first the one and then the
    other. Before a race the one has come to its write, and the other too."""

    def __init__(self, rounds):
        self.rounds = rounds
        self.firsts = texts_of(range(1, rounds + 1))
        self.seconds = texts_of(range(rounds + 1, 2 * rounds + 1))

    def block(self, number):
        second, first = divmod(number - 1, self.rounds)
        schedule = b"schedule %d:%s%s\n" % (first + second, self.firsts[first], self.seconds[second])
        return test_long_lists.block(self.rounds, number) + schedule

    def parts(self):
        """The head, the blocks of the races of one later write after the other, and the end."""
        yield test_long_lists.head_of(self.rounds)
        for second in range(self.rounds):
            yield b"".join(self.block(self.rounds * second + k) for k in range(1, self.rounds + 1))
        yield b"end\n"


class LongSchedules(test_refusals.Refusing):
    def expect_parts(self, out, parts):
        for k, part in enumerate(parts):
            self.assertTrue(out.read(len(part)) == part, f"part {k} differs")

    def expect_broken(self, running):
        """The reader goes away, and the program says so."""
        running.stdout.close()
        said = running.stderr.read()
        running.stderr.close()
        self.assertEqual((running.wait(program.SECONDS), said), (4, test_devices.CLOSED_PIPE))

    def test_whole_reports(self):
        """Of two rounds there are as many races as events, of the others there are more."""
        for rounds in (2, 3, 50):
            trace, report = self.file(test_long_lists.two_writers(rounds)), b"".join(Report(rounds).parts())
            for workers in ("1", "4", "64"):
                self.expect(program.run(["races", "--workers", workers, trace]), 0, report)
            self.expect(program.run(["check", trace], report), 0, b"ok %d\n" % (rounds * rounds))

    def test_160000_races(self):
        """The report has some 250 MB, the program at most 48 MiB of memory: blocks aren't kept."""
        trace = self.file(test_long_lists.two_writers(ROUNDS))
        for workers in ("1", "4"):
            running = program.start(["races", "--workers", workers, trace], **test_long_lists.at_most(ROOM))
            self.expect_parts(running.stdout, Report(ROUNDS).parts())
            self.assertEqual((running.stdout.read(), running.stderr.read()), (b"", b""))
            running.stdout.close()
            running.stderr.close()
            self.assertEqual(running.wait(program.SECONDS), 0)

    def test_that_160000_races_are_a_good_report(self):
        trace, report = self.file(test_long_lists.two_writers(ROUNDS)), self.folder / "report"
        with open(report, "wb") as out:
            self.expect(program.run(["races", trace], stdout=out), 0, None)
        with open(report, "rb") as given:
            self.expect(program.run_over(["check", trace], given), 0, b"ok %d\n" % (ROUNDS * ROUNDS))

    def test_a_pipe_that_breaks_in_the_middle(self):
        trace, report = self.file(test_long_lists.two_writers(ROUNDS)), Report(ROUNDS)
        for workers in ("1", "4"):
            running = program.start(["races", "--workers", workers, trace])
            parts = report.parts()
            self.expect_parts(running.stdout, (next(parts) for _ in range(1 + 164 + 10)))
            self.expect_broken(running)

    def test_memory(self):
        """Each request is refused in turn. Six threads have fifteen races with twelve events."""
        self.assertIn(b"\nraces 15\n", program.run(["races"], test_refusals.racing(6)).out)
        for workers in ("1", "2"):
            self.refuse_in_turn(["races", "--workers", workers], test_refusals.racing(6))
