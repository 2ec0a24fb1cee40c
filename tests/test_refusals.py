"""Each request for memory refused in turn, threads refused, and reads after the end of a file."""

import pathlib
import subprocess
import tempfile

import program

LOCKED = b"T1|acq(l)\nT1|w(x)|1\nT1|rel(l)\nT2|acq(l)\nT2|r(x)|2\nT2|rel(l)\nT3|w(x)|3\n"
REFUSED = b"T1|w(x)\nT2|w(y)\nT2|rel(l)\nT1|w(x)\noops\n"
MOST_REQUESTS = 10_000


def racing(threads):
    """Each thread's second event races with that of each other thread, and each has a schedule."""
    return b"".join(b"T%d|w(%d)\nT%d|w(x)|%d\n" % (k, k, k, k % 7) for k in range(threads))


class Refusing(program.Case):
    """A test that refuses what the program asks for."""

    @classmethod
    def setUpClass(cls):
        cls.room = tempfile.TemporaryDirectory()
        cls.addClassCleanup(cls.room.cleanup)
        cls.shim, cls.note = (pathlib.Path(cls.room.name) / name for name in ("refuse.so", "note"))
        source = program.HERE / "refuse.c"
        subprocess.run(["cc", "-O1", "-fPIC", "-shared", "-o", cls.shim, source, "-ldl"], check=True)

    def run_refused(self, words, given, **settings):
        """What is answered, and whether something was refused."""
        self.note.unlink(missing_ok=True)
        settings = program.with_settings(LD_PRELOAD=self.shim, REFUSED=self.note, **settings)
        answer = program.run(words, given, env=settings)
        return answer, self.note.exists()

    def refuse_in_turn(self, words, given=b""):
        ample = program.run(words, given)
        for number in range(1, MOST_REQUESTS):
            answer, is_refused = self.run_refused(words, given, REFUSE_MEMORY=number)
            if not is_refused:
                self.assertEqual(answer, ample)
                self.assertGreater(number, 1)
                return
            self.expect_promised(answer, ample, number)
        self.fail("there is no end of requests")

    def expect_promised(self, answer, ample, number):
        """The answer of ample memory; or nothing or the front of it, all before the first race at least, with
        a word; or, of a refused trace, its status and the first of the lines that are said, perhaps none."""
        least = ample.out.partition(b"race 1: ")[0].removesuffix(b"end\n")
        is_cut = not answer.out or (ample.out.startswith(answer.out) and answer.out.startswith(least))
        is_front = answer.status == 4 and answer.err == b"out of memory\n" and is_cut
        is_unsaid = (ample.status == 2 and answer[:2] == (2, b"") and ample.err.startswith(answer.err)
                     and answer.err[-1:] in (b"", b"\n"))
        self.assertTrue(answer == ample or is_front or is_unsaid, f"at request {number}: {answer}")


class Refusals(Refusing):
    def test_random_numbers(self):
        """They are reported as memory that is refused, and then by their name."""
        trace = self.file(LOCKED)
        said = b"out of memory\nthe system refuses random numbers (getrandom)\n"
        for words in (["races"], ["places"], ["places", "--list"], ["check"]):
            with self.subTest(words):
                answer, is_refused = self.run_refused([*words, trace], b"", REFUSE_RANDOM=1)
                self.assertTrue(is_refused)
                self.expect(answer, 4, b"", said)

    def test_memory_for_a_report(self):
        for workers in ("1", "2"):
            self.refuse_in_turn(["races", "--workers", workers], LOCKED)
            self.refuse_in_turn(["races", "--workers", workers, "--list"], LOCKED)
        self.refuse_in_turn([], LOCKED)

    def test_memory_for_many_schedules(self):
        for workers in ("1", "2"):
            self.refuse_in_turn(["races", "--workers", workers], racing(5))

    def test_memory_for_places(self):
        for workers in ("1", "2"):
            for given in (LOCKED, racing(5)):
                self.refuse_in_turn(["places", "--workers", workers], given)
            self.refuse_in_turn(["places", "--workers", workers, "--variables"], LOCKED)
        self.refuse_in_turn(["places"], REFUSED)

    def test_memory_for_places_without_schedules(self):
        for given in (LOCKED, racing(5), REFUSED):
            self.refuse_in_turn(["places", "--list"], given)
            self.refuse_in_turn(["places", "--list", "--variables"], given)

    def test_memory_for_a_refused_trace(self):
        self.refuse_in_turn(["races"], REFUSED)
        self.refuse_in_turn(["check", self.file(REFUSED)], b"")

    def test_memory_for_a_check(self):
        trace, report = self.file(LOCKED), program.run(["races"], LOCKED).out
        self.refuse_in_turn(["check", trace], report)
        self.refuse_in_turn(["check", trace], report.replace(b"race 2: 5 7", b"race 2: 2 5"))
        self.refuse_in_turn(["check", trace], b"shb-report")

    def test_memory_for_words(self):
        self.refuse_in_turn(["--help"])
        self.refuse_in_turn(["races", "a", "b"])

    def test_threads(self):
        self.assertIn(b"\nraces 2016\n", program.run(["races"], racing(64)).out)
        for text in (LOCKED, racing(64), b"", REFUSED):
            ample = program.run(["races"], text)
            for workers in (1, 2, 3, 64):
                for first in (1, 2, 3, 40):
                    answer, _ = self.run_refused(["races", "--workers", str(workers)], text,
                                                 REFUSE_THREADS=first)
                    self.assertEqual(answer, ample)

    def test_that_threads_are_refused(self):
        self.assertTrue(self.run_refused(["races"], racing(64), REFUSE_THREADS=1)[1])

    def threads_started(self, words, text):
        """How many threads a run starts: the number before the first that is never asked for."""
        return next(k for k in range(1000) if not self.run_refused(words, text, REFUSE_THREADS=k + 1)[1])

    def test_numbers_of_workers(self):
        """Each worker is a thread where pairs or texts are made of the races of a part, one when schedules
        are made, and one when the races of a part are found, if it has sixteen accesses; 4 where no number is
        named. A part has as many races as there are events, 65,536 where there are fewer, so each of these
        lists is one. `places` finds none so, and `places --list` has no workers."""
        trace, many, few = (self.file(racing(64)), self.file(racing(6), "many.std"),
                            self.file(LOCKED, "few.std"))
        for words, wanted in (
            (["races", "--list", few], 4),
            (["races", "--list", many], 4),
            (["races", trace], 12),
            (["races", "--workers", "1", trace], 3),
            (["races", "--workers", "3", trace], 9),
            (["races", "--workers", "64", "--list", few], 64),
            (["places", "--list", trace], 0),
            (["places", trace], 8),
            (["places", "--workers", "1", trace], 2),
            (["places", "--workers", "3", trace], 6),
        ):
            self.assertEqual(self.threads_started(words, b""), wanted)
        self.assertEqual(self.threads_started([], LOCKED), 4)

    def test_nothing_is_read_after_the_end(self):
        trace, report = self.file(LOCKED), program.run(["races"], LOCKED).out
        for words, given in (([], LOCKED), (["races"], b""), (["races", trace], b""),
                             (["places", "--list"], LOCKED), (["places", "--list", trace], b""),
                             (["places", trace], b""), (["check", trace], report), (["check", trace], b"")):
            answer, is_refused = self.run_refused(words, given, WATCH_READS=1)
            self.assertEqual((answer, is_refused), (program.run(words, given), False))
