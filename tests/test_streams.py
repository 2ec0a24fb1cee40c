"""`places --list`, which reads a trace once: bytes that come in any parts, the limits of a long trace, and
devices that fail."""

import subprocess

import program
import shb
import test_large
import test_long_lists
import test_traces
from test_places import BY_VARIABLE, COUNTED, EMPTY, NAMES, RETURNS, listed, one_each

LIST = ["places", "--list"]
READ = 65_536  # bytes of a pipe
MANY = 5_000_000


def of_the_limits(said):
    """Whether the words name a limit that a long trace hasn't."""
    return said.endswith("more than 1024 threads")


def list_of(counts, races):
    """The list report of races that have a place each: their events, locations and lines."""
    return listed(one_each(counts, [(*race, b"") for race in races]))


def written(pieces, **how):
    """What the program answers where its standard input is a pipe into which these pieces are written."""
    started = subprocess.Popen([program.PATH, *LIST], stdin=subprocess.PIPE, stdout=subprocess.PIPE,
                               stderr=subprocess.PIPE, **how)
    try:
        for piece in pieces:
            started.stdin.write(piece)
            started.stdin.flush()
    except BrokenPipeError:
        pass  # it ended before it read all
    out, err = started.communicate(timeout=program.LONG_SECONDS)
    return program.Answer(started.returncode, out, err)


class Streams(program.Case):
    def expect_both(self, text, status, out=b"", err=b""):
        self.expect(program.run(LIST, text), status, out, err)
        of_file = program.run([*LIST, self.file(text)])
        if status == 2:
            self.expect_refused(of_file, err.rstrip(b"\n"))
        else:
            self.expect(of_file, status, out, err)

    def test_check_misses_the_first_schedule(self):
        """Four lines of the head, three for each of two places and three of the first race are those
        of a report."""
        for option in ([], ["--variables"]):
            text = COUNTED[0]
            report = program.run([*LIST, *option], text).out
            self.expect(program.run(["check", self.file(text)], report), 5, b"bad line 14\n")

    def test_a_pipe_of_single_bytes(self):
        for text, wanted, _ in BY_VARIABLE:
            with self.subTest(text):
                self.expect(written(text[k : k + 1] for k in range(len(text))), 0, listed(wanted))

    def test_reads_that_end_at_each_byte(self):
        """So many empty lines stand before the text that a read ends at each of its bytes."""
        for text, wanted in (EMPTY, RETURNS, NAMES):
            for cut in range(len(text) + 1):
                with self.subTest(text, cut=cut):
                    self.expect_both(b"\n" * (READ - cut) + text, 0, listed(wanted))

    def test_faults_where_reads_end_at_each_byte(self):
        text = b"T1|w(x)\r\nT2|rel(l)\noops"
        for cut in range(len(text) + 1):
            said = b"line %d: the lock is not held by this thread\n" % (READ - cut + 2)
            with self.subTest(cut=cut):
                self.expect_both(b"\n" * (READ - cut) + text, 2, b"", said)

    def test_refused_traces(self):
        for text, said in test_traces.FAULTS:
            if not of_the_limits(said):
                with self.subTest(said):
                    self.assertRaisesRegex(shb.Refused, f"^{said}$", shb.places_report, text, False)
                    self.expect_both(text, 2, b"", said.encode() + b"\n")

    def test_the_most_threads(self):
        lines = [b"T%d|r(a%d)\n" % (k, k) for k in range(65_535)]
        self.expect(program.run(LIST, b"".join(lines)), 0, list_of((65_535, 65_535, 0, 65_535), []))
        for line in (b"other|r(a0)\n", b"T0|fork(other)\n", b"T0|join(other)\n"):
            said = b"line 65536: there are more than 65535 threads\n"
            self.expect(program.run(LIST, b"".join([*lines, line])), 2, b"", said)

    def test_the_longest_line(self):
        """A line of 4,096 bytes and its place; one byte more, which a carriage return is too, is refused."""
        first, second = b"T1|w(x)|" + b"a" * 4_088, b"T2|w(x)|" + b"b" * 4_088
        wanted = list_of((2, 2, 0, 1), [(b"1 2", first[8:], second[8:], first, second)])
        self.expect_both(first + b"\n" + second, 0, wanted)
        for end in (b"b", b"\r\n", b"b\r\n"):
            self.expect_both(first + b"\n" + second + end, 2, b"",
                             b"line 2: the line is longer than 4096 bytes\n")

    def test_more_events_than_a_trace_may_have(self):
        """Five million events through a pipe, with races at both ends, in memory that none of them needs."""
        turns = MANY // 2 - 1
        loop = ([b"T1|w(x)|a\nT2|w(x)|b\n" * 1_000] * (turns // 1_000)
                + [b"T1|w(x)|a\nT2|w(x)|b\n" * (turns % 1_000)])
        text = [b"T3|w(z)|first\n", *loop, b"T4|w(z)|last\n"]
        wanted = list_of(
            (MANY, 4, 0, 2),
            [
                (b"2 3", b"a", b"b", b"T1|w(x)|a", b"T2|w(x)|b"),
                (b"3 4", b"b", b"a", b"T2|w(x)|b", b"T1|w(x)|a"),
                (b"1 %d" % MANY, b"first", b"last", b"T3|w(z)|first", b"T4|w(z)|last"),
            ],
        )
        self.assertGreater(MANY, test_large.MOST_EVENTS)
        self.expect(written(text, **test_large.within(32 * 2**20)), 0, wanted)
        said = b"line %d: the lock is not held by this thread\n" % (MANY + 2)
        self.expect(written([*text, b"\nT1|rel(l)\noops\n"]), 2, b"", said)

    def test_a_sink_that_fails_after_a_front(self):
        """A file that may grow to so many bytes has the front of the list then."""
        count = 4_000
        text = b"".join(b"T1|w(x%d)|a%d\nT2|w(x%d)|b%d\n" % (k, k, k, k) for k in range(count))
        whole = program.run(LIST, text).out
        room = 100_000
        self.assertGreater(len(whole), room)
        out = self.folder / "out"
        with open(out, "wb") as file:
            answer = program.run(LIST, text, stdout=file, **test_long_lists.written_at_most(room))
        front = out.read_bytes()
        self.assertEqual((answer.status, answer.err), (4, test_long_lists.FULL_FILE))
        self.assertTrue(whole.startswith(front) and len(front) <= room,
                        "what was written is no front of the list")
