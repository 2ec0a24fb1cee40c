"""`shb-fix` repairs traces of other tools, and `shb` accepts what it writes."""

import pathlib
import random
import re
import resource
import subprocess
import sys

import program

COMMAND = pathlib.Path(__file__).resolve().parent.parent / "python" / "shb-fix"

# What there is, the trace and what is made of it, a blank between two lines. What is repaired by a guess,
REPAIRS = [
    ("a mark", "\ufeffT0|w(x)|1", "T0|w(x)|1"),
    ("a header", "thread|op|location T0|w(x)|1", "T0|w(x)|1"),
    ("no operation", "T0 T0|w(x)|1", "T0|w(x)|1"),
    ("a release too many", "T0|acq(l) T0|rel(l) T0|rel(l)", "T0|acq(l) T0|rel(l)"),
    ("a timed join", "T0|fork(T1) T0|join(T1) T1|w(x)", "T0|fork(T1) T1|w(x)"),
    ("a name used again", "T0|fork(T1) T0|join(T1) T0|fork(T1) T1|w(x)", "T0|fork(T1) T0|join(T1) "
     "T0|fork(T1#2) T1#2|w(x)"),
    ("two that fork each other", "T0|fork(T1) T1|fork(T0)", "T0|fork(T1)"),
    ("a fork of itself", "T0|fork(T0) T0|join(T0)", ""),
]
# what is repaired and has more order then,
ORDERED = [
    ("a lock that was held", "T1|w(x) T1|rel(l)|2", "T1|acq(l)|2 T1|w(x) T1|rel(l)|2"),
    ("no release", "T0|acq(l)|1 T1|acq(l)|2", "T0|acq(l)|1 T0|rel(l)|2 T1|acq(l)|2"),
    ("no release before a join", "T0|fork(T1) T1|acq(l) T0|join(T1)",
     "T0|fork(T1) T1|acq(l) T1|rel(l) T0|join(T1)"),
    ("a late fork", "T1|w(x)|1 T0|fork(T1)|2", "T0|fork(T1)|2 T1|w(x)|1"),
    ("a lock that was held, and volatiles", "T0|vw(f) T1|vr(f) T0|rel(l)",
     "T0|acq(l) T0|acq(f#volatile.0.T1) T0|rel(f#volatile.0.T1) T1|acq(f#volatile.0.T1) "
     "T1|rel(f#volatile.0.T1) T0|rel(l)"),
    ("a late fork in a log with others", "T2|w(x) T1|w(x) T2|w(y) T1|fork(T2) T2|w(z)",
     "T1|fork(T2) T2|w(x) T1|w(x) T2|w(y) T2|w(z)"),
]
# and what is only written in another form.
TRANSLATED = [
    ("nothing", "T0|w(x)|1 T1|r(x) T1|begin(run)|2", "T0|w(x)|1 T1|r(x) T1|begin(run)|2"),
    ("other spellings", "T0|READ(x)|1 T0|lock(l) T0|unlock(l)", "T0|r(x)|1 T0|acq(l) T0|rel(l)"),
    ("a branch", "T0|branch|1 T0|w(x)|2", "T0|begin(branch)|1 T0|w(x)|2"),
    ("volatiles", "T0|vw(f)|1 T1|vr(f)|2", "T0|acq(f#volatile.0.T1)|1 T0|rel(f#volatile.0.T1)|1 "
                                           "T1|acq(f#volatile.0.T1)|2 T1|rel(f#volatile.0.T1)|2"),
    ("a volatile read before a write", "T0|w(x) T0|vr(f) T1|vw(f) T1|w(x)", "T0|w(x) T1|w(x)"),
    ("volatile writes of which the newest is read", "T0|vw(f)|1 T0|vw(f)|2 T1|vr(f)|3 T1|vr(f)|4 T0|vw(f)|5",
     "T0|acq(f#volatile.1.T1)|2 T0|rel(f#volatile.1.T1)|2 "
     "T1|acq(f#volatile.1.T1)|3 T1|rel(f#volatile.1.T1)|3"),
    ("volatile writes of two threads, read twice", "T0|vw(f)|1 T2|vw(f)|2 T1|vr(f)|3 T2|vw(f)|4 T1|vr(f)|5",
     "T0|acq(f#volatile.0.T1)|1 T0|rel(f#volatile.0.T1)|1 T2|acq(f#volatile.1.T1)|2 "
     "T2|rel(f#volatile.1.T1)|2 T1|acq(f#volatile.0.T1)|3 T1|rel(f#volatile.0.T1)|3 "
     "T1|acq(f#volatile.1.T1)|3 T1|rel(f#volatile.1.T1)|3 T2|acq(f#volatile.2.T1)|4 "
     "T2|rel(f#volatile.2.T1)|4 T1|acq(f#volatile.2.T1)|5 T1|rel(f#volatile.2.T1)|5"),
    ("a wait", "T0|acq(l) T0|wait(l)|2 T1|acq(l) T1|notify(l) T1|rel(l) T0|rel(l)",
     "T0|acq(l) T0|rel(l)|2 T1|acq(l) T1|rel(l) T0|acq(l)|2 T0|rel(l)"),
    ("a reader", "T0|rdlock(l) T0|rdunlock(l) T1|wrlock(l) T1|rel(l)",
     "T0|acq(l#reader.T0) T0|rel(l#reader.T0) T1|acq(l) T1|acq(l#reader.T0) T1|rel(l#reader.T0) T1|rel(l)"),
    ("a reader after the writer", "T1|wrlock(l) T1|wrunlock(l) T0|rdlock(l) T0|rdunlock(l)",
     "T1|acq(l) T1|acq(l#reader.T0) T1|rel(l#reader.T0) T1|rel(l) T0|acq(l#reader.T0) T0|rel(l#reader.T0)"),
    ("two readers of a volatile", "T0|vw(f) T1|vr(f) T2|vr(f)",
     "T0|acq(f#volatile.0.T1) T0|rel(f#volatile.0.T1) T0|acq(f#volatile.0.T2) T0|rel(f#volatile.0.T2) "
     "T1|acq(f#volatile.0.T1) T1|rel(f#volatile.0.T1) T2|acq(f#volatile.0.T2) T2|rel(f#volatile.0.T2)"),
]
# Logs whose races depend on a repair: the events, and the locations of the races.
RACES = [
    ("two reads of one volatile write don't order each other",
     "main|fork(T1) main|fork(T2) main|vw(f) T1|w(x)|1 T1|vr(f) T2|vr(f) T2|r(x)|2", [("1", "2")]),
    ("a first reader after a writer is ordered",
     "main|fork(A) main|fork(B) A|rdlock(t) A|r(x)|1 A|rdunlock(t) main|wrlock(t) main|w(x)|2 "
     "main|wrunlock(t) B|rdlock(t) B|r(x)|3 B|rdunlock(t)", []),
    ("what comes after a writer's release isn't",
     "main|fork(A) main|wrlock(t) main|wrunlock(t) main|w(x)|1 A|rdlock(t) A|r(x)|2 A|rdunlock(t)",
     [("1", "2")]),
    ("a get comes after each earlier put of a queue, and a put after no get",
     "main|fork(A) main|fork(B) A|w(x)|1 A|vw(q) A|vw(q) B|vr(q) B|r(x)|2 B|w(y)|3 A|vw(q) A|r(y)|4",
     [("3", "4")]),
]
OPERATIONS = [f"{word}({name})" for word in ("r", "w", "acq", "rel", "vr", "vw", "rdlock", "wrlock",
                                             "rdunlock", "wrunlock", "wait", "notify") for name in "xy"]
OPERATIONS += ([f"{word}(T{k})" for word in ("fork", "join") for k in range(4)]
               + ["begin", "end", "unknown", "READ(x)"])


def lines(text):
    return "".join(f"{line}\n" for line in text.split(" ") if line).encode()


def fixed(text, *words):
    return subprocess.run([sys.executable, COMMAND, *words], input=text, capture_output=True,
                          timeout=program.SECONDS)


class Fix(program.Case):
    def test_repairs(self):
        for rows, wanted in ((REPAIRS, 1), (ORDERED, 1), (TRANSLATED, 0)):
            for what, before, after in rows:
                with self.subTest(what):
                    ran = fixed(lines(before))
                    self.assertEqual((ran.stdout, ran.returncode), (lines(after), wanted))
                    self.assertEqual(program.run(["races", "--list"], ran.stdout).status, 0)
                    self.assertEqual(b", 1 of which adds order\n" in ran.stderr, rows is ORDERED, ran.stderr)

    def test_a_repair_is_told_with_its_line(self):
        ran = fixed(lines("T0|w(x) T0|rel(l)"))
        self.assertRegex(ran.stderr, rb"\Aline 2: the lock was held when the log began.*; this adds order, "
                                     rb"which can hide a race\n"
                                     rb"shb-fix: 1 repair, 1 of which adds order\n\Z")
        self.assertEqual(fixed(lines("T0|w(x) T0|rel(l)"), "--quiet").stderr,
                         b"shb-fix: 1 repair, 1 of which adds order\n")

    def test_what_is_translated_is_counted_in_a_line(self):
        said = fixed(lines("T0|vw(f) T1|vr(f) T1|vr(f) T1|READ(x) T1|branch|b T2|rdlock(l) T2|rdunlock(l) "
                           "T2|wrlock(l) T2|wait(l) T2|notify(l)")).stderr
        self.assertEqual(said, b"shb-fix: 1 branch, 1 notification, 1 other spelling, 1 reader lock, 3 "
                               b"volatile accesses, 1 wait, 1 writer lock translated; 0 repairs\n")

    def test_volatile_writes_that_few_threads_read(self):
        """Each of 8 reads takes the newest write alone: 32 lines."""
        ran = fixed(b"main|vw(f)|1\n" * 20000 + b"".join(b"T%d|vr(f)|2\n" % k for k in range(8)))
        self.assertEqual((ran.returncode, ran.stdout.count(b"\n"), ran.stdout.count(b"|1\n")), (0, 32, 16))

    def test_the_races_of_a_repaired_log(self):
        for what, log, wanted in RACES:
            with self.subTest(what):
                listed = program.run(["places", "--list"], fixed(lines(log)).stdout).out.decode()
                self.assertEqual(re.findall(r"^at (.*)\nand (.*)$", listed, re.M), wanted)

    def test_what_is_printed_of_a_line(self):
        """A line is quoted, and of two things the one that was done is named."""
        for line, wanted in ((" T0|w(x)", "blanks were dropped"),
                             ("T0|writ(x)|b", "`T0|writ(x)|b` is no event: dropped")):
            ran = fixed(f"T1|w(y)\n{line}\n".encode())
            self.assertEqual(ran.stderr.decode(), f"line 2: {wanted}\nshb-fix: 1 repair\n")

    def test_a_long_trace_through_a_pipe(self):
        """In less memory than its events take. The release in its last line needs an acquire
        before the first."""
        count = 75000  # kept they would take twice as much
        log = b"main|fork(T)|1\n" + b"T|w(x)|2\n" * count + b"main|rel(door)|3\n"
        most = 16 << 20
        ran = subprocess.run([sys.executable, COMMAND], input=log, capture_output=True,
                             timeout=program.SECONDS,
                             preexec_fn=lambda: resource.setrlimit(resource.RLIMIT_DATA, (most, most)))
        self.assertEqual((ran.returncode, ran.stderr.count(b"\n")), (1, 2), ran.stderr)
        self.assertEqual(ran.stdout, b"main|acq(door)|3\n" + log)

    def test_a_file_that_is_no_trace(self):
        form = "a line is THREAD|OPERATION|LOCATION, with bars between%s; there are no comments"
        first = "no line is an event; the first is `%s`: "
        for text, wanted in ((b"\n\nT0,w(x),a.c:1\n" * 3, first % "T0,w(x),a.c:1" + form % ", not commas"),
                             (b"rd(T1,x)\n", first % "rd(T1,x)" + form % ", not commas"),
                             (b'{"thread": 1}\n', first % '{"thread": 1}' + form % ""),
                             (b"comment\n" * 3, first % "comment" + form % ""),
                             (b"a|b|c\n",
                              first % "a|b|c" + "a line is THREAD|OPERATION|LOCATION, such as T1|w(x)|a.c:3"),
                             ("T0|w(x)\n".encode("utf-16"), "the file is UTF-16: save it as UTF-8"),
                             (program.run(["places"], b"T1|w(x)|a\nT2|w(x)|b\n").out,
                              "the file is a report of `shb`, not a trace")):
            ran = fixed(text)
            self.assertEqual((ran.returncode, ran.stdout,
                              ran.stderr.decode()), (2, b"", f"shb-fix: {wanted}\n"))
        self.assertEqual(fixed(b"").returncode, 0)

    def test_many_repairs_are_counted(self):
        ran = fixed(b"comment\n" * 50 + b"T|w(x)\n")
        self.assertEqual(len(ran.stderr.splitlines()), 22)
        self.assertIn(b"30 more lines", ran.stderr)

    def test_whatever_it_reads_shb_accepts_what_it_writes(self):
        for seed in range(60):
            pick = random.Random(seed)
            text = "".join(f"T{pick.randrange(4)}|{pick.choice(OPERATIONS)}|{pick.randrange(9)}\n"
                           for _ in range(pick.randrange(60)))
            ran = fixed(text.encode())
            self.assertIn(ran.returncode, (0, 1), (seed, ran.stderr))
            self.assertEqual(program.run(["races", "--list"], ran.stdout).status, 0, seed)

    def test_a_good_trace_stays(self):
        for trace in sorted((COMMAND.parent.parent / "examples").glob("*.std")):
            ran = fixed(trace.read_bytes())
            self.assertEqual((ran.returncode, ran.stdout), (0, trace.read_bytes()), trace)

    def test_faults(self):
        self.assertEqual(fixed(b"", self.folder / "missing").returncode, 4)
        self.assertEqual(fixed(b"", "--unknown").returncode, 3)
        with open("/dev/full", "wb") as full:
            ran = subprocess.run([sys.executable, COMMAND], input=b"T|w(x)\n", stdout=full,
                                 stderr=subprocess.PIPE)
        self.assertEqual((ran.returncode, ran.stderr),
                         (4, b"shb-fix: cannot write: No space left on device\n"))

    def test_standard_files_that_are_closed_or_full(self):
        """Output that is lost is a fault; what is lost of the list of repairs isn't."""
        for words, status in ((">&-", 4), ("2>&-", 1), ("2>/dev/full", 1)):
            for trace, wanted in ((b"T|w(x)\nT|rel(l)\n", status), (b"T|w(x)\n", 4 * (status == 4))):
                ran = subprocess.run(["sh", "-c", f'"$@" {words}', "sh", sys.executable, COMMAND],
                                     input=trace, capture_output=True)
                self.assertEqual((ran.returncode, bool(ran.stdout)), (wanted, status != 4), (words, ran))
