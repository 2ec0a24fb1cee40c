"""Files of strangers: each reader answers with words, whatever it is given.

`files/` has what was found by fuzzing (fuzz.py), each with the reader that it is for in its name.
"""

import io
import os
import pathlib
import random
import re
import struct
import tempfile

import side_by_side
from shb_common import analyser
from shb_common.files import open_regular, put, read_at_most
from shb_common.known import BadLine, Known
from shb_common.refused import explained
from shb_common.report import BadReport, Report, in_order
from shb_common.stacks import BadStacks, Stacks
from shb_fix import lines
from shb_fix.command import Trace, repaired
from shb_fix.events import Repairs

HERE = pathlib.Path(__file__).resolve().parent
LINES = b"""\
frame main\ta.c:30
frame add<int>(int)\ta.c:5
system-frame std::each(f)\t/usr/include/each.h:8
stack 1 0 1
stack 2 1 2 3
thread T1\t2
block 7 2
free 1 2
local 1\tstack.main-0x20\tq of main
use 2\tx\tT1\ta.c:5\tstore release
source a.c\t/x/a.c
line a.c:5\t0123456789abcdef
"""
STACKS = b"shb-stacks 1 %020d\n" % 3 + struct.pack("<3I", 1, 2, 0) + LINES
REPORT = b"""\
shb-report 2
events 2 threads 2 locks 0 variables 1
races 1
places 1
place 1: 1
at a.c:1
and b.c:2
race 1: 1 2
first T1|w(x)|a.c:1
second T2|w(x)|b.c:2
schedule 0:
end
"""
LISTED = b"""\
shb-report 2
events 6 threads 3 locks 0 variables 2
races 2
places 2
place 1: 1
at a.c:1
and b.c:2|more
place 2: 1
at 
and 
race 1: 2 4
first T1|w(x)|a.c:1
second T2|r(x)|b.c:2|more
race 2: 1 6
first T1|w(y)
second T3|w(y)|
end
"""
KNOWN = b"# c\na.c:1\tb.c:2\tx\na.c:f()\t*\t*\n\\#a\tb\\*\tx[*]\n"


def read_stacks(text):
    """Reads a file of stacks in both ways, and asks it all."""
    with tempfile.NamedTemporaryFile() as file:
        file.write(text)
        file.flush()
        try:
            found = Stacks(file.name, 3)
            for event in range(-1, 6):
                found.of_event(event), found.free_of(event), found.local_of(b"stack.main-0x20", event)
            found.of_thread(b"T1"), found.of_variable(b"a.c:1#7+8"), found.of_variable(
                b"#" + b"9" * 30), found.functions
            for use in found.uses:
                use.gives(), use.takes()
        except BadStacks as fault:
            assert "\n" not in str(fault)
        try:
            Stacks(file.name).local_of(b"stack.main-0x20", 2)
        except BadStacks:
            pass


def read_report(text):
    file = io.BytesIO(text)
    try:
        for race in Report(file).races():
            if race.schedule is not None:
                place = file.tell()
                in_order(file, race, [race.events[0]])
                file.seek(place)
    except BadReport as fault:
        assert "\n" not in str(fault)


def read_listed(text):
    try:
        analyser.places_in(Report(io.BytesIO(text)).races())
    except BadReport as fault:
        assert "\n" not in str(fault)


def read_known(text):
    try:
        known = Known(text)
    except BadLine as fault:
        assert str(fault).startswith("line ")
        return
    known.stale()


def read_trace(text):
    explained("line 2: the operation is not known", io.BytesIO(text))


def read_trace_to_fix(text):
    """What shb-fix makes of a trace needs no further repair of a line."""
    repairs = Repairs()
    fixed = b"".join(event.text() for event in repaired(Trace(io.BytesIO(text), repairs), repairs))
    again = Repairs()
    list(lines.events_of(io.BytesIO(fixed), again))
    assert not again.counts, again.kept


FIX = b"""\
# a log
T1|rel(l)|a.c:1
T1|fork(T2)|a.c:2
T2|begin|a.c:3
T2|rdlock(m)|a.c:4
T2|r(x)|a.c:5
T2|rdunlock(m)|a.c:6
T1|join(T2)|a.c:7
T2|vw(y)|a.c:8
T1|wait(l)|a.c:9
T1|acquire(l)
"""
READERS = {"stacks": (read_stacks, STACKS), "report": (read_report, REPORT), "listed": (read_listed, LISTED),
           "known": (read_known, KNOWN),
           "trace": (read_trace, b"T1|w(x)|1\nT2 | w(x)|2\n"), "fix": (read_trace_to_fix, FIX)}


def mutated(pick, text):
    """A text with some changes: bytes, numbers, lines."""
    text = bytearray(text)
    for _ in range(pick.randrange(1, 5)):
        at, kind = pick.randrange(len(text) + 1), pick.randrange(7)
        if kind == 0:
            text[at:at + 1] = bytes([pick.randrange(256)])
        elif kind == 1:
            text[at:at + pick.randrange(1, 30)] = b""
        elif kind == 2:
            text[at:at] = text[pick.randrange(len(text) + 1):][:pick.randrange(1, 60)]
        elif kind == 3:
            text[at:at] = pick.choice([b"99999999999999999999999", b"-1", b"0", b"\t", b"\n", b" ", b"|",
                                       b"\0", b"\xff", b"18446744073709551616", b"4294967295", b"*", b"\\"])
        elif kind == 4:
            lines = bytes(text).split(b"\n")
            pick.shuffle(lines)
            text = bytearray(b"\n".join(lines))
        elif kind == 5:
            digits = [place for place, byte in enumerate(text) if 48 <= byte <= 57]
            if digits:
                text[pick.choice(digits)] = 48 + pick.randrange(10)
        else:
            text = text[:at]
    return bytes(text)


class Readers(side_by_side.Case):
    def test_what_was_found(self):
        for path in sorted((HERE / "files").iterdir()):
            with self.subTest(path.name):
                READERS[path.name.split("-")[0]][0](path.read_bytes())

    def test_some_changes(self):
        """fuzz.py does the same for as long as it is let."""
        pick = random.Random(68)
        for name, (read, text) in READERS.items():
            read(text)
            for _ in range(400):
                changed = mutated(pick, text)
                with self.subTest(name, text=changed):
                    read(changed)

    def test_accesses_that_come_again(self):
        """They are what they were; a line of a first access is none of a second one."""
        again = b"race 2: 1 3\nfirst T1|w(x)|a.c:1\nsecond T2|w(x)|b.c:2\n"
        text = REPORT.replace(b"schedule 0:\n", again).replace(b"events 2", b"events 3").replace(
            b"races 1", b"races 2").replace(b"place 1: 1", b"place 1: 2")
        one, other = (race.accesses for race in Report(io.BytesIO(text)).races())
        self.assertEqual(one, other)
        for before, after, wanted in ((b"second T2|w(x)|b.c:2\nend", b"first T1|w(x)|a.c:1\nend",
                                       "line 13 of the report is `first T1|w(x)|a.c:1`; it should be `second "
                                       "ACCESS`"),
                                      (b"1 3\nfirst T1|w(x)|a.c:1", b"1 3\nsecond T2|w(x)|b.c:2",
                                       "line 12 of the report is `second T2|w(x)|b.c:2`; it should be `first "
                                       "ACCESS`")):
            with self.assertRaises(BadReport) as refused:
                list(Report(io.BytesIO(text.replace(before, after))).races())
            self.assertEqual(str(refused.exception), wanted)

    def test_lines_of_places(self):
        for before, after, wanted in (
            (b"place 1: 1", b"place 2: 1",
             "line 5 of the report is `place 2: 1`; it should be `place 1: C`"),
            (b"place 1: 1", b"place 1:", "line 5 of the report is `place 1:`; it should be `place 1: C`"),
            (b"at a.c:1", b"a.c:1", "line 6 of the report is `a.c:1`; it should be `at LOCATION`"),
            (b"and b.c:2", b"and " + b"b" * 5_000, "line 7 of the report is too long: `and " + "b" * 54
             + "..`; it should be `and LOCATION`"),
            (REPORT[REPORT.index(b"and"):], b"and b",
             "line 7 of the report is cut off: `and b`; it should be `and LOCATION`")):
            with self.subTest(wanted), self.assertRaisesRegex(BadReport, f"^{re.escape(wanted)}$"):
                Report(io.BytesIO(REPORT.replace(before, after)))

    def test_places_are_those_of_the_races(self):
        """In the order of their first races, each with as many as it has."""
        race = b"race %d: 1 2\nfirst T1|w(x)|%b\nsecond T2|w(x)|b.c:2\n"
        for places, are_same in ((b"121", True), (b"112", True), (b"122", False), (b"211", False),
                                 (b"111", False), (b"131", False)):
            races = b"".join(race % (number, b"a.c:%c" % at) for number, at in enumerate(places, 1))
            text = (b"shb-report 2\nevents 2 threads 2 locks 0 variables 1\nraces 3\nplaces 2\n"
                    b"place 1: 2\nat a.c:1\nand b.c:2\nplace 2: 1\nat a.c:2\nand b.c:2\n" + races + b"end\n")
            with self.subTest(places):
                found = Report(io.BytesIO(text)).races()
                if are_same:
                    self.assertEqual(len(list(found)), 3)
                else:
                    self.assertRaisesRegex(BadReport, "aren't those of its races", list, found)

    def test_words_name_the_line(self):
        for number, line in enumerate(LINES.splitlines(True), 2):
            path = self.folder / "a.stacks"
            path.write_bytes(STACKS.replace(line, line[:-1] + b"\tx y z\n" if line.startswith(
                (b"stack", b"block", b"free", b"use")) else line.replace(b"\t", b" ")))
            for read in (lambda: Stacks(path, 3), lambda: Stacks(path)):
                with self.assertRaises(BadStacks) as refused:
                    read()
                self.assertIn(f"is damaged in line {number}: `", str(refused.exception))

    def test_deep_stacks_have_an_end(self):
        """Also where a stack is further out than itself, or has many frames."""
        path = self.folder / "a.stacks"
        path.write_bytes(b"shb-stacks 1 %020d\n" % 1 + struct.pack("<I", 1) + b"frame f\ta.c:1\n"
                         + b"stack 1 1 " + b"1 " * 9_000 + b"\n"
                         + b"thread T\t1\n" * 100)
        found = Stacks(path, 1)
        self.assertEqual((len(found.of_event(1)), len(found.of_thread(b"T"))), (2_000, 2_000))

    def test_what_is_no_regular_file(self):
        os.mkfifo(self.folder / "pipe")
        for path in (self.folder / "pipe", "/dev/zero", self.folder):
            with self.assertRaises(OSError):
                Stacks(path)
        with self.assertRaisesRegex(OSError, "it isn't a regular file"):
            open_regular("/dev/zero")
        with self.assertRaises(OSError) as refused:
            read_at_most("/dev/zero", 1000)
        self.assertEqual(refused.exception.strerror, "it is longer than 1,000 bytes")

    def test_a_file_is_put_whole(self):
        path = self.folder / "deep" / "file"
        path.parent.mkdir()
        put(path, b"one")
        put(path, b"two")
        self.assertEqual((path.read_bytes(), list(path.parent.iterdir())), (b"two", [path]))
