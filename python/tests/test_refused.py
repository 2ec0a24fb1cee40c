"""What is said of the line for which a trace was refused."""

import io

import farm
from farm import BAD_WORDS, RACE
from shb_common import refused
from shb_common.analyser import REFUSED, Answer

OPERATION = "the operation is not known"
BLANKS = "there are blanks around the bar: write THREAD|OPERATION|LOCATION without them"
# The first line of a trace with the reason that it is refused for, how it is shown, and the hint.
LINES = (
    (b"T1 | w(x)|a.c:1\n", OPERATION, "T1 | w(x)|a.c:1", BLANKS),
    (b"T1|w(x) |a.c:1\r\n", OPERATION, "T1|w(x) |a.c:1", BLANKS),
    (b"T1|W(x)\n", OPERATION, "T1|W(x)", "operations are written in small letters, as `w`"),
    (b"T1|Acq(l)|1\n", OPERATION, "T1|Acq(l)|1", "operations are written in small letters, as `acq`"),
    (b"T1|lock(l)|1\n", OPERATION, "T1|lock(l)|1", "this operation is written `acq`"),
    (b"T1|Unlock(l)|1\n", OPERATION, "T1|Unlock(l)|1", "this operation is written `rel`"),
    (b"T1|jump(l)|1\n", OPERATION, "T1|jump(l)|1", ""),
    (b"\x1f\x8b\x08|\n", OPERATION, "\\x1f\\x8b\\x08|", "the file is packed by gzip: unpack it first"),
    (b"\xfd7zXZ\0\n", "the line has no operation field", "\\xfd7zXZ\\x00",
     "the file is packed by xz: unpack it first"),
    ("\ufeffT1|w(x)\n".encode("utf-16-le")[:-1], OPERATION,
     "\\xff\\xfeT\\x001\\x00|\\x00w\\x00(\\x00x\\x00)\\x00", "the file is UTF-16: save it as UTF-8"),
    ("T1|w(x)\n".encode("utf-16-be"), OPERATION, "\\x00T\\x001\\x00|\\x00w\\x00(\\x00x\\x00)\\x00",
     "the file is UTF-16, or no text: save it as UTF-8"),
    (b"T1|w(x)|1\rT2|w(x)|2\r", OPERATION, "T1|w(x)|1\\rT2|w(x)|2",
     "a carriage return without a line feed: lines end with a line feed, or with both"),
    (b"T1,w(x),1\n", "the line has no operation field", "T1,w(x),1",
     "a line is THREAD|OPERATION|LOCATION, with bars between, not commas; there are no comments"),
    (b"# a comment\n", "the line has no operation field", "# a comment",
     "a line is THREAD|OPERATION|LOCATION, with bars between; there are no comments"),
    (b"T1|rel(l)| | x\n", "the thread does not hold the lock", "T1|rel(l)| | x", ""),
    (b"T1|rel(l)\n", "the lock is not held by this thread", "T1|rel(l)",
     "the log may begin while the lock is held, or miss an acquire; `shb-fix` repairs such logs"),
    (b"T1|acq(l)\n", "the lock is held by another thread", "T1|acq(l)",
     "the log may miss a release; `shb-fix` repairs such logs"),
    (b"T1|r(x)\n", "the thread was joined before", "T1|r(x)",
     "a join may have timed out, or the thread's name is used again; `shb-fix` repairs such logs"),
    (b"T1|fork(T2)\n", "the thread was forked before", "T1|fork(T2)",
     "the thread's name may be used again; `shb-fix` repairs such logs"),
    (b"T1|rel(l)|" + b"x" * 5000 + b"\n", "the thread does not hold the lock", "T1|rel(l)|" + "x" * 48 + "..",
     ""),
)


class Refused(farm.Case):
    def test_the_line_and_a_hint(self):
        for line, reason, shown, hint in LINES:
            said = refused.explained(f"line 1: {reason}", io.BytesIO(line))
            self.assertEqual(said, f"line 1: {reason}; it is `{shown}`" + (f": {hint}" if hint else ""))

    def test_the_line_is_found(self):
        text = b"\n\r\n" + b"x" * 4200 + b"\n" + b"x" * 9000 + b"\nT1 |w(x)\nlast"
        for number, shown in ((1, ""), (3, "x" * 58 + ".."), (5, "T1 |w(x)"), (6, "last"), (7, "")):
            self.assertTrue(refused.explained(f"line {number}: no", io.BytesIO(text)).startswith(
                f"line {number}: no; it is `{shown}`"), number)

    def test_other_words_stay(self):
        for words in ("it can't be unpacked", "line 0: x", "line x: y"):
            self.assertEqual(refused.explained(words, io.BytesIO(b"T1|w(x)\n")), words)

    def test_the_note_on_a_mark_is_no_reason(self):
        """`shb` says it of any trace; the hint stays."""
        self.assertEqual(Answer(REFUSED, b"line 1: the thread name is empty\n" + refused.NOTE).words,
                         "line 1: the thread name is empty")
        self.trace("bad.std", b"\xef\xbb\xbf# a comment\n")
        self.assertIn("\nrefused  bad.std  line 1: the line has no operation field; it is `\\ufeff# a "
                      "comment`: the file begins with a byte order mark: save it without one\n",
                      self.farm().out)

    def test_a_byte_order_mark_is_said(self):
        """The trace is read as it is: its first thread has another name than the later lines'."""
        self.trace("mark.std", b"\xef\xbb\xbfT1|w(x)|1\nT1|w(x)|2\n")
        answer = self.farm()
        self.assertEqual((answer.status, self.table("places.tsv")[0][2:4]), (1, ["1", "2"]))
        self.assertTrue(answer.out.endswith("\n\nreport  mark.std  a byte order mark before the first line "
                                            "is part of the first thread's name\n"))

    def test_a_farm_shows_it(self):
        self.trace("bad.std", RACE + b"T1|w(x)\nT1|READ(x)|1\n")
        self.trace("oops.std", farm.BAD)
        answer = self.farm()
        self.assertEqual(answer.status, 5)
        self.assertIn("\nrefused  bad.std   line 4: the operation is not known; it is `T1|READ(x)|1`: this "
                      "operation is written `r`\n", answer.out)
        self.assertIn(f"\nrefused  oops.std  {BAD_WORDS}\n", answer.out)
