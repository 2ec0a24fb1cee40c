"""What is said of a refused line of a file, after the line that says which it is and why."""

import program
import viewing  # by which the packages of the commands are found
from shb_common import refused

OPERATIONS = "is none of r, w, acq, rel, fork, join, begin and end"
ROWS = (
    ("T1|acq(m)|a.c:1\nT2|acq(m)|b.c:2\n", "line 2: the lock is held by another thread",
     ["the line is `T2|acq(m)|b.c:2`", "`m` is held by `T1` since line 1: `T1|acq(m)|a.c:1`"]),
    # Again by its holder; released; of another lock; empty lines, a carriage return and a mark count
    # as lines.
    ("T1|acq(m)|1\nT1|rel(m)|2\n\r\n\nT2|acq(n)|3\nT1|acq(m)|4\r\nT1|acq(m)|5\nT1|rel(m)|6\n"
     "T2|begin\nT2|acq(m)|7\nT1|rel(m)|8\n",
     "line 10: the lock is held by another thread",
     ["the line is `T2|acq(m)|7`", "`m` is held by `T1` since line 6: `T1|acq(m)|4`"]),
    ("T1|acq(m)|1\nT2|rel(m)|2\n", "line 2: the lock is not held by this thread",
     ["the line is `T2|rel(m)|2`", "`m` is held by `T1` since line 1: `T1|acq(m)|1`"]),
    ("T1|acq(m)|1\nT1|rel(m)|2\nT1|rel(m)|3\n",
     "line 3: the lock is not held by this thread", ["the line is `T1|rel(m)|3`"]),
    ("M|join(T)|1\nT|w(x)|2\n",
     "line 2: the thread was joined before", ["the line is `T|w(x)|2`", "`T` was joined in line 1: "
                                              "`M|join(T)|1`"]),
    ("T|w(x)|1\nT|w(x)|2\nM|fork(T)|3\n", "line 3: the forked thread has started already",
     ["the line is `M|fork(T)|3`", "`T` has an event in line 1: `T|w(x)|1`"]),
    ("M|fork(T)|1\nN|fork(T)|2\n",
     "line 2: the thread was forked before", ["the line is `N|fork(T)|2`", "`T` was forked in line 1: "
                                              "`M|fork(T)|1`"]),
    ("M|join(T)|1\nM|fork(T)|2\n", "line 2: the forked thread was joined before",
     ["the line is `M|fork(T)|2`", "`T` was joined in line 1: `M|join(T)|1`"]),
    ("T|fork(T)|1\n", "line 1: a thread cannot fork itself", ["the line is `T|fork(T)|1`"]),
    ("T|w(x)\nT|writ(x)|b\n",
     "line 2: the operation is not known", ["the line is `T|writ(x)|b`", f"`writ` {OPERATIONS}"]),
    ("T1 | w(x) | a\n",
     "line 1: the operation is not known", ["the line is `T1 | w(x) | a`", f"` w` {OPERATIONS}"]),
    ("T|w x|a", "line 1: the operation is not known", ["the line is `T|w x|a`", f"`w x` {OPERATIONS}"]),
    ("T|w()|a\n", "line 1: the operand is not a name in parentheses", ["the line is `T|w()|a`"]),
    ("T,w(x),a\n", "line 1: the line has no operation field", ["the line is `T,w(x),a`"]),
    ("|w(x)|a\n", "line 1: the thread name is empty", ["the line is `|w(x)|a`"]),
    ("T|w(\u00fc\033)\u2028|a\n",
     "line 1: the operand is not a name in parentheses", ["the line is `T|w(\u00fc\\u{1b})\\u{2028}|a`"]),
    ("T|" + "x" * 300 + "\n",
     "line 1: the operation is not known", [f"the line is `T|{'x' * 198}..`",
                                            f"`{'x' * 200}..` {OPERATIONS}"]),
    ("T|" + "x" * 4096 + "\n", "line 1: the line is longer than 4096 bytes", []),
)


OTHER_FILES = (
    (b"\x1f\x8b\x08\x00", b"the file is packed by gzip: unpack it first\n"),
    (b"\xfd7zXZ\x00", b"the file is packed by xz: unpack it first\n"),
    (b"\x28\xb5\x2f\xfd", b"the file is packed by zstd: unpack it first\n"),
    (b"BZh91AY", b"the file is packed by bzip2: unpack it first\n"),
    (b"PK\x03\x04", b"the file is a zip archive: unpack it first\n"),
    (b"\xff\xfeT\x00", b"the file is UTF-16: save it as UTF-8\n"),
    (b"\xfe\xff\x00T", b"the file is UTF-16: save it as UTF-8\n"),
    (b"shb-report 2\n", b"the file is a report of `shb`, not a trace\n"),
    (b"shb-record", b"the file is a record: `shb-std` makes a trace of it\n"),
)


class Refused(program.Case):
    def test_each_command(self):
        for text, first, further in ROWS:
            trace = self.file(text.encode())
            said = "".join(line + "\n" for line in [first, *further]).encode()
            for words in (["races", "--list"], ["places"], ["places", "--list"], ["check"]):
                with self.subTest(first, words=words):
                    self.expect(program.run([*words, trace]), 2, b"", said)

    def test_bytes_that_are_no_text(self):
        trace = self.file(b"T|w(x)|\xff\nT|\xff\xfe|\n")
        said = (f"line 2: the operation is not known\nthe line is `T|\\xff\\xfe|`\n"
                f"`\\xff\\xfe` {OPERATIONS}\n")
        self.expect(program.run(["places", "--list", trace]), 2, b"", said.encode())

    def test_what_cannot_be_read_again_is_not_told_of(self):
        """Standard input, and a pipe by its name."""
        text, first, _ = ROWS[0]
        for words in (["races"], ["places", "--list"], ["places", "--list", "/dev/stdin"]):
            self.expect(program.run(words, text.encode()), 2, b"", f"{first}\n".encode())

    def test_files_that_are_no_traces(self):
        """What they are is said last, also of a pipe, and as the other commands say it."""
        first = b"line 1: the line has no operation field\n"
        for text, said in OTHER_FILES:
            for words in (["races"], ["places"], ["places", "--list"]):
                with self.subTest(said, words=words):
                    self.expect(program.run(words, text), 2, b"", first + said)
            answer = program.run(["races", self.file(text)])
            self.assertEqual((answer.status, answer.err.startswith(first),
                              answer.err.endswith(b"`\n" + said)), (2, True, True))
            self.assertIn(said.decode().rstrip("\n"), refused.BEGINNINGS.values())
        self.expect(program.run(["races"], b"\x1f"), 2, b"", first)
        self.expect(program.run(["places", "--list"], b"BZh|r(x)\n" * 2 + b"oops"), 2, b"",
                    b"line 3: the line has no operation field\n" + OTHER_FILES[3][1])
