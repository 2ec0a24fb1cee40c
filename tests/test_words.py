"""Words, help and the texts of refused words."""

import program

# The first help: one screen of 24 lines of 80 columns.
SCREEN = """\
Finds the races of a trace of a run, and gives each a schedule that shows it

Usage: shb <COMMAND>

Commands:
  races   Writes the report of a trace to standard output
  places  Writes the report of one race of each place of a trace
  check   Checks the report on standard input against its trace
  help    Print this message or the help of the given subcommand(s)

Options:
  -h, --help  Print help

No arguments mean 'shb races --list'. Begin with 'shb places --list', which
reads a trace of any length. Without --list each race has a schedule.

  $ printf 'T1|w(y)|1\\nT2|r(y)|2\\n' | shb places --list

'shb help races' explains traces and reports, and 'shb help check' what a good
report means.

Exit status: 0 done, 2 trace refused, 3 wrong command line, 4 a file, a device
or the memory failed, 5 report rejected
"""

HINT = b"\nFor more information, try '--help'.\n"
WORKERS = b"--workers takes a number from 1 to 64.\n"
NOT_IN_RANGE = b"error: invalid value '65' for '--workers <N>': 65 is not in 1..=64\n" + HINT + WORKERS
NO_NUMBER = b"error: invalid value 'x' for '--workers <N>': invalid digit found in string\n" + HINT + WORKERS
CHECK = b"\nUsage: shb check <TRACE> < REPORT\n" + HINT
NO_TRACE = b"error: the following required arguments were not provided:\n  <TRACE>\n" + CHECK
REPORT_AS_A_WORD = b"error: unexpected argument 'R' found\n" + CHECK


class Words(program.Case):
    def test_the_help_is_one_screen(self):
        self.expect(program.run(["--help"]), 0, SCREEN.encode())

    def test_whole_refusals(self):
        self.expect(program.run(["races", "--workers", "65"]), 3, b"", NOT_IN_RANGE)
        self.expect(program.run(["places", "--workers", "x"]), 3, b"", NO_NUMBER)
        self.expect(program.run(["check"]), 3, b"", NO_TRACE)
        self.expect(program.run(["check", "T", "R"]), 3, b"", REPORT_AS_A_WORD)

    def test_help(self):
        for words in (["--help"], ["help"], ["-h"]):
            answer = program.run(words)
            self.assertEqual((answer.status, answer.err), (0, b""))
            lines = answer.out.decode().splitlines()
            self.assertLessEqual(len(lines), 24)
            self.assertLessEqual(max(map(len, lines)), 80)
            for wanted in ("Usage: shb <COMMAND>", "  races  ", "  check  ", "shb places --list",
                           "shb help check"):
                self.assertIn(wanted, answer.out.decode())

    def test_help_of_races(self):
        self.expect(program.run(["races", "--help"]), 0, program.run(["help", "races"]).out)
        text = program.run(["help", "races"]).out.decode()
        for wanted in ("Usage: shb races [OPTIONS] [TRACE]", "--workers <N>", "--list", "races times events"):
            self.assertIn(wanted, text)
        self.assertLessEqual(max(map(len, text.splitlines())), 80)
        for operation in ("r(X)", "w(X)", "acq(L)", "rel(L)", "fork(T)", "join(T)", "begin", "end"):
            self.assertIn(operation, text)

    def test_help_of_check(self):
        self.expect(program.run(["check", "--help"]), 0, program.run(["help", "check"]).out)
        text = program.run(["help", "check"]).out.decode()
        for wanted in ("Usage: shb check <TRACE> < REPORT\n", "ok R", "bad line N", "bad counts",
                       "bad race K", "bad places"):
            self.assertIn(wanted, text)
        self.assertIn("Not judged: whether races of the trace are left out", text)
        self.assertLessEqual(max(map(len, text.splitlines())), 80)

    def test_refused_words(self):
        for words, said in (
            (["races", "--workers", "0"], b"error: invalid value '0' for '--workers <N>': 0 is not in "
                                          b"1..=64\n"),
            (["races", "--workers", "65"], b"error: invalid value '65' for '--workers <N>': 65 is not in "
                                           b"1..=64\n"),
            (["races", "--workers", "x"], b"error: invalid value 'x' for '--workers <N>'"),
            (["check"], b"error: the following required arguments were not provided:\n  <TRACE>\n"),
            (["frobnicate"], b"error: unrecognized subcommand 'frobnicate'\n"),
            (["races", "a", "b"], b"error: unexpected argument 'b' found\n"),
            (["places", "--workers", "65"], b"error: invalid value '65' for '--workers <N>': 65 is not in "
                                            b"1..=64\n"),
            (["races", "--variables"], b"error: unexpected argument '--variables' found\n"),
            (["places", "a", "b"], b"error: unexpected argument 'b' found\n"),
            (["check", "a", "b"], b"error: unexpected argument 'b' found\n"),
            (["--version"], b"error: unexpected argument '--version' found\n"),
            (["help", "frobnicate"], b"error: unrecognized subcommand 'frobnicate'\n"),
        ):
            with self.subTest(words):
                answer = program.run(words)
                self.assertEqual((answer.status, answer.out), (3, b""))
                self.assertTrue(answer.err.startswith(said), answer.err)
                self.assertTrue(answer.err.endswith(b"\n"), answer.err)

    def test_a_word_that_is_no_command(self):
        """The nearest commands are named, and all; a file isn't a command."""
        said = b"The commands are races, places and check. Begin with 'shb places --list TRACE'.\n"
        for word in ("good.std", "lists", "place"):
            answer = program.run([word])
            self.assertTrue(answer.err.endswith(HINT + said), answer.err)
            self.assertEqual(b"tip: some similar subcommands exist: 'races', 'places'\n" in answer.err,
                             word == "place")

    def test_words_that_are_not_utf_8(self):
        for words in ([b"\xff"], ["races", b"\xff.std"], ["check", b"t\xc3"]):
            self.expect(program.run(words), 3, b"", b"error: a word is not UTF-8\n")

    def test_words_are_looked_at_before_the_trace(self):
        self.assertEqual(program.run(["races", "--workers", "65", self.folder / "none"]).status, 3)

    def test_options_stand_in_any_order(self):
        trace = self.file(b"T1|w(x)\nT2|w(x)\n")
        wanted = program.run(["races", "--list", trace])
        for words in (["races", trace, "--list"], ["races", "--workers", "64", trace, "--list"],
                      ["races", "--workers=1", "--list", trace]):
            self.assertEqual(program.run(words), wanted)
