"""A program that crashes: what ended it, and where, is in the record, which is whole."""

import os
import re
import signal

import recorder

SOURCE = recorder.PROGRAMS / "crash.c"
LINES = {word: f"crash.c:{number}" for number, line in enumerate(SOURCE.read_text().splitlines(), 1)
         for word in re.findall(r"/\* ([A-Z]+) \*/", line)}


class Crash(recorder.Case):
    def crashed(self, way, *words):
        """The program's status, the answer of the converter, and what that said of the crash."""
        path, program = self.folder / f"{way}.rec", self.folder / "crash"
        if not program.exists():
            recorder.build(SOURCE, "-O0", program)
        ran = recorder.call(program, way, env=recorder.settings(path))
        answer = recorder.must(recorder.convert(path, *words))  # which takes it for whole
        return ran.returncode, answer, re.findall(rb"(?m)^shb-std: the program crashed: (.*)$", answer.stderr)

    def test_what_ended_it_and_where(self):
        called = rf", from work {LINES['CALL']}"
        for way, number, said in (
                ("store", signal.SIGSEGV, r"SIGSEGV at address 0x40 in thread T1\.work: fail "
                                          rf"{LINES['STORE']}{called}"),
                ("atomic", signal.SIGSEGV, r"SIGSEGV at address 0x40 in thread T1\.work: fail "
                                           rf"{LINES['ATOMIC']}{called}"),
                ("quick", signal.SIGSEGV, r"SIGSEGV at address 0x\w+ in thread T1\.work: add_often "
                                          rf"{LINES['QUICK']}, from fail {LINES['OFTEN']}{called}"),
                ("library", signal.SIGSEGV, r"SIGSEGV at address 0x0 in thread T1\.work: .*fail "
                                            rf"{LINES['LIBRARY']}{called}"),
                ("handled", signal.SIGSEGV, r"SIGSEGV at address 0x40 in thread T1\.work: meet "
                                            rf"{LINES['HANDLED']}, from signal handler, .*from work "
                                            r"crash\.c:\d+"),
                ("divide", signal.SIGFPE, rf"SIGFPE in thread T1\.work: fail crash\.c:\d+{called}"),
                ("abort", signal.SIGABRT, rf"SIGABRT in thread T1\.work: .*fail crash\.c:\d+{called}"),
                ("realloc", signal.SIGABRT, rf"SIGABRT in thread T1\.work: .*break_heap {LINES['REALLOC']}, "
                                            rf"from fail {LINES['HEAP']}{called}"),
                ("resign", signal.SIGSEGV, rf"SIGSEGV in thread T1\.work: fail {LINES['STORE']}{called}")):
            with self.subTest(way):
                status, answer, [crash] = self.crashed(way, "--stacks", self.folder / "stacks")
                self.assertEqual(status, -number)
                self.assertRegex(crash.decode(), rf"\A{said}\Z")
                places = recorder.places(answer.stdout)
                self.assertEqual({line for pair in places for line in pair},
                                 {f"crash.c:{n}" for n in self.racing()})

    @staticmethod
    def racing():
        return [number for number, line in enumerate(SOURCE.read_text().splitlines(), 1) if "RACE" in line]

    def test_the_place_without_a_file_of_stacks(self):
        _, _, [crash] = self.crashed("store")
        self.assertEqual(crash.decode(), f"SIGSEGV at address 0x40 in thread T1.work: {LINES['STORE']}")

    def test_a_handler_that_goes_on(self):
        """It leaves an atomic operation, and what its thread does behind that is recorded."""
        behind = {f"crash.c:{n}" for n, line in enumerate(SOURCE.read_text().splitlines(), 1)
                  if "BEHIND" in line}
        for way in "recover", "recover-quick":
            with self.subTest(way):
                status, answer, crashes = self.crashed(way)
                self.assertEqual((status, crashes), (0, []))
                self.assertLess(behind, {line for pair in recorder.places(answer.stdout) for line in pair})

    def test_the_text_and_the_page_begin_with_it(self):
        program = self.folder / "crash"
        recorder.build(SOURCE, "-O0", program)
        ran = recorder.call(recorder.COMMAND, program, "store", cwd=self.folder,
                            env={**os.environ, "SHB": str(recorder.SHB)})
        said = ran.stderr.decode()
        note = (f"The program crashed: SIGSEGV at address 0x40 in thread T1.work: fail {LINES['STORE']}, "
                f"from work {LINES['CALL']}.")
        self.assertEqual((ran.returncode, said.splitlines()[1]), (66, note), said)
        self.assertNotIn("not the whole", said)
        self.assertIn("the program's own status: 139;", said)
        [page] = (self.folder / "crash.shb").glob("run*.html")
        self.assertIn(note, page.read_text())
