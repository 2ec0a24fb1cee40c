"""A run again by the list of its turns: the same accesses in the same order, and a word where the
list doesn't fit."""

import os
import re
import subprocess
import threading

import recorder

HEADER = 4096
MANY_TURNS = 40
SECONDS = 100  # in which a replay is left
AGAIN = r"(?m)^shb-record: the first run with such a place again: shb-record --replay (\S+) \S+$"


class Replays(recorder.Case):
    def program(self, name="rare.c", *words, folder="."):
        out = self.folder / folder / name.split(".")[0]
        out.parent.mkdir(exist_ok=True)
        compiler = "g++" if name.endswith(".cc") else "gcc"
        recorder.must(recorder.call(compiler, "-w", "-g", "-O1", "-fsanitize=thread", "-pthread", *words,
                                    recorder.PROGRAMS / name, "-o", out))
        return out

    def settings(self, name, seed, **more):
        """With slices that the recorder draws."""
        return recorder.settings(self.folder / f"{name}.rec", seed, recorder.OWN_SLICES,
                                 LD_LIBRARY_PATH=str(recorder.BUILT / "lib"), **more)

    def run_it(self, name, seed, *words, replay=None, **more):
        """Runs a program; gives what the recorder said, and the list of turns."""
        how = {"SHB_REPLAY": str(self.folder / f"{replay}.turns")} if replay else {}
        given = {"input": b"a line\n"}
        ran = recorder.must(recorder.call(*words, env=self.settings(name, seed, **how, **more), **given))
        return ran.stderr.decode(), (self.folder / f"{name}.turns").read_bytes()[HEADER:]

    def record(self, *words):
        ran = recorder.call(recorder.COMMAND, *words, cwd=self.folder,
                            env={**os.environ, "SHB": str(recorder.SHB)})
        return ran.returncode, ran.stderr.decode()

    def test_a_found_race_is_found_again(self):
        program = self.program()
        status, said = self.record("--until-found", "300", "-o", "found", program)
        self.assertEqual(status, 66, said)
        turns = re.search(AGAIN, said)[1]
        for folder in "found", "other":  # the first has the list, which stays
            status, said = self.record("--runs", "10", "--replay", turns, "-o", folder, program)
            followed = re.findall(r"(?m)^shb-record: run \d+, process \d+ \(\S+\): all \d+ turns of the list "
                                  r"were followed$", said)
            found = re.findall(r"(?m)^shb-record: run \d+, .*; [1-9] places? with races$", said)
            self.assertEqual((status, len(followed), len(found)), (66, 10, 10), said)
        page = next((self.folder / "other").glob("run*.html")).read_text()
        self.assertRegex(page, r"All \d+ turns of the list were followed\.")

    def test_the_same_turns_whatever_is_recorded_of_them(self):
        for name in "rare.c", "prodcons.c", "barrier.c", "rwlock.c":
            program = self.program(name)
            first, second = f"first-{name}", f"second-{name}"
            _, turns = self.run_it(first, 5, program)
            self.assertGreater(len(turns), 8)
            for seed, settings in ((6, {}), (7, {"SHB_CELLS": "0"}), (8, {"SHB_STACKS": "0"})):
                said, again = self.run_it(second, seed, program, replay=first, **settings)
                self.assertEqual((said, again), ("", turns), name)

    def test_the_same_accesses(self):
        program, traces = self.program("prodcons.c"), set()
        self.run_it("first", 3, "setarch", "-R", program, SHB_CELLS="0")
        for name, seed in ("first", 0), ("second", 4), ("third", 5):
            if seed:
                self.run_it(name, seed, "setarch", "-R", program, replay="first", SHB_CELLS="0")
            traces.add(recorder.must(recorder.convert(self.folder / f"{name}.rec", "-a")).stdout)
        self.assertEqual(len(traces), 1)

    def test_turns_that_were_lost_in_the_midst_of_a_hook(self):
        """Where a thread is started, and where it begins; and again before its next step."""
        program, runs = self.program("asleep.c"), {}
        for seed in range(1, 5):
            for name, how in ("first", {"SLEEPS": "1"}), ("second",
                                                          {"SHB_REPLAY": str(self.folder / "first.turns")}):
                ran = recorder.must(recorder.call(program,
                                                  env={**self.settings(name, seed, **how), "SHB_SLICE": "5"}))
                runs[name] = ran.stdout, ran.stderr, (self.folder / f"{name}.turns").read_bytes()[HEADER:]
            self.assertEqual(runs["first"], runs["second"], f"seed {seed}")

    def test_who_does_what_is_done_once(self):
        """Also where it is tried again."""
        program = self.program("once.cc")
        for seed in range(1, 13):
            _, turns = self.run_it("first", seed, program)
            self.assertEqual(self.run_it("second", seed + 20, program, replay="first"), ("", turns), seed)

    def test_a_turn_that_one_of_many_takes_over(self):
        """By the list it alone may, and others look at the holder."""
        program = self.program("among_many.c")
        for seed in 1, 2:
            _, turns = self.run_it("first", seed, program)
            self.assertEqual(self.run_it("second", seed + 10, program, replay="first"), ("", turns))

    def test_a_thread_that_sleeps_for_room(self):
        """In a hook, before its record; there it keeps its turn."""
        program, slow = self.program("room.c"), self.folder / "slow.so"
        recorder.must(recorder.call("gcc", "-O1", "-fno-builtin", "-fPIC", "-shared",
                                    recorder.HERE / "refuse_space.c", "-o", slow))
        seen = set()
        for how in {"LD_PRELOAD": str(slow), "SLOW_SPACE": "300000"}, {
                "SHB_REPLAY": str(self.folder / "first.turns")}:
            name = "again" if seen else "first"
            ran = recorder.must(recorder.call(program, env=self.settings(name, 1, SHB_CELLS="0", **how)))
            seen.add((ran.stdout, ran.stderr, (self.folder / f"{name}.turns").read_bytes()[HEADER:]))
        self.assertEqual(len(seen), 1)

    def test_a_program_that_changed(self):
        _, turns = self.run_it("first", 5, self.program())
        said, _ = self.run_it("again", 5, self.program("rare.c", "-DLONGER", folder="changed"),
                              replay="first")
        left = re.fullmatch(r"shb recorder: the replay is left after (\d+) of (\d+) turns, for [a-z ]+\n",
                            said)
        self.assertTrue(left, said)
        self.assertLess(int(left[1]), int(left[2]))
        self.assertLessEqual(int(left[2]), len(turns) / 8)
        recorder.must(recorder.convert(self.folder / "again.rec"))  # it is whole

    def follows_ten_lists(self, name, *words):
        program = self.program(name, *words)
        for seed in range(1, 11):
            first = recorder.must(recorder.call(program, env=self.settings("first", seed)))
            how = self.settings("second", seed + 20, SHB_REPLAY=str(self.folder / "first.turns"))
            again = recorder.must(recorder.call(program, env=how))
            self.assertEqual((again.stdout, again.stderr), (first.stdout, b""), f"seed {seed}")
            lists = {(self.folder / f"{ran}.turns").read_bytes()[HEADER:] for ran in ("first", "second")}
            self.assertEqual(len(lists), 1, f"seed {seed}")

    def test_what_clocks_showed_and_whose_time_ran_out(self):
        self.follows_ten_lists("timed.cc")

    def test_sections_and_loops_of_openmp(self):
        self.follows_ten_lists("openmp_critical.c", "-fopenmp")

    def test_a_thread_that_is_due_waits_for_input(self):
        """It had its line at once when the list was written, and the other thread was still at work then:
        else nobody waits for it."""
        program = self.program()
        runs = (self.run_it("first", seed, program, "input")[1] for seed in range(5, 105))
        turns = next(turns for turns in runs if len(turns) > 8 * MANY_TURNS)
        said, again = self.run_it("again", 6, program, "input", replay="first")
        self.assertEqual((said, again), ("", turns))
        how = self.settings("late", 6, SHB_REPLAY=str(self.folder / "first.turns"))
        with subprocess.Popen([program, "input"], env=how, stdin=subprocess.PIPE,
                              stderr=subprocess.PIPE) as running:
            limit = threading.Timer(SECONDS, running.kill)
            limit.start()
            self.assertIn(b"the replay is left after ", running.stderr.readline())
            running.stdin.write(b"a line\n")
            running.stdin.close()
            self.assertEqual((running.stderr.read(), running.wait()), (b"", 0))
            limit.cancel()

    def test_a_thread_waits_for_the_handler_of_a_signal(self):
        """That comes at another moment in the replay, which ends all the same."""
        program = self.program("signal_posts.c")
        for seed in range(1, 4):
            self.run_it("first", seed, program)
            self.run_it("second", seed, program, replay="first")

    def test_a_file_that_is_no_list(self):
        program = self.program()
        self.run_it("first", 5, program)
        path, good = self.folder / "bad.turns", (self.folder / "first.turns").read_bytes()
        self.assertEqual(self.record("--replay", self.folder / "first.turns", program)[0] in (0, 66), True)
        changed = bytearray(good)
        changed[HEADER] ^= 1
        for content in b"", b"text\n", good[:HEADER - 1], b"x" + good[1:], good[:-8], good[:-3], bytes(
                changed):
            path.write_bytes(content)
            status, said = self.record("--replay", path, "-o", "refused", program)
            self.assertEqual((status, len(said.splitlines()), (self.folder / "refused").exists()),
                             (125, 1, False), said)
            self.assertRegex(said, "is no list of turns|was cut or changed")
        for other in self.folder / "none.turns", self.folder:
            status, said = self.record("--replay", other, program)
            self.assertEqual((status, len(said.splitlines())), (125, 1), said)

    def test_a_list_of_another_version(self):
        """It may count steps otherwise. The program runs all the same."""
        program, path = self.program(), self.folder / "old.turns"
        self.run_it("first", 5, program)
        content = (self.folder / "first.turns").read_bytes()
        self.assertRegex(content, rb"\Ashb-turns \d+\n")
        path.write_bytes(b"shb-turns 4\n" + content.partition(b"\n")[2])
        said, _ = self.run_it("again", 5, program, replay="old")
        self.assertEqual(said, f"shb recorder: {path} is not followed: another version of the recorder wrote "
                               "it\n")
        status, said = self.record("--replay", path, "-o", "refused", program)
        self.assertEqual((status, said), (125, f"shb-record: {path} is not followed: another version of the "
                                               "recorder wrote it\n"))

    def test_a_list_of_another_program(self):
        self.run_it("first", 5, self.program("prodcons.c"))
        status, said = self.record("--replay", self.folder / "first.turns", self.program())
        self.assertEqual(status in (125, 66), True)
        self.assertRegex(said, r"first.turns belongs to `\S+/prodcons`, and no recorded process was that: "
                               r"nothing was replayed\n")
