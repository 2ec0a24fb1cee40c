"""What fails ends the recording, or the trace, and never the program."""

import os
import re
import resource
import signal
import subprocess

import recorder


class Failures(recorder.Case):
    def program(self, name):
        recorder.build(recorder.PROGRAMS / name, "-O1", self.folder / "app")
        return self.folder / "app"

    def test_a_record_that_cannot_be_written(self):
        program = self.program("mutex_ok.c")
        for path, reason in (("/dev/full", b"is no record, and isn't replaced by one"),
                             (self.folder / "none" / "app.rec", b"No such file or directory"),
                             (self.folder, b"Is a directory")):
            ran = recorder.must(recorder.call(program, env=recorder.settings(path)))
            self.assertIn(reason + b"; the program runs unrecorded", ran.stderr)

    def test_settings_that_are_no_numbers(self):
        """Each is said, and the program recorded as without it."""
        wrong = {"SHB_RECORDS": ("abc", 1, 1 << 40), "SHB_CELLS": ("x", 0, 1 << 40),
                 "SHB_SLICE": ("0", 1, (1 << 30) - 1), "SHB_STALL": ("0", 1, (1 << 31) - 1),
                 "SHB_STACKS": ("2", 0, 1), "SHB_SEGMENT": ("1x", 1, 1 << 40),
                 "SHB_SEED": ("-1", 0, (1 << 64) - 1)}
        env = recorder.settings(self.folder / "app.%s.rec",
                                **{name: text for name, (text, _, _) in wrong.items()})
        ran = recorder.must(recorder.call(self.program("mutex_ok.c"), env=env))
        said = [f"shb recorder: {name} takes a number from {least} to {most}, not `{text}`, and is ignored"
                for name, (text, least, most) in wrong.items()]
        self.assertEqual(sorted(ran.stderr.decode().splitlines()), sorted(said))
        recorder.must(recorder.convert(self.folder / "app.1.rec"))

    def test_a_limit_of_the_converters_addresses(self):
        few = (300 << 20, 300 << 20)
        ran = recorder.call(recorder.BUILT / "shb-std", "--version",
                            preexec_fn=lambda: resource.setrlimit(resource.RLIMIT_AS, few))
        said = b"shb-std: there are too few addresses for its tables, which take 400 MB of them (ulimit -v)\n"
        self.assertEqual((ran.returncode, ran.stderr), (2, said))

    def test_a_limit_of_the_size_of_files(self):
        program, path = self.program("mutex_ok.c"), self.folder / "app.rec"
        for blocks, refused in ((900, True), (40000, False)):  # of 512 or 1,024 bytes
            limited = "sh", "-c", f"ulimit -f {blocks}; exec {program}"
            ran = recorder.must(recorder.call(*limited, env=recorder.settings(path)))
            self.assertEqual(b"File too large" in ran.stderr, refused)

    def test_a_limit_of_the_size_of_files_that_is_reached_later(self):
        path, limit = self.folder / "app.rec", (5000000, 5000000)
        ran = recorder.must(recorder.call(self.program("long_run.c"),
                                          env=recorder.settings(path, SHB_CELLS="0"),
                                          preexec_fn=lambda: resource.setrlimit(
                                              resource.RLIMIT_FSIZE, limit)))
        self.assertIn(b"the limit of a file's size is reached (ulimit -f); the recording ends here",
                      ran.stderr)
        self.assertIn(b"is not the whole run: the limit of a file's size",
                      recorder.part(recorder.convert(path)).stderr)

    def test_memory_is_refused_for_what_follows_openmp_or_a_fiber(self):
        """The recording ends, unless OpenMP's own library ends the program."""
        program, told = self.program("openmp_refused.c"), 0
        for words, refused in [("", k) for k in range(8)] + [("fiber", 0)]:
            ran = recorder.call(program, *words.split(),
                                env=recorder.settings(self.folder / f"{words}{refused}.rec",
                                                      REFUSED=str(refused)))
            if b"libgomp: Out of memory" not in ran.stderr:
                self.assertEqual((ran.returncode, ran.stdout), (0, b"300 12\n"), refused)
                told += ran.stderr.endswith(b"the recording ends here, the program goes on\n")
        self.assertGreater(told, 4)

    def test_a_list_of_robust_locks_is_refused(self):
        """As sandboxes do it. Threads have none then, and end."""
        refuse, number = self.folder / "refuse", "273"  # of set_robust_list
        recorder.must(recorder.call("gcc", "-O1", recorder.HERE / "refuse_call.c", "-o", refuse))
        ran = recorder.must(recorder.call(refuse, number, self.program("short_threads.c"),
                                          env=recorder.settings(self.folder / "app.rec")))
        self.assertEqual(ran.stderr, b"")
        recorder.must(recorder.convert(self.folder / "app.rec"))

    def refusing(self):
        """A library to be preloaded that refuses disk space."""
        refuse, source = self.folder / "refuse.so", recorder.HERE / "refuse_space.c"
        recorder.must(recorder.call("gcc", "-O1", "-fno-builtin", "-fPIC", "-shared", source, "-o", refuse))
        return refuse

    def very_long_run(self):
        """A program of 1.6 million accesses, and more."""
        source = recorder.PROGRAMS / "long_run.c"
        words = ["-DSTEPS=400000", "-w", "-g", "-O1", "-fsanitize=thread", "-pthread",
                 f"-B{recorder.BUILT}/lib/"]
        recorder.must(recorder.call("gcc", *words, source, "-o", self.folder / "app"))
        return self.folder / "app"

    def test_a_tenth_of_the_disk_is_left(self):
        """Of 21 MiB more than 2 are left, and 1 is the list of turns': so the record gets 35 times half a
        MiB. With 9 MiB it has more than the half."""
        path, program = self.folder / "app.rec", self.very_long_run()
        how = recorder.settings(path, LD_PRELOAD=str(self.refusing()), FREE_SPACE=str(21 << 20),
                                SHB_CELLS="0")
        half, end = recorder.must(recorder.call(program, env=how)).stderr.decode().splitlines()
        self.assertRegex(half, r"\Ashb recorder: half of the room for the record is used: it has 9 MB, and "
                               r"ends after 8 MB more ")
        self.assertEqual(end, "shb recorder: no disk space for the record (No space left on device); the "
                              "recording ends here, the program goes on")
        answer = recorder.part(recorder.convert(path))
        self.assertIn(b"is not the whole run: no disk space for the record (No space left on device)",
                      answer.stderr)
        written, whole = int(re.search(rb"shb-std: (\d+) records", answer.stderr)[1]), (35 << 19) // 16
        self.assertTrue(whole - 10 <= written <= whole, written)

    def test_a_given_number_of_records_takes_all_of_the_disk(self):
        path, program = self.folder / "app.rec", self.very_long_run()
        how = recorder.settings(path, LD_PRELOAD=str(self.refusing()), FREE_SPACE=str(21 << 20),
                                SHB_CELLS="0", SHB_RECORDS="1200000")
        ran = recorder.must(recorder.call(program, env=how))
        self.assertEqual(ran.stderr.decode().splitlines(), [
            "shb recorder: half of the room for the record is used: it has 9 MB, and ends after 8 MB more "
            "(SHB_RECORDS, disk space)",
            "shb recorder: SHB_RECORDS is reached; the recording ends here, the program goes on"])

    def test_a_disk_that_is_full_later(self):
        refuse, path = self.refusing(), self.folder / "app.rec"
        program = self.program("long_run.c")
        for request, records in ((2, 0), (3, (1 << 19) // 16)):  # the first is the header's
            how = recorder.settings(path, LD_PRELOAD=str(refuse), REFUSE_SPACE=str(request), SHB_CELLS="0")
            ran = recorder.must(recorder.call(program, env=how))
            self.assertIn(b"no disk space for the record (No space left on device); the recording ends here",
                          ran.stderr)
            answer = recorder.part(recorder.convert(path))
            self.assertIn(b"is not the whole run: no disk space for the record (No space left on device)",
                          answer.stderr)
            written = int(re.search(rb"shb-std: (\d+) records", answer.stderr)[1])
            self.assertTrue(max(0, records - 10) <= written <= records, written)
            self.assertEqual(recorder.places(answer.stdout), set())

    def test_a_limit_of_records(self):
        path = self.folder / "app.rec"
        ran = recorder.must(recorder.call(self.program("mutex_ok.c"),
                                          env=recorder.settings(path, SHB_RECORDS="1000", SHB_CELLS="0")))
        self.assertIn(b"SHB_RECORDS is reached; the recording ends here, the program goes on", ran.stderr)
        answer = recorder.part(recorder.convert(path))
        self.assertIn(b"is not the whole run: SHB_RECORDS is reached", answer.stderr)
        self.assertRegex(answer.stderr, rb"shb-std: (99\d|1000) records")
        self.assertEqual(recorder.places(answer.stdout), set())

    def test_a_long_record_does_not_stay_in_memory(self):
        program, record = self.folder / "app", self.folder / "app.rec"
        recorder.must(recorder.call("gcc", "-w", "-g", "-O1", "-DSTEPS=3000000", "-fsanitize=thread",
                                    "-pthread", f"-B{recorder.BUILT}/lib/",
                                    recorder.PROGRAMS / "long_run.c", "-o", program))
        most = recorder.most_memory(program, env=recorder.settings(record, SHB_CELLS="0"))
        self.assertGreater(record.stat().st_size, 160 << 20)
        self.assertLess(most, record.stat().st_size // 2)
        recorder.must(recorder.convert(record))

    def test_loops_that_wait_do_not_reach_it(self):
        path = self.folder / "app.rec"
        ran = recorder.must(recorder.call(self.program("spin.c"),
                                          env=recorder.settings(path, SHB_RECORDS="300")))
        self.assertEqual(ran.stderr, b"")
        self.assertEqual(recorder.places(recorder.must(recorder.convert(path)).stdout),
                         {("spin.c:13", "spin.c:13")})

    def test_too_many_threads(self):
        path = self.folder / "app.rec"
        recorder.must(recorder.call(self.program("many_threads.c"), env=recorder.settings(path)))
        answer = recorder.part(recorder.convert(path))
        self.assertIn(b"the trace is cut before a thread too many: shb takes 1,024", answer.stderr)
        self.assertIn(b"fork(T1023.work)", answer.stdout)
        self.assertNotIn(b"T1024", answer.stdout)
        self.assertEqual(recorder.places(answer.stdout), set())

    def test_more_threads_than_a_record_has_numbers(self):
        """The status is the program's own, for it can't be recorded otherwise."""
        words = [recorder.COMMAND, self.program("many_in_turn.c")]
        ran = recorder.must(recorder.call(*words, cwd=self.folder,
                                          env={**os.environ, "SHB": str(recorder.SHB)}))
        self.assertEqual(ran.stdout, b"66002\n")
        self.assertIn(b" 66,003 threads, ", ran.stderr)
        self.assertIn(b"the trace is cut before a thread too many: shb places --list takes 65,535",
                      ran.stderr)

    def test_more_detached_threads_than_numbers(self):
        path, program = self.folder / "app.rec", self.folder / "app"
        few = recorder.build_recorder(self.folder, "lib/forwarded.inc")
        text = (few / "record.h").read_text()
        (few / "record.h").write_text(text.replace("THREAD_NUMBERS 65534", "THREAD_NUMBERS 32"))
        recorder.must(recorder.call("make", "-C", few, "CFLAGS=-O1", "LTO=", "lib/libtsan.so.2"))
        recorder.build(recorder.PROGRAMS / "detached_in_turn.c", "-O1", program, few)
        self.assertEqual(recorder.must(recorder.call(program, env=recorder.settings(path))).stderr, b"")
        trace = recorder.must(recorder.convert(path)).stdout
        self.assertEqual(len(set(re.findall(rb"fork\((\S+)\)", trace))), 102)
        self.assertEqual(recorder.places(trace), {("detached_in_turn.c:21", "detached_in_turn.c:21")})

    def test_threads_whose_begin_is_not_seen(self):
        path = self.folder / "app.rec"
        for name in "sigev_thread.c", "unseen_threads.c":
            ran = recorder.must(recorder.call(self.program(name), env=recorder.settings(path)))
            self.assertRegex(ran.stderr, rb"\Ashb recorder: the program has threads whose begin isn't seen, "
                                         rb".*\n\Z")
            self.assertIn(b"is not the whole run: threads ran whose begin isn't seen",
                          recorder.part(recorder.convert(path)).stderr)
            path.unlink()

    def test_a_c_library_that_comes_first(self):
        """Then calls of the program go there, and not to the recorder's library."""
        path, program, code = self.folder / "app.rec", self.folder / "app", self.folder / "app.o"
        recorder.must(recorder.call("gcc", "-w", "-c", "-fsanitize=thread",
                                    recorder.PROGRAMS / "unseen_threads.c", "-o", code))
        recorder.must(recorder.call("gcc", code, f"-L{recorder.BUILT}/lib", "-lc", "-ltsan", "-o", program))
        ran = recorder.must(recorder.call(program, env=recorder.settings(path)))
        self.assertRegex(ran.stderr, rb"\Ashb recorder: calls of pthread_create go to the C library, .*: the "
                                     rb"program runs unrecorded\n\Z")
        self.assertIn(b"is not the whole run: the C library comes before the recorder's",
                      recorder.part(recorder.convert(path)).stderr)

    def test_modules_that_are_no_regular_files(self):
        """A record of a stranger may name any: no helper opens them, and code there is named by addresses.
        Nor is a file of the present folder taken for a module without a path."""
        program, path = self.program("mutex_ok.c"), self.folder / "app.rec"
        recorder.must(recorder.call(program, env=recorder.settings(path)))
        whole, ended = path.read_bytes(), 65536 - 256
        os.mkfifo(self.folder / "pipe")
        program.rename(self.folder / "moved")
        (self.folder / "here").symlink_to("moved")
        for other in (b"/dev/zero", os.fsencode(self.folder / "pipe"), os.fsencode(self.folder), b"here"):
            header = whole[:ended].replace(b" %b\n" % os.fsencode(program),
                                           b" %b\n" % other).rstrip(b"\0").ljust(ended, b"\0")
            path.write_bytes(header + whole[ended:])
            words = [str(recorder.BUILT / "shb-std"), "--stacks", str(self.folder / "stacks"), str(path)]
            answer = recorder.must(subprocess.run(words, cwd=self.folder, capture_output=True,
                                                  timeout=recorder.SECONDS))
            self.assertIn(b"|%b+0x" % (other.rpartition(b"/")[2] or b"here"), answer.stdout)
            self.assertNotIn(b"mutex_ok.c:", answer.stdout)

    def test_a_deadlocked_program_that_is_killed(self):
        path = self.folder / "app.rec"
        with subprocess.Popen([self.program("deadlock.c")], env=recorder.settings(path),
                              stdout=subprocess.PIPE) as running:
            self.assertEqual(running.stdout.read(2), b"..")  # each has its first lock
            running.send_signal(signal.SIGKILL)
        self.assertEqual(running.returncode, -signal.SIGKILL)
        answer = recorder.part(recorder.convert(path))
        self.assertIn(b"is not the whole run: the program was killed", answer.stderr)
        self.assertEqual(recorder.places(answer.stdout), {("deadlock.c:9", "deadlock.c:9")})

    def test_ways_out_that_leave_the_whole_run(self):
        """By _exit and by exec, tried once in vain, there is no destructor; the run up to there is whole."""
        program, path = self.program("ways_out.c"), self.folder / "app.rec"
        for way in ("_exit", "_Exit", "execl", "execlp", "execle", "execv", "execvp", "execvpe", "execve",
                    "vfork", "quick_exit"):
            with self.subTest(way):
                recorder.must(recorder.call(program, way, env=recorder.settings(path)))
                answer = recorder.must(recorder.convert(path))
                self.assertEqual(recorder.places(answer.stdout), {("ways_out.c:10", "ways_out.c:10")})

    def test_a_program_that_is_killed_after_an_exec_in_vain(self):
        program, path = self.program("ways_out.c"), self.folder / "app.rec"
        recorder.call(program, "kill", env=recorder.settings(path))
        self.assertIn(b"the program was killed", recorder.part(recorder.convert(path)).stderr)
