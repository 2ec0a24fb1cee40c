"""A recorded program behaves, finds its files and ends as it does without the recorder."""

import re

import recorder


class Unchanged(recorder.Case):
    def program(self, name, *words):
        """Builds a program as for gcc's own library."""
        out = self.folder / name.split(".")[0]
        recorder.must(recorder.call("gcc", "-w", "-g", "-O1", "-fsanitize=thread", "-pthread",
                                    recorder.PROGRAMS / name, "-o", out, *words))
        return out

    def settings(self, **more):
        """Our library under the name of gcc's."""
        return {**recorder.settings(self.folder / "app.rec", LD_LIBRARY_PATH=str(recorder.BUILT / "lib")),
                **more}

    def run_recorded(self, *words, **more):
        (self.folder / "app.rec").unlink(missing_ok=True)
        return recorder.must(recorder.call(*words, env=self.settings(**more), cwd=self.folder))

    def racing_lines(self, answer=None):
        """The lines with races of the record, which are marked in the program."""
        trace = (answer or recorder.must(recorder.convert(self.folder / "app.rec"))).stdout
        return {line for pair in recorder.places(trace) for line in pair}

    def marked(self, name):
        lines = enumerate((recorder.PROGRAMS / name).read_text().splitlines(), 1)
        return {f"{name}:{number}" for number, line in lines if "RACE" in line}


class OwnFiles(Unchanged):
    """The record's descriptor is never one that the program was given."""

    def test_a_program_that_closes_what_it_inherited(self):
        program = self.program("own_files.c")
        for way in ("nothing", "close", "closefrom", "close_range", "dup2", "dup3", "syscall"):
            with self.subTest(way):
                ran = self.run_recorded(program, way, "data")
                self.assertEqual((ran.stdout, ran.stderr), (b"3: 1048576 of 1048576\n", b""))
                self.assertEqual((self.folder / "data").read_bytes(), b"x" * (1 << 20))
                self.assertEqual(self.racing_lines(), self.marked("own_files.c"))

    def test_a_record_that_has_another_path(self):
        """It can't be opened again: its descriptor was spared."""
        program = self.program("own_files.c")
        for way in ("close", "closefrom", "close_range", "dup2", "dup3"):
            with self.subTest(way):
                self.assertEqual(self.run_recorded(program, way, "moved.rec", "app.rec").stderr, b"")
                answer = recorder.must(recorder.convert(self.folder / "moved.rec"))
                self.assertEqual(self.racing_lines(answer), self.marked("own_files.c"))

    def test_a_record_that_is_gone_ends_the_recording(self):
        ran = self.run_recorded(self.program("own_files.c"), "syscall", "moved.rec", "app.rec", SHB_CELLS="0")
        self.assertEqual(ran.stdout, b"3: 1048576 of 1048576\n")
        self.assertEqual((self.folder / "other").read_bytes(), b"x" * (1 << 20))
        self.assertEqual(ran.stderr, b"shb recorder: no disk space for the record (No such file or "
                                     b"directory); the recording ends here, the program goes on\n")
        answer = recorder.part(recorder.convert(self.folder / "moved.rec"))
        self.assertEqual(self.racing_lines(answer), self.marked("own_files.c"))


class OwnLimits(Unchanged):
    """A limit that a program sets on itself ends the recording at most."""

    def ends(self, way, reason):
        program = self.program("own_limits.c")
        if recorder.call(program, way, env=self.settings(SHB_RECORD="")).returncode:
            self.skipTest(f"{way} isn't possible here")
        ran = self.run_recorded(program, way, SHB_CELLS="1024" if "mlockall" in way else "0")
        said = (b"shb recorder: " + reason + b"; the recording ends here, the program goes on\n" if reason
                else b"")
        self.assertEqual(ran.stderr, said)
        answer = recorder.convert(self.folder / "app.rec")
        self.assertIn(b"is not the whole run: " + reason if reason else b"events", answer.stderr)
        return ran.stdout, self.racing_lines(answer)

    def test_the_size_of_files(self):
        reason = b"the limit of a file's size is reached (ulimit -f)"
        self.assertEqual(self.ends("fsize", reason), (b"ended\n", self.marked("own_limits.c")))

    def test_memory_that_is_locked(self):
        self.assertEqual(self.ends("mlockall", b""), (b"locked\nended\n", self.marked("own_limits.c")))

    def test_a_limit_of_locked_memory(self):
        reason = b"the program locks its memory (mlockall), and the record takes more than it may lock"
        self.assertEqual(self.ends("mlockall-limited", reason), (b"locked\nended\n", set()))

    def test_a_limit_of_addresses(self):
        self.assertEqual(self.ends("addresses", b""), (b"ended\n", self.marked("own_limits.c")))

    def test_more_addresses_in_reserve_than_a_block_has(self):
        self.assertEqual(self.ends("reserve", b""), (b"ended\n", self.marked("own_limits.c")))

    def test_system_calls(self):
        for way in ("prctl", "seccomp"):
            with self.subTest(way):
                self.assertEqual(self.ends(way, b"the program limits its system calls (seccomp)"),
                                 (b"ended\n", set()))


class Names(Unchanged):
    """A program that was linked with gcc's libtsan gets the functions that it gets alone."""

    def test_functions_that_the_c_library_has_in_two_versions(self):
        ran = self.run_recorded(self.program("versions.c"))
        self.assertEqual((ran.stdout, ran.stderr), (b"bye\n", b""))
        self.assertEqual(self.racing_lines(), self.marked("versions.c"))

    def test_the_cxx_library_linked_into_a_program_that_was_linked_with_libtsan(self):
        program = self.folder / "news"
        source = recorder.PROGRAMS / "news.cc"
        recorder.must(recorder.call("g++", "-w", "-g", "-O1", "-fsanitize=thread", "-static-libstdc++",
                                    source, "-o", program))
        self.assertEqual(self.run_recorded(program).stdout, b"8 blocks\n")

    def built(self, source, *words):
        """A program in C++, and what it prints where it isn't recorded."""
        out = self.folder / source.split(".")[0]
        sources = ["-w", "-g", "-O1", "-std=c++17", "-pthread", recorder.PROGRAMS / source, *words]
        recorder.must(recorder.call("g++", *sources, "-o", self.folder / "alone"))
        recorder.must(recorder.call("g++", "-fsanitize=thread", *sources, "-o", out))
        return out, recorder.must(recorder.call(self.folder / "alone",
                                                env=self.settings(
                                                    SHB_RECORD="", LD_LIBRARY_PATH=str(self.folder)))).stdout

    def test_an_allocator_of_the_programs_own(self):
        """In the program or in a library: what `new` gave is what `delete` takes, and a block's size is asked
        of the one that gave it."""
        library, part = self.folder / "liballocator.so", self.folder / "allocator.o"
        recorder.must(recorder.call("gcc", "-shared", "-fPIC", "-O1", recorder.PROGRAMS / "allocator.c", "-o",
                                    library))
        recorder.must(recorder.call("gcc", "-c", "-O1", recorder.PROGRAMS / "allocator.c", "-o", part))
        for source in ("news.cc", "allocated.cc"):
            for where in (library, part):
                with self.subTest(source=source, where=where.name):
                    program, alone = self.built(source, where)
                    ran = self.run_recorded(program)
                    self.assertEqual((ran.stdout, ran.stderr), (alone, b""))

    def test_forms_of_new_and_delete_of_the_programs_own(self):
        """The other forms, also that of a delete with a size, are made of these."""
        program, alone = self.built("replaced.cc")
        ran = self.run_recorded(program)
        self.assertEqual((ran.stdout, ran.stderr), (alone, b""))


class Library(Unchanged):
    """Functions of the C library do what they do alone, with what they accept, refuse or fault at."""

    def test_calls_of_the_c_library(self):
        for words in (["-O0"], ["-O2"], ["-O2", "-D_FORTIFY_SOURCE=2"]):
            with self.subTest(words):
                program = self.program("library_unchanged.c", *words)
                alone = recorder.must(recorder.call(program, env=self.settings(SHB_RECORD=""),
                                                    cwd=self.folder))
                ran = self.run_recorded(program)
                self.assertIn(b"errno 77\nended\n", alone.stdout)
                self.assertEqual((ran.stdout, ran.stderr), (alone.stdout, b""))
                self.assertEqual(self.racing_lines(), self.marked("library_unchanged.c"))


class NoRights(Unchanged):
    """A program may give up its rights, and /proc: threads that sleep are known as such, and no others."""

    def run_without(self, what):
        """Runs the program that gives this up."""
        program = self.program("no_proc.c")
        if recorder.call(program, what, env=self.settings(SHB_RECORD="")).returncode == 2:
            self.skipTest("it takes root's rights")
        return self.run_recorded(program, what)

    def test_a_program_that_gives_up_proc_or_its_rights(self):
        for what in ("chroot", "setuid", "both"):
            with self.subTest(what):
                ran = self.run_without(what)
                self.assertEqual(ran.stderr, b"")
                answer = recorder.must(recorder.convert(self.folder / "app.rec"))
                self.assertEqual(self.racing_lines(answer), self.marked("no_proc.c"))
                filled, expected = 0, []
                for thread in re.findall(r"^(\w+)\S*\|[wr]\(block\[67108863\]\)", answer.stdout.decode(),
                                         re.M):
                    filled += thread != "main"
                    expected += [filled] * (thread == "main")
                self.assertEqual([int(value) for value in ran.stdout.split()], expected)

    def test_where_nothing_tells_who_sleeps_the_recording_ends(self):
        reason = b"a thread's state cannot be read in /proc"
        ran = self.run_without("close")
        self.assertEqual(ran.stderr, b"shb recorder: " + reason + b"; the recording ends here, the program "
                                                                  b"goes on\n")
        answer = recorder.part(recorder.convert(self.folder / "app.rec"))
        self.assertIn(b"is not the whole run: " + reason, answer.stderr)
        self.assertLessEqual(self.racing_lines(answer), self.marked("no_proc.c"))
