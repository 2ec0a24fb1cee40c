"""Each process has its own record, none is lost without a word, and nothing crashes that doesn't
crash by itself."""

import os
import pathlib
import re
import shutil
import signal
import subprocess
import unittest

import recorder

ARCHER = next(iter(sorted(pathlib.Path("/usr/lib").glob("llvm-*/lib/libarcher.so"))), None)
AS_ROOT = unittest.skipUnless(os.geteuid() == 0, "only root can give up its rights")
UNSEEN = (b"shb recorder: the program uses OpenMP's %s, of which not all is recorded: races may be false, or "
          b"missed\n")


def marked(name, word="RACE"):
    """The lines of a program that have the word."""
    lines = enumerate((recorder.PROGRAMS / name).read_text().splitlines(), 1)
    return {f"{name}:{number}" for number, line in lines if word in line}


def racing_lines(record, must=recorder.must):
    trace = must(recorder.convert(record)).stdout
    return {line for pair in recorder.places(trace) for line in pair}


def command_of(record):
    """The command line in a record."""
    return re.search(rb"^command (.*)$", record.read_bytes()[:65536], re.M)[1].split()


class Processes(recorder.Case):
    def program(self, name, *words, compiler="gcc"):
        """Builds a program as for gcc's own library."""
        out = self.folder / pathlib.Path(name).stem
        recorder.must(recorder.call(compiler, "-w", "-g", "-O1", "-fsanitize=thread", "-pthread",
                                    recorder.PROGRAMS / name, "-o", out, *words))
        return out

    def settings(self, name="%p.rec", **more):
        """Our library under the name of gcc's, and a record for each process."""
        return recorder.settings(self.folder / name, LD_LIBRARY_PATH=str(recorder.BUILT / "lib"), **more)

    def records(self):
        return sorted(self.folder.glob("*.rec"))

    def test_each_process_has_its_record(self):
        ran = recorder.must(recorder.call(self.program("processes.c"), env=self.settings()))
        self.assertEqual(ran.stderr, b"")
        children = marked("processes.c", "races in the child")
        found = sorted((len(command_of(record)), sorted(racing_lines(record))) for record in self.records())
        parent, child = sorted(marked("processes.c")), sorted(children)
        self.assertEqual(found, sorted([(1, parent), (1, child), (1, child), (2, [])]))  # the last by exec

    def test_a_process_made_without_handlers_of_fork_writes_nothing_into_its_parents_record(self):
        program = self.program("clones.c")
        for number, way in enumerate(("clone", "_Fork", "fork as a system call", "clone as one")):
            with self.subTest(way):
                ran = recorder.must(recorder.call(program, number,
                                                  env=self.settings(f"{number}.rec", SHB_CELLS="0")))
                self.assertEqual((ran.stderr, racing_lines(self.folder / f"{number}.rec")),
                                 (b"", marked("clones.c")))

    def test_a_daemon(self):
        program = self.program("daemon.c")
        with subprocess.Popen([program], env=self.settings(), stdout=subprocess.PIPE) as running:
            self.assertEqual(running.stdout.read(), b"done\n")  # the daemon's own output
        self.assertEqual(sorted(map(sorted, map(racing_lines, self.records()))),
                         [[], sorted(marked("daemon.c"))])

    def test_a_path_that_is_not_absolute(self):
        program = self.program("daemon.c")  # which changes its folder before it starts threads
        how = dict(self.settings(), SHB_RECORD="%p.rec")
        ran = recorder.must(recorder.call(program, env=how, cwd=self.folder))
        self.assertEqual((ran.stdout, ran.stderr, len(self.records())), (b"done\n", b"", 2))

    def test_a_child_without_a_record_says_so(self):
        ran = recorder.must(recorder.call(self.program("daemon.c"), env=self.settings("one.rec")))
        self.assertEqual(ran.stderr.count(b"a process made by fork starts threads and runs unrecorded"), 1)

    def test_a_child_does_anew_what_its_parent_was_at(self):
        program = self.program("once_in_child.c")
        for name in "%p.rec", "one.rec":
            ran = recorder.must(recorder.call("timeout", "60", program, env=self.settings(name)))
            self.assertEqual(ran.stderr, b"")

    @AS_ROOT
    def test_a_child_that_gives_up_its_rights_or_its_root_before_it_starts_threads(self):
        program = self.program("gives_up.c")
        for way in "setuid", "chroot":
            with self.subTest(way):
                ran = recorder.must(recorder.call(program, way, env=self.settings(f"{way}%p.rec")))
                lines = sorted(sorted(racing_lines(record)) for record in self.folder.glob(f"{way}*.rec"))
                self.assertEqual((ran.stderr, lines), (b"", [[], sorted(marked("gives_up.c"))]))

    @AS_ROOT
    def test_the_run_is_not_whole_if_a_child_with_threads_can_have_no_record(self):
        program = self.program("gives_up.c")
        for words in (), ("its parent has ended",):
            with self.subTest(words):
                ran = recorder.call(recorder.COMMAND, "-o", self.folder / "results", program, "call", *words,
                                    env={**os.environ, "SHB": str(recorder.SHB)})
                self.assertEqual(ran.returncode, 125, ran.stderr)
                self.assertIn(b"is not the whole run: a process made by fork starts threads and has no "
                              b"record", ran.stderr)

    def test_a_record_in_use_is_not_cut(self):
        program, second = self.program("deadlock.c"), self.program("mutex_ok.c")
        how = self.settings("one.rec")
        with subprocess.Popen([program], env=how, stdout=subprocess.PIPE) as running:
            self.addCleanup(running.kill)
            self.assertEqual(running.stdout.read(2), b"..")  # it has its record, and waits
            ran = recorder.call(second, env=how)
            running.send_signal(signal.SIGKILL)
        self.assertIn(b"another process records to " + os.fsencode(self.folder / "one.rec"), ran.stderr)
        self.assertEqual(command_of(self.folder / "one.rec"), [os.fsencode(program)])
        self.assertEqual(racing_lines(self.folder / "one.rec", recorder.part), {"deadlock.c:9"})

    def test_a_record_of_another_command_is_not_replaced_in_silence(self):
        program, other, how = self.program("status.c"), self.program("mutex_ok.c"), self.settings("one.rec")
        for words, replaced in (([program, "0", "race"], None), ([program, "0", "race"], None),  # a run again
                                ([program, "5", "race"], b"/status 0 race"), ([other], b"/status 5 race")):
            said = recorder.call(*words, env=how).stderr
            if replaced is None:
                self.assertEqual(said, b"")
            else:
                self.assertRegex(said, rb"^shb recorder: in \S+/one.rec the record of another command is "
                                       rb"replaced "
                                 rb"\(\S*" + replaced + rb"\); %p in the path gives each process a record of "
                                                        rb"its own\n$")
            self.assertEqual(command_of(self.folder / "one.rec"), [os.fsencode(str(word)) for word in words])

    def test_a_library_in_cxx_loaded_by_a_program_in_c(self):
        library = self.program("plugin.cc", "-shared", "-fPIC", compiler="g++")
        program = self.program("plugin_host.c", "-ldl")
        how = self.settings()
        recorder.must(recorder.call(program, library, env={**how, "SHB_RECORD": ""}))
        recorder.must(recorder.call(program, library, env=how))
        self.assertEqual(racing_lines(*self.records()), marked("plugin.cc"))

    def test_plugins_that_come_and_go(self):
        plugins = [self.program(f"plugin_{name}.c", "-shared", "-fPIC") for name in ("one", "two")]
        program = self.program("plugins.c", "-ldl")
        recorder.must(recorder.call(program, *plugins, env=self.settings()))
        self.assertEqual(racing_lines(*self.records()), marked("plugin_two.c"))

    def test_the_cxx_library_linked_into_the_program(self):
        program, how = self.program("cxx.cc", "-static-libstdc++", compiler="g++"), self.settings()
        recorder.must(recorder.call(program, env={**how, "SHB_RECORD": ""}))
        recorder.must(recorder.call(program, env=how))
        self.assertEqual(racing_lines(*self.records()), marked("cxx.cc"))

    def test_openmp_that_is_not_seen_is_told(self):
        ran = recorder.must(recorder.call(self.program("openmp_taskloop.c", "-fopenmp"), env=self.settings()))
        self.assertEqual(ran.stderr, UNSEEN % b"taskloop")

    def test_openmp_regions_that_are_not_seen_are_told_once_each(self):
        ran = recorder.must(recorder.call(self.program("openmp_unseen.c", "-fopenmp"), env=self.settings()))
        self.assertEqual(ran.stderr, UNSEEN % b"teams" + UNSEEN % b"target regions" + UNSEEN % b"events")

    def test_openmp_of_clang_with_archer(self):
        if not shutil.which("clang") or not ARCHER:
            self.skipTest("clang or its libarcher.so isn't installed")
        program = self.folder / "openmp"
        library = f"-L{recorder.BUILT}/lib"
        recorder.must(recorder.call("clang", "-w", "-g", "-O1", "-fopenmp", "-fsanitize=thread",
                                    "-fno-sanitize-link-runtime",
                                    recorder.PROGRAMS / "openmp.c", "-o", program, library, "-ltsan"))
        more = {"OMP_TOOL_LIBRARIES": str(ARCHER), "TSAN_OPTIONS": "ignore_noninstrumented_modules=1"}
        recorder.must(recorder.call(program, env={**self.settings(), **more}))
        self.assertEqual(racing_lines(*self.records()), marked("openmp.c"))
