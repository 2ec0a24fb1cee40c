"""Debug information in each form of it: names are read, or a line says of which module they
aren't, and why."""

import re
import shutil
import sys

import recorder

sys.path.insert(0, str(recorder.PYTHON))
from shb_common.stacks import Stacks  # noqa: E402


class Names(recorder.Case):
    """A static, an array, a block and a local have their names."""

    def build(self, compiler, options):
        library, program = recorder.BUILT / "lib", self.folder / "app"
        linked = ([f"-B{library}/"] if compiler == "g++"
                  else ["-fno-sanitize-link-runtime", f"-L{library}", "-ltsan"])
        flags = ["-w", "-O1", "-fsanitize=thread", "-pthread", *options]
        recorder.must(recorder.call(compiler, *flags, "-c", recorder.PROGRAMS / "forms.cc", cwd=self.folder))
        recorder.must(recorder.call(compiler, *flags, "forms.o", *linked, "-o", program, cwd=self.folder))
        return program

    def found(self, program):
        """By line, the names of what is written there; and what is said of the debug information."""
        record, path, found = self.folder / "app.rec", self.folder / "app.stacks", {}
        recorder.must(recorder.call(program, env=recorder.settings(record, SHB_CELLS="0")))
        answer = recorder.must(recorder.convert(record, "-a", "--stacks", path))
        lines = answer.stdout.splitlines()
        stacks = Stacks(path, len(lines))
        for event, line in enumerate(lines, 1):
            access = re.fullmatch(rb"[^|]*\|w\((.*?)\)\|(forms\.cc:\d+)", line)
            if access:
                name = stacks.local_of(access[1], event) or stacks.lasting_locals.get(access[1], access[1])
                found.setdefault(access[2].decode(), set()).add(re.sub(r"[#~].*", "", name.decode()))
        return found, re.findall(r", for its debug information (.*)\n", answer.stderr.decode())

    def check(self, *options, compilers=("g++", "clang++"), work=lambda program: None, unread=None):
        """`unread` is a form that some versions of libdw don't read: then that is said."""
        wanted = recorder.marked(recorder.PROGRAMS / "forms.cc", "IS")
        self.assertEqual(len(wanted), 5)
        for compiler in compilers:
            if shutil.which(compiler):
                with self.subTest(compiler=compiler, options=options):
                    program = self.build(compiler, options)
                    found, said = self.found(work(program) or program)
                    if unread and said:
                        self.assertRegex("\n".join(said),
                                         rf"\A.* that this version of libdw doesn't read \({unread}\)\Z")
                        continue
                    self.assertEqual(({place: found.get(place) for place in wanted}, said), (wanted, []))

    def test_versions(self):
        for version in 3, 4, 5:
            self.check("-g", f"-gdwarf-{version}")

    def test_compressed(self):
        self.check("-g", "-gz")

    def test_64_bits(self):
        for version in 4, 5:
            self.check(f"-gdwarf-{version}", "-gdwarf64")

    def test_types_in_units_of_their_own(self):
        for version in 4, 5:
            self.check(f"-gdwarf-{version}", "-fdebug-types-section")

    def share(self, program, *options):
        """Puts what the program has in common with another one into a third file."""
        other = self.folder / "other"
        shutil.copy(program, other)
        recorder.must(recorder.call("dwz", *options, "-m", self.folder / "shared.debug", "-M", "shared.debug",
                                    program, other))

    def test_shared_by_files(self):
        if not shutil.which("dwz"):
            self.skipTest("dwz isn't installed")
        self.check("-gdwarf-4", work=self.share)
        self.check("-gdwarf-5", compilers=["g++"], work=self.share)
        self.check("-gdwarf-5", compilers=["g++"], work=lambda program: self.share(program, "--dwarf-5"),
                   unread="dwz --dwarf-5")

    def test_shared_file_that_is_another_or_not_there(self):
        """Nothing of it is read."""
        if not shutil.which("dwz"):
            self.skipTest("dwz isn't installed")
        program, shared = self.build("g++", ["-g"]), self.folder / "shared.debug"
        self.share(program)
        self.assertEqual(self.found(program)[1], [])
        good = shared.read_bytes()
        identity = bytes.fromhex(re.search(r"Build ID: (\w+)",
                                           recorder.must(
                                               recorder.call("readelf", "-n", shared)).stdout.decode())[1])
        self.assertEqual(good.count(identity), 1)
        for content in good.replace(identity, identity[::-1]), None:
            shared.write_bytes(content) if content else shared.unlink()
            found, said = self.found(program)
            self.assertEqual(said, ["is in part in a file that isn't there, or not of this build (dwz -m)"])
            self.assertIn({"one+8"}, found.values())

    def test_split(self):
        for version in 4, 5:
            for more in (), ("-fdebug-types-section",):
                self.check(f"-gdwarf-{version}", "-gsplit-dwarf", *more,
                           unread="-gsplit-dwarf( -fdebug-types-section)?" if more else None)
        self.check("-g", "-gsplit-dwarf=single", compilers=["clang++"], unread="-gsplit-dwarf=single")

    def test_split_files_beside_the_program(self):
        def moved(program):
            folder = self.folder / "elsewhere"
            shutil.rmtree(folder, ignore_errors=True)
            folder.mkdir()
            for path in program, self.folder / "forms.dwo":
                path.rename(folder / path.name)
            return folder / program.name
        self.check("-g", "-gsplit-dwarf", work=moved)

    def test_packages_of_split_files(self):
        def pack(tool, program):
            recorder.must(recorder.call(tool, "-e", program, "-o", f"{program}.dwp", cwd=self.folder))
            (self.folder / "forms.dwo").unlink()
        for tool, version, compilers in ("dwp", 4, ["g++", "clang++"]), ("llvm-dwp", 5, ["clang++"]):
            for more in (), ("-fdebug-types-section",):
                if shutil.which(tool):
                    self.check(f"-gdwarf-{version}", "-gsplit-dwarf", *more, compilers=compilers,
                               work=lambda program: pack(tool, program), unread=".dwp")

    def test_split_file_of_another_build_or_not_there(self):
        """Nothing of it is read."""
        for version in 4, 5:
            program, split, kept = (self.build("g++", [f"-gdwarf-{version}", "-gsplit-dwarf"]),
                                    self.folder / "forms.dwo", self.folder / "kept")
            program.rename(kept)
            self.assertEqual(self.found(kept)[1], [])
            self.build("g++", [f"-gdwarf-{version}", "-gsplit-dwarf", "-O0"])
            for is_there in True, False:
                if not is_there:
                    split.unlink()
                found, said = self.found(kept)
                self.assertEqual(said, ["is in other files that aren't there, not of this build, or of a "
                                        "form that this version of libdw doesn't read (-gsplit-dwarf)"])
                self.assertIn({"one+8"}, found.values())

    def test_link_time_optimisation(self):
        self.check("-g", "-flto", compilers=["g++"])
        if shutil.which("ld.lld"):
            for option in "-flto", "-flto=thin":
                self.check("-g", option, "-fuse-ld=lld", compilers=["clang++"])


UNREAD = {("-g0",): "isn't there (no -g); lines are addresses too: compile with -g",
          ("-g1",): "has no types (-g1)"}


class Said(recorder.Case):
    """Debug information that isn't read, or only where a file is found."""

    def found(self, *options, work=lambda program: None):
        """Whether the member has its name, and what is said of the debug information."""
        source, program, record = self.folder / "st.c", self.folder / "st", self.folder / "app.rec"
        source.write_text("#include <pthread.h>\nstruct pair { int a, b; } st;\nvoid *run(void *p) { st.b++; "
                          "return p; }\nint main(void) {\n    pthread_t t;\n    pthread_create(&t, 0, run, "
                          "0);\n    st.b++;\n    return pthread_join(t, 0);\n}\n")
        recorder.must(recorder.call("gcc", "-w", "-O1", "-fsanitize=thread", f"-B{recorder.BUILT}/lib/",
                                    *options, source, "-o", program,
                                    cwd=self.folder))
        work(program)
        recorder.must(recorder.call(program, env=recorder.settings(record)))
        answer = recorder.must(recorder.convert(record))
        said = re.findall(rf"(?m)^shb-std: {program}: .*, for its debug information (.*)$",
                          answer.stderr.decode())
        return b"|w(st.b)|" in answer.stdout, said

    def test_forms_that_are_not_read_are_said(self):
        for options, why in UNREAD.items():
            self.assertEqual(self.found(*options), (False, [why]), options)

    def test_an_old_form(self):
        self.assertEqual(self.found("-gdwarf-2"), (True, []))

    def test_a_file_of_its_own(self):
        def apart(program, is_there):
            own = program.with_suffix(".debug")
            recorder.must(recorder.call("objcopy", "--only-keep-debug", program, own))
            recorder.must(recorder.call("strip", "-g", program))
            recorder.must(recorder.call("objcopy", f"--add-gnu-debuglink={own}", program))
            if not is_there:
                own.unlink()
        self.assertEqual(self.found("-g", work=lambda program: apart(program, True)), (True, []))
        self.assertEqual(self.found("-g", work=lambda program: apart(program, False)),
                         (False, ["is in a file that isn't there (.gnu_debuglink)"]))
