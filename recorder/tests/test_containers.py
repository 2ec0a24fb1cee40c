"""What the C++ library's functions without hooks do to maps, sets, lists and strings is found in each run,
and nothing else."""

import shutil

import recorder

PROGRAM = recorder.PROGRAMS / "container_uses.cc"
SEEDS = range(1, 6)
GCC = ["g++", "-B{}/lib/"]
CLANG = ["clang++", "-fno-sanitize-link-runtime", "-L{}/lib", "-Wl,--no-as-needed", "-ltsan"]


class Containers(recorder.Case):
    def build(self, source, compiler, *how):
        program = self.folder / "app"
        words = [word.format(recorder.BUILT) for word in compiler[1:]]
        recorder.must(recorder.call(compiler[0], "-w", "-g", "-fsanitize=thread", "-pthread", *how, source,
                                    "-o", program, *words))
        return program

    def record(self, program, seed, *words):
        record = self.folder / "app.rec"
        how = recorder.settings(record, seed, recorder.OWN_SLICES, LD_LIBRARY_PATH=f"{recorder.BUILT}/lib")
        ran = recorder.must(recorder.call(program, *words, env=how))
        return ran.stdout, recorder.places(recorder.must(recorder.convert(record)).stdout)

    def check(self, *how, compiler=GCC):
        lines = list(enumerate(PROGRAM.read_text().splitlines(), 1))
        missing = [f"{PROGRAM.name}:{number}" for number, line in lines if "MISSING */" in line]
        change, = (f"{PROGRAM.name}:{number}" for number, line in lines if "RACE */" in line)
        program = self.build(PROGRAM, compiler, *how)
        for use, line in zip("iew", missing):
            with self.subTest(use=use, how=how, compiler=compiler[0]):
                found = [self.record(program, seed, use)[1] for seed in SEEDS]
                self.assertEqual(found, [{tuple(sorted((change, line)))}] * len(found))
                found = [self.record(program, seed, use, "locked")[1] for seed in SEEDS]
                self.assertEqual(found, [set()] * len(SEEDS))

    def test_maps(self):
        self.check("-O1", "-DMAP")

    def test_sets(self):
        self.check("-O1", "-DSET")

    def test_lists(self):
        self.check("-O1", "-DLIST")

    def check_strings(self, compiler):
        for standard in "-std=c++17", "-std=c++20":
            for level in "-O0", "-O2":
                self.check(standard, level, compiler=compiler)

    def test_strings(self):
        self.check_strings(GCC)

    def test_strings_of_clang(self):
        if not shutil.which("clang++"):
            self.skipTest("clang++ isn't installed")
        self.check_strings(CLANG)

    def test_linked_into_the_program(self):
        """The C++ library's functions are the program's own, and it runs as before."""
        for container in "-DMAP", "-DLIST", "-DSTRING":
            self.record(self.build(PROGRAM, GCC, "-static-libstdc++", "-O1", container), 1, "i")
        exceptions = recorder.PROGRAMS / "exceptions.cc"
        self.record(self.build(exceptions, GCC, "-static-libstdc++", "-static-libgcc", "-O1"), 1)
