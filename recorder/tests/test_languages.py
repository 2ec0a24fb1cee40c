"""Other languages whose compilers insert the same calls: a planted race is found at its line, in the
program's own file and by the program's own name, and a right program has none."""

import os
import re
import shutil

import recorder

LANGUAGES = recorder.HERE / "languages"
MOST_RUNS = 20  # until all planted races are found
RIGHT_RUNS = 3
SANITIZED = ["-g", "-Og", "-fsanitize=thread"]
RUST = ["-g", "-Copt-level=1", "-Zsanitizer=thread", "-Cunsafe-allow-abi-mismatch=sanitizer",
        "-Zexternal-clangrt"]


class Languages(recorder.Case):
    def need(self, compiler):
        if not shutil.which(compiler):
            self.skipTest(f"{compiler} isn't installed")

    def check(self, name, *words):
        """Builds a program, and compares what its runs show with the marks of its source."""
        source, program, record, page = (LANGUAGES / name, self.folder / "app", self.folder / "app.rec",
                                         self.folder / "page.std")
        marks = re.findall(r"^.*RACE (.*)$", source.read_text(), re.M)
        lines = {f"{name}:{n}" for n, line in enumerate(source.read_text().splitlines(), 1)
                 if " RACE " in line}
        recorder.must(recorder.call(*words, cwd=self.folder, env={**os.environ, "RUSTC_BOOTSTRAP": "1"}))
        found, names, run = set(), set(), 0
        while run < (RIGHT_RUNS if not lines or found == lines else MOST_RUNS):
            run += 1
            how = {**recorder.settings(record, run, recorder.OWN_SLICES),
                   "LD_LIBRARY_PATH": f"{recorder.BUILT}/lib"}
            recorder.must(recorder.call(program, env=how))
            for pair, variable in recorder.listed(record, page):
                found.update(pair)
                names.add(variable)
        self.assertEqual((found, names), (lines, set(marks)))

    def fortran(self, name):
        self.need("gfortran")
        self.check(name, "gfortran", *SANITIZED, "-fopenmp", LANGUAGES / name, "-o", "app")

    def ada(self, name):
        self.need("gnatmake")
        self.check(name, "gnatmake", "-q", f"-aI{LANGUAGES}", LANGUAGES / name, "-o", "app", "-cargs",
                   *SANITIZED,
                   "-largs", "-fsanitize=thread")

    def rust(self, name):
        self.need("rustc")
        linked = f"-Zpre-link-args=-L{recorder.BUILT}/lib -Wl,--no-as-needed -ltsan"
        self.check(name, "rustc", *RUST, linked, LANGUAGES / name, "-o", "app")


class Text(recorder.Case):
    """What shb-record prints of a program whose library has no hooks."""

    def recorded(self, compiler, *words):
        if not shutil.which(compiler):
            self.skipTest(f"{compiler} isn't installed")
        recorder.must(recorder.call(compiler, *words, cwd=self.folder,
                                    env={**os.environ, "RUSTC_BOOTSTRAP": "1"}))
        how = {**os.environ, "SHB": str(recorder.SHB)}
        said = recorder.call(recorder.COMMAND, "-o", "out", "./app", cwd=self.folder, env=how).stderr.decode()
        return said

    def test_gcc_s_libraries_order_nothing_unseen(self):
        said = self.recorded("gfortran", *SANITIZED, "-fopenmp", LANGUAGES / "race_sum.f90", "-o", "app")
        self.assertIn("race_sum.f90:15", said)
        self.assertNotIn("Perhaps ordered", said)
        self.assertNotIn("libgfortran", said)

    def test_rust_s_library_without_hooks(self):
        linked = f"-Zpre-link-args=-L{recorder.BUILT}/lib -Wl,--no-as-needed -ltsan"
        said = self.recorded("rustc", *RUST, linked, LANGUAGES / "race_static.rs", "-o", "app")
        self.assertIn("race_static.rs:8", said)
        self.assertIn("Rust's own library in app has no hooks", said)
        self.assertRegex(said, r"race_static.rs:8: (reads and )?writes by (main and T1|T1 and main)\n")


def add_tests():
    """One for each program."""
    for source in sorted(LANGUAGES.glob("r*")):
        check = {".f90": Languages.fortran, ".adb": Languages.ada, ".rs": Languages.rust}.get(source.suffix)
        if check:
            setattr(Languages,
                    f"test_{source.name.replace('.', '_')}", lambda self, name=source.name, run=check: run(
                        self, name))


add_tests()
