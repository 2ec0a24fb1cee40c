"""Names that people read: of threads, globals, heap blocks, stacks and places; and those that programs
are linked with."""

import collections
import pathlib
import re

import recorder

# What a program defines and the library calls, if it is there: nobody calls it by these names.
FOR_PROGRAMS = re.compile("__(tsan_(default_|on_|symbolize_external|test_only_on_fork)|sancov_default_|"
                          "sanitizer_(malloc_hook|free_hook|on_print|weak_hook_))")
INTERFACE = re.compile(
    "(__tsan_|__sanitizer_|__sancov_|Annotate|WTFAnnotate|RunningOnValgrind|ValgrindSlowdown"
    "|ThreadSanitizerQuery)")


# What else gcc's library exports and a program needn't find in ours, and why.
LEFT_OUT = re.compile("|".join((
    "_*(__)?interceptor_.*",  # the library's own names of functions that have another
    "__asan_.*",  # what it is made of
    "_ZN6__tsan.*",  # what a program may define for it
    "__sanitizer_syscall_.*",  # hooks of system calls; README names them
    "__isoc99_v?s?n?f?printf",  # no C library has them
    "sigsetjmp|xdr_destroy",  # macros in the C library's headers
    "__tls_get_addr",  # the loader's own
    "crypt|crypt_r",  # of libcrypt, whose versions are one function
)))


def versions(library):
    """The names that a library has, each with how many versions."""
    return collections.Counter(name.split("@")[0] for name in symbols(library))


def symbols(library):
    return recorder.must(recorder.call("nm", "-D", "--defined-only", library)).stdout.decode().split()[2::3]


def exported(library):
    """The names of the interface that a library has."""
    return {name for name in versions(library) if INTERFACE.match(name)}


def library_of_gcc(name):
    """Its path, or None."""
    found = pathlib.Path(recorder.call("gcc", f"-print-file-name={name}").stdout.decode().strip())
    return found if found.is_absolute() else None


def libraries_of_compilers():
    yield from filter(None, [library_of_gcc("libtsan.so")])
    yield from pathlib.Path("/usr/lib").glob("llvm-14/lib/clang/*/lib/linux/libclang_rt.tsan-x86_64.so")


class Names(recorder.Case):
    def test_the_names_that_programs_are_linked_with(self):
        """All but the hooks of system calls, which the README names."""
        for library in libraries_of_compilers():
            wanted = {name for name in exported(library)
                      if not FOR_PROGRAMS.match(name) and not name.startswith("__sanitizer_syscall_")}
            self.assertGreater(len(wanted), 200)
            self.assertEqual(wanted - exported(recorder.BUILT / "lib" / "libtsan.so"), set(), library)

    def test_the_names_that_gcc_finds_in_its_library(self):
        """A program asks for these without a version: each is in ours, or the C library has it in
        one version alone."""
        tsan = library_of_gcc("libtsan.so")
        if not tsan:
            self.skipTest("gcc has no libtsan")
        # the greater number
        of_c_library = versions(library_of_gcc("libc.so.6")) | versions(library_of_gcc("libm.so.6"))
        names, ours = versions(tsan), versions(recorder.BUILT / "lib" / "libtsan.so")
        wanted = {name for name in names if of_c_library[name] != 1 and not FOR_PROGRAMS.match(name)
                  and not LEFT_OUT.fullmatch(name)}
        self.assertGreater(len(wanted), 300)
        self.assertEqual(wanted - set(ours), set())

    def test_names(self):
        recorder.build(recorder.PROGRAMS / "names.c", "-O1", self.folder / "app")
        recorder.must(recorder.call(self.folder / "app", env=recorder.settings(self.folder / "app.rec")))
        trace = recorder.must(recorder.convert(self.folder / "app.rec")).stdout.decode()
        for line in (r"main\|fork\(T1\.work\)\|names\.c:24",
                     r"T1\.work\|w\(table\[1\]\.second\)\|names\.c:14",
                     r"main\|w\(table\[1\]\.second\)\|names\.c:14",
                     r"T2\.work\|w\(names\.c:22#\d+\+4\)\|names\.c:15",
                     r"T1\.work\|w\(stack\.main-0x[0-9a-f]+\)\|names\.c:16",
                     r"main\|join\(T2\.work\)\|names\.c:26"):
            self.assertRegex(trace, rf"(?m)^{line}$")
        blocks = re.findall(r"^main\|w\((names\.c:22#\d+\+4)\)", trace, re.M)
        self.assertEqual(len(set(blocks)), 2, "an address that is used again is a new variable")


class Threads(recorder.Case):
    """A thread has the name that the program gave it last, or else that of the function which it runs."""

    def test_names_of_threads(self):
        source, record = recorder.PROGRAMS / "thread_names.c", self.folder / "app.rec"
        wanted = {(name, f"thread_names.c:{number}")
                  for number, line in enumerate(source.read_text().splitlines(), 1)
                  for name in re.findall(r"/\* NAMED (.*?) \*/", line)}
        for option in ("-O0", "-O1", "-O2"):
            recorder.build(source, option, self.folder / "app")
            recorder.must(recorder.call(self.folder / "app", env=recorder.settings(record)))
            trace = recorder.must(recorder.convert(record)).stdout.decode()
            with self.subTest(option):
                self.assertEqual(set(re.findall(r"(?m)^T\d+\.(.*?)\|w\(shared\)\|(.*)$", trace)), wanted)
                self.assertEqual(set(re.findall(r"(?m)^main\|(?:fork|join)\(T\d+\.(.*)\)\|", trace)),
                                 {name for name, _ in wanted})


    def test_a_thread_of_the_cxx_library(self):
        """It has the name of the first function of the program's own that it enters."""
        source = self.folder / "own.cc"
        source.write_text("#include <thread>\nint shared;\nvoid __attribute__((noinline)) deeper() { "
                          "shared++; }\nvoid __attribute__((noinline)) work(int n) { shared += n; deeper(); "
                          "}\nnamespace { void __attribute__((noinline)) apart() { deeper(); } }\n"
                          "int main() {\n    std::thread t(work, 1), u([] { shared++; }), v(apart);\n    "
                          "t.join();\n    u.join();\n    v.join();\n}\n")
        names = ["T1.work", "T2.main::lambda", "T3.apart"]
        for option in "-O0", "-O1", "-O2":
            recorder.build(source, option, self.folder / "app")
            recorder.must(recorder.call(self.folder / "app", env=recorder.settings(self.folder / "app.rec")))
            trace = recorder.must(recorder.convert(self.folder / "app.rec")).stdout.decode()
            self.assertEqual(re.findall(r"(?m)^main\|fork\((.*?)\)", trace), names)

    def test_a_thread_that_runs_a_lambda(self):
        """It is named by the function that the lambda stands in, wherever the compiler puts it."""
        source = self.folder / "own.cc"
        source.write_text("#include <future>\n#include <thread>\n#include <vector>\nint shared;\nstatic void "
                          "start(std::vector<int> v) {\n    std::thread t([&] { shared += v[0]; });\n    "
                          "t.join();\n}\ntemplate <class F> void __attribute__((noinline)) call(F f) { "
                          "std::thread t([=] { f(1); }); t.join(); }\nstruct Pool {\n    std::thread "
                          "t{[this] { n++; shared++; }};\n    int n = 0;\n    ~Pool() { t.join(); }\n};\nint "
                          "main() {\n    start({1, 2});\n    call([](int i) { shared += i; });\n    Pool "
                          "p;\n    std::async(std::launch::async, [] { shared++; }).get();\n    "
                          "shared++;\n}\n")
        for option in "-O0", "-O1", "-O2":
            recorder.build(source, option, self.folder / "app")
            recorder.must(recorder.call(self.folder / "app", env=recorder.settings(self.folder / "app.rec")))
            stacks = self.folder / "stacks"
            trace = recorder.must(recorder.convert(self.folder / "app.rec", "-a", "--stacks",
                                                   stacks)).stdout.decode()
            found = re.findall(r"(?m)^main\|fork\((.*?)\)", trace)
            names = r"\AT1\.start::lambda\nT2\.main::lambda\nT3\.Pool::\S*lambda\nT4\.main::lambda\Z"
            self.assertRegex("\n".join(found), names, option)
            frames = re.findall(r"(?m)^frame (.*(?:lambda|operator).*)\t(own\.cc:(?:6|11|19))$",
                                stacks.read_text(errors="replace"))
            self.assertEqual(set(frames),
                             {("start::lambda", "own.cc:6"), (found[2][3:], "own.cc:11"),
                              ("main::lambda", "own.cc:19")}, option)



class Files(recorder.Case):
    """How source files are named: two that have one name, in folders of any name."""

    def record(self, folder, *words):
        """The threads' locations in a record of the program with two such files."""
        program = folder / "the program"
        sources = recorder.two_of_one_name(folder)
        recorder.must(recorder.call("gcc", "-g", "-fsanitize=thread", "-pthread", f"-B{recorder.BUILT}/lib/",
                                    *sources, "-o", program))
        recorder.must(recorder.call(program, *words, env=recorder.settings(self.folder / "app.rec")))

    def locations(self, *options):
        trace = recorder.must(recorder.convert(self.folder / "app.rec", "-a", *options)).stdout.decode()
        return set(re.findall(r"(?m)^T.*\|w\(.*\|(.*)$", trace))

    def test_two_files_of_one_name(self):
        for name in ("plain", "with two  blanks", "(in parentheses)", "it's", "-dash", "a:1", 'q"$(x)\\',
                     "line\nend", "\u00e4"):
            with self.subTest(name):
                folder = self.folder / name / "sources"
                self.record(folder)
                self.assertEqual(self.locations(), {"a/util.c:3", "b/util.c:3"})
                self.assertEqual(self.locations("--strip", folder / "a"), {"util.c:3", "b/util.c:3"})
                self.assertEqual(self.locations("--strip", self.folder),
                                 {f"{name}/sources/{file}/util.c:3".replace("\n", "!") for file in "ab"})
                self.assertEqual(self.locations("--strip", "/"),
                                 {f"{folder}/{file}/util.c:3"[1:].replace("\n", "!") for file in "ab"})

    def test_names_are_the_same_whatever_ran(self):
        self.record(self.folder / "sources", "a alone")
        self.assertEqual(self.locations(), {"a/util.c:3"})
