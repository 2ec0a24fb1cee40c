"""What shb-record asks of modules: their kinds, and what they call and export. What can't be read is left
out, and none of it ends the command."""

import os
import random
import shutil

import recorder
from shb_record import modules

# names are as long as those that a test puts in their place
LIBRARY = """static const char text[] = "__tsan_init";
static int own(void) { return text[0]; }
int box_put(void) { return own(); }
int box_get(void) { return own() + 1; }
"""
PROGRAM = """extern "C" int box_put(), box_get();
struct pair { int one; pair(int); template <class T> int get(T more); };
__attribute__((noinline)) pair::pair(int k) : one(k + box_put()) {}
template <class T> __attribute__((noinline)) int pair::get(T more) { return box_get() + more + 1; }
int main(int count, char **) { pair p(count); return p.get(count); }
"""
CALLS = {b"pair::pair": {b"libbox.so"}, b"int pair::get<>": {b"libbox.so"}}


def names(path, question, what):
    """What the reader that was built for the tests tells of a module."""
    return sorted(modules.told(os.fsencode(path), question)[what])


class Linked(recorder.Case):
    def setUp(self):
        super().setUp()
        modules.READER = recorder.BUILT / "module-reader"
        self.library, self.program = self.folder / "libbox.so", self.folder / "use"
        self.compile("gcc", LIBRARY, "-shared", "-fPIC", "-Wl,-soname,libbox.so", "-o", self.library)
        self.build()

    def compile(self, compiler, text, *words):
        source = self.folder / {"gcc": "box.c", "g++": "use.cc"}[compiler]
        source.write_text(text)
        recorder.must(recorder.call(compiler, "-w", source.name, *words, cwd=self.folder))

    def build(self, *words):
        modules.told.cache_clear()
        self.compile("g++", PROGRAM, "-g", "-O1", "-fsanitize=thread", *words, self.library, "-o",
                     self.program)

    def test_kinds(self):
        """A name of a hook in a text is none."""
        kind = modules.told(os.fsencode(self.library), "kind")
        self.assertEqual(set(kind), {b"bare", b"file"})
        self.assertIn(b"box.c", kind[b"file"])
        kind = modules.told(os.fsencode(self.program), "kind")
        self.assertEqual(set(kind), {b"hooked", b"compiled with hooks", b"program", b"library", b"file"})
        self.assertIn(b"use.cc", kind[b"file"])
        self.assertLessEqual({b"libbox.so", b"libtsan.so.2", b"libc.so.6"}, set(kind[b"library"]))
        recorder.must(recorder.call("strip", self.program))
        modules.told.cache_clear()
        kind = modules.told(os.fsencode(self.program), "kind")
        self.assertEqual(set(kind), {b"hooked", b"nameless", b"program", b"library"})

    def test_a_program_that_is_only_linked_with_the_flag(self):
        """What gcc adds to it calls the hook that comes first."""
        program = self.folder / "linked"
        self.compile("g++", PROGRAM, "-g", "-c", "-o", self.folder / "use.o")
        recorder.must(recorder.call("g++", "-fsanitize=thread", self.folder / "use.o", self.library, "-o",
                                    program))
        self.assertEqual(set(modules.told(os.fsencode(program), "kind")),
                         {b"bare", b"program", b"library", b"file"})

    def test_files_that_were_compiled_without_the_flag(self):
        """gcc says so of each file. One of which nothing is said isn't named, nor is assembler."""
        for name, text in ("box.c", LIBRARY), ("box.s", ".globl box_put\nbox_put: ret\n"):
            (self.folder / name).write_text(text)
        for name, words, wanted in (
                ("box.c", (), [b"box.c"]), ("box.c", ("-fsanitize=thread", "-fno-sanitize=all"), [b"box.c"]),
                ("box.c", ("-fsanitize=undefined", "-gsplit-dwarf"), [b"box.c"]),
                ("box.c", ("-fsanitize=undefined,thread",), []),
                ("box.c", ("-fsanitize=thread", "-flto"), []),
                ("box.c", ("-gno-record-gcc-switches",), []), ("box.s", (), [])):
            with self.subTest(words):
                recorder.must(recorder.call("gcc", "-g", *words, "-c", name, "-o", "more.o",
                                            cwd=self.folder))
                self.build("more.o", "-lubsan")
                self.assertEqual(names(self.program, "kind", b"compiled without hooks"), wanted)
                its = modules.Modules()
                its.add([os.fsencode(self.program)])
                self.assertEqual(list(its.lines()), ["Compiled without -fsanitize=thread, so not seen: box.c "
                                                     "(1 of 2 files)."] * len(wanted))

    def test_exports(self):
        """Neither its own functions nor those that it calls."""
        found = names(self.library, "calls", b"export")
        self.assertEqual([name for name in found if name[:1] != b"_"], [b"box_get", b"box_put"])

    def calls(self):
        """By function, what it calls of the library."""
        its = modules.Modules()
        its.kinds = {os.fsencode(path): modules.told(os.fsencode(path), "kind")
                     for path in (self.library, self.program)}
        return {name: of for name, of in its.calls(its.kinds).items() if name not in (b"box.c", b"libbox.so")}

    def test_calls_by_stubs_and_slots(self):
        """A function's name is as in stacks, where a constructor's has its class, and a template's a type."""
        for words in (["-fcf-protection=none"], ["-fcf-protection=full", "-Wl,-z,ibtplt"], ["-fno-plt"],
                      ["-Wl,-z,now"], ["-no-pie"], ["-fcf-protection=full", "-Wl,-z,now"]):
            with self.subTest(words):
                self.build(*words)
                self.assertEqual(self.calls(), CALLS)

    def test_names_of_any_bytes(self):
        """A line's end, a tab and a byte that isn't of a text are in names as others are."""
        for path in (self.library, self.program):
            path.write_bytes(path.read_bytes().replace(b"box_put", b"b\n\t\xff x!").replace(b"box_get",
                                                                                            b"\nexport"))
        modules.told.cache_clear()
        self.assertLessEqual({b"b\n\t\xff x!", b"\nexport"}, set(names(self.library, "calls", b"export")))
        self.assertEqual(self.calls(), CALLS)

    def test_what_is_no_module(self):
        fifo, text, part = (self.folder / name for name in ("fifo", "text", "part"))
        os.mkfifo(fifo)
        text.write_text("#!/bin/sh\n")
        for path in fifo, text, self.folder, self.folder / "nothing", "/dev/zero", "linux-vdso.so.1", "a\0/b":
            for question in "kind", "calls":
                self.assertEqual(modules.told(os.fsencode(path), question), {}, path)
        whole = self.program.read_bytes()
        for length in (0, 1, 5, 16, 63, 64, 100, 1000, len(whole) // 2, len(whole) - 1):
            part.write_bytes(whole[:length])
            modules.told.cache_clear()
            for question in "kind", "calls":
                self.assertLess(len(modules.told(os.fsencode(part), question)), 6, length)

    def record(self, script, *options):
        """Records a program with a race, with this script of a shell in the place of the reader, or with
        none."""
        home, program = self.folder / "recorder", self.folder / "status"
        if not home.exists():
            home.mkdir()
            shutil.copy(recorder.BUILT / "shb-std", home)
            (home / "lib").symlink_to(recorder.BUILT / "lib")
            recorder.must(recorder.call("gcc", "-w", "-g", "-fsanitize=thread", "-pthread",
                                        recorder.PROGRAMS / "status.c", "-o", program))
        if script:
            (home / "module-reader").write_text(f"#!/bin/sh\n{script}\n")
            (home / "module-reader").chmod(0o755)
        return recorder.call(recorder.put_commands(self.folder), *options, "./status", "0", "race",
                             cwd=self.folder, env={**os.environ, "SHB": str(recorder.SHB)})

    def test_a_reader_that_is_not_as_it_should_be(self):
        """It isn't there, its library is missing, or it tells without end: the race is found, and what isn't
        known of modules is left out."""
        endless = f'[ -z "$2" ] && exec "{recorder.BUILT}/module-reader" "$1"\nexec yes'
        for script, is_missing in (None, True), ("exit 127", True), (endless, False):
            ran = self.record(script)
            said = ran.stderr.decode()
            self.assertEqual((ran.returncode, "it needs libdw.so.1 of elfutils" in said), (66, is_missing),
                             said)
            self.assertNotIn("Traceback", said)
            self.assertNotIn("isn't seen", said)

    def test_a_module_is_asked_once(self):
        """However many runs and processes there are."""
        log = self.folder / "log"
        ran = self.record(f'echo "$@" >> "{log}"\nexec "{recorder.BUILT}/module-reader" "$@"', "--runs", "2",
                          "--jobs", "1")
        asked = [line for line in log.read_text().splitlines() if line.endswith((" kind", " calls"))]
        self.assertEqual((ran.returncode, asked), (66, [f"{self.folder}/status kind"]), ran.stderr)

    def test_damaged_modules(self):
        """No access is made that isn't allowed."""
        reader = recorder.sanitized().with_name("module-reader")
        draw, part = random.Random(6), self.folder / "part"
        how = {**os.environ, "ASAN_OPTIONS": "detect_leaks=0"}
        for number in range(120):
            content = bytearray(draw.choice((self.library, self.program)).read_bytes())
            headers = int.from_bytes(content[40:48], "little")
            for _ in range(draw.randrange(1, 8)):  # in the head of the file, its sections, and all of it
                begin, end = draw.choice(((0, 1200), (headers, len(content)), (16, len(content))))
                content[draw.randrange(begin, end)] = draw.choice((0, 1, 127, 128, 255, draw.randrange(256)))
            part.write_bytes(content[:draw.choice((len(content), draw.randrange(len(content))))])
            for question in "kind", "calls":
                ran = recorder.call(reader, part, question, env=how)
                with self.subTest(number):
                    self.assertEqual((ran.returncode, ran.stderr), (0, b""))
