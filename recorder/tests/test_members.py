"""Names of what lies inside of variables, by the debug information: of programs, and of programs
with it damaged."""

import os
import random
import re
import shutil
import sys

import recorder
from test_record import entry

sys.path.insert(0, str(recorder.PYTHON))
from shb_common.stacks import Stacks  # noqa: E402


def sections(program):
    """Where each section of a program stands in its file."""
    listed = recorder.must(recorder.call("readelf", "-SW", program)).stdout.decode()
    return {name: (int(offset, 16), int(size, 16))
            for name, offset, size in re.findall(r"\] (\.\S+) +\S+ +[0-9a-f]+ ([0-9a-f]+) ([0-9a-f]+) ",
                                                 listed)}


class Members(recorder.Case):
    def check(self, name):
        source, record = recorder.PROGRAMS / name, self.folder / "app.rec"
        wanted = recorder.marked(source, "AT")
        for option in ("-O0", "-O1", "-O2", "-gdwarf-4"):
            recorder.build(source, option, self.folder / "app")
            recorder.must(recorder.call(self.folder / "app", env=recorder.settings(record)))
            trace = recorder.must(recorder.convert(record, "-a")).stdout.decode()
            found = {}
            for variable, place in re.findall(r"(?m)^main\|(?:r|w|acq)\(([^!@\n]*)\)\|(.*)$", trace):
                if not variable.startswith("stack."):
                    found.setdefault(place, set()).add(variable)
            for place, names in wanted.items():
                with self.subTest(option=option, place=place):
                    self.assertEqual(found.get(place), names)

    def test_in_c(self):
        self.check("members.c")

    def test_in_cxx(self):
        self.check("members.cc")


class Own(recorder.Case):
    """What lies in a class of the C++ library is named by the program's own member."""

    def found(self, option):
        """By line, what texts name the variables that the thread writes there."""
        record, path, found = self.folder / "app.rec", self.folder / "app.stacks", {}
        recorder.build(recorder.PROGRAMS / "own_members.cc", option, self.folder / "app")
        recorder.must(recorder.call(self.folder / "app", env=recorder.settings(record, SHB_CELLS="0")))
        trace = recorder.must(recorder.convert(record, "-a", "--stacks", path)).stdout.splitlines()
        stacks = Stacks(path, len(trace))
        for event, line in enumerate(trace, 1):
            access = re.fullmatch(rb"T1[^|]*\|w\((.*?)\)\|(.*)", line)
            if access:
                found.setdefault(access[2].decode(),
                                 set()).add((stacks.local_of(access[1], event) or access[1]).decode())
        return found

    def test_members_of_the_cxx_library(self):
        wanted = recorder.marked(recorder.PROGRAMS / "own_members.cc", "IS")
        for option in ("-O0", "-Og", "-O1", "-O2"):
            with self.subTest(option=option):
                found = self.found(option)
                self.assertEqual({place: found.get(place) for place in wanted}, wanted)


def linked_by(compiler):
    """The words by which a compiler links with the recorder."""
    library = recorder.BUILT / "lib"
    return ([f"-B{library}/"] if compiler[0] == "g"
            else ["-fno-sanitize-link-runtime", f"-L{library}", "-ltsan"])


class Elements(recorder.Case):
    """Those of an array are asked for many at once."""

    ASKED = """#!{python}
import os, struct, subprocess, sys
real = subprocess.Popen([{real!r}, sys.argv[1]], stdin=subprocess.PIPE)  # it answers by itself
log = os.open({log!r}, os.O_WRONLY | os.O_CREAT | os.O_APPEND)
while len(head := sys.stdin.buffer.read(16)) == 16:
    os.write(log, os.fsencode(os.path.basename(sys.argv[1])) + b"\\n")
    real.stdin.write(head + sys.stdin.buffer.read(8 * struct.unpack("<QQ", head)[1]))
    real.stdin.flush()
"""

    def test_they_are_not_asked_for_one_by_one(self):
        program, record, log, reader = (self.folder / "app", self.folder / "app.rec", self.folder / "log",
                                        self.folder / "module-reader")
        recorder.build(recorder.PROGRAMS / "elements.c", "-O1", program)
        recorder.must(recorder.call(program, env=recorder.settings(record)))
        shutil.copy(recorder.BUILT / "shb-std", self.folder)
        reader.write_text(self.ASKED.format(python=sys.executable, real=str(recorder.BUILT / "module-reader"),
                                            log=str(log)))
        reader.chmod(0o755)
        trace = recorder.must(recorder.call(self.folder / "shb-std", record)).stdout.decode()
        wanted = {f"table[{k}].{of}" for k in range(100000)
                  for of in ("at.y", "parts[1]")} | {"both.count", "both.tail[3]"}
        wanted |= {f"both.rows[{row}][{k}]" for row in range(4)
                   for k in range(5000)} | {f"both.pairs[{k}]" for k in range(3)}
        self.assertEqual(set(re.findall(r"(?m)\|w\((.*)\)\|", trace)), wanted)
        self.assertLess(log.read_text().count("app\n"), 2000)


TYPES = """#include <pthread.h>
#include <stdlib.h>
typedef unsigned long amount;
enum mode { OFF, ON };
static struct pair { float low; int high; } whole, parts, *block;
static int number, row[2];
static _Bool flag;
static enum mode mode;
static char *text;
static volatile amount count;
static double sum;
static void *work(void *unused) {
    struct pair one = {1, 2};
    number = row[1] = flag = mode = count = 1;
    text = "a";
    sum = 2;
    whole = one;
    parts.low = block->low = 3;
    parts.high = block->high = 4;
    return unused;
}
int main(void) {
    pthread_t t;
    block = malloc(sizeof *block);
    pthread_create(&t, 0, work, 0);
    work(0);
    return pthread_join(t, 0);
}
"""


class Types(recorder.Case):
    def test_what_is_no_integer_bool_enum_or_pointer(self):
        source, program, record, stacks = (self.folder / name for name in ("a.c", "a", "a.rec", "a.stacks"))
        source.write_text(TYPES)
        for compiler in filter(shutil.which, ("gcc", "clang")):
            recorder.must(recorder.call(compiler, "-w", "-g", "-O0", "-fsanitize=thread", "-pthread", source,
                                        *linked_by(compiler), "-o", program))
            recorder.must(recorder.call(program, env=recorder.settings(record)))
            trace = recorder.must(recorder.convert(record, "--stacks", stacks)).stdout
            found = Stacks(stacks, trace.count(b"\n"))
            named = {found.lasting_locals.get(name, name).partition(b" of ")[0] for name in found.others}
            with self.subTest(compiler):
                self.assertEqual(named, {b"sum", b"whole", b"parts.low", b"pair.low"})


class Blocks(recorder.Case):
    """What lies in a block is named by the block's type: by what the C++ library allocates, by the line, or
    by the text at an access. What isn't certain has no name."""

    def found(self, source, compiler, option):
        """By line, the names of what the threads access in blocks, without the blocks' numbers."""
        program, record, path = self.folder / "app", self.folder / "app.rec", self.folder / "app.stacks"
        recorder.must(recorder.call(compiler, "-w", "-g", option, "-fsanitize=thread", "-pthread", source,
                                    *linked_by(compiler), "-o", program))
        recorder.must(recorder.call(program, env=recorder.settings(record)))
        trace = recorder.must(recorder.convert(record, "-a", "--stacks", path)).stdout
        names, found = Stacks(path, len(trace.splitlines())).lasting_locals, {}
        for variable, place in re.findall(rb"(?m)^T\d.*?\|(?:r|w|acq)\((%b:\d+#[+\d]*)\)\|(.*)$"
                                          % source.name.encode(), trace):
            found.setdefault(place.decode(), set()).add(
                re.sub(r"#\d+$", "", names.get(variable, b"-").decode()))
        return found

    def check(self, source, count):
        wanted = recorder.marked(source, "IS")
        self.assertEqual(len(wanted), count)
        for compiler in ("g++", "clang++") if source.suffix == ".cc" else ("gcc", "clang"):
            for option in ("-O0", "-Og", "-O1", "-O2"):
                if shutil.which(compiler):
                    with self.subTest(compiler=compiler, option=option):
                        found = self.found(source, compiler, option)
                        self.assertEqual({place: found.get(place) for place in wanted}, wanted)

    def test_by_type(self):
        self.check(recorder.PROGRAMS / "blocks.cc", 13)

    def test_bits_of_a_vector(self):
        """Where the library's function that allocates them is inlined."""
        source = recorder.PROGRAMS / "vector_bits.cc"
        for option in ("-O1", "-O2"):
            with self.subTest(option=option):
                found, wanted = self.found(source, "g++", option), recorder.marked(source, "IS")
                self.assertEqual({place: found.get(place) for place in wanted}, wanted)

    def test_by_the_line(self):
        self.check(recorder.PROGRAMS / "allocated.cc", 9)

    def test_by_uses(self):
        self.check(recorder.PROGRAMS / "used.c", 19)
        self.check(recorder.PROGRAMS / "used.cc", 9)


    def test_what_malloc_gave(self):
        """An object that races is named, in whatever way it comes from there."""
        source, record, path = (recorder.PROGRAMS / "heap_objects.c", self.folder / "app.rec",
                                self.folder / "app.stacks")
        for form, wanted in enumerate(re.findall(rb" IS (\S+) \*/", source.read_bytes()), 1):
            words = ["-w", "-g", "-Og", f"-DFORM={form}", "-fsanitize=thread", "-pthread",
                     f"-B{recorder.BUILT}/lib/", source]
            recorder.must(recorder.call("gcc", *words, "-o", self.folder / "app"))
            recorder.must(recorder.call(self.folder / "app", env=recorder.settings(record)))
            trace = recorder.must(recorder.convert(record, "--stacks", path)).stdout
            names = Stacks(path, len(trace.splitlines())).lasting_locals
            with self.subTest(form=form):
                self.assertEqual({names.get(name) for name in re.findall(rb"\|w\((.*?)\)\|", trace)},
                                 {wanted})


class Damaged(recorder.Case):
    def record(self, program):
        """One in which two threads write pieces of many sizes of each variable of the program."""
        listed = recorder.must(recorder.call("nm", "-S", program)).stdout.decode()
        variables = [(int(at, 16), int(size, 16))
                     for at, size in re.findall(r"(?m)^(\w{16}) (\w{16}) [bBdD] ", listed)]
        self.assertGreater(len(variables), 4)
        entries = [entry(0, "FORK", 1, 0x101), entry(1, "START", 0x30000000, 0x500, 4096)]
        for at, size in variables:
            for step in (4, 8, 40):
                entries += [entry(thread, "WRITE", at + k, 0x200 + thread, min(step, size - k))
                            for k in range(0, min(size, 200), step) for thread in (0, 1)]
        header = b"shb-record 12\n0 ffffff 0 " + os.fsencode(program) + b"\n"
        return header.ljust(65536 - 256, b"\0") + b"whole".ljust(256, b"\0") + b"".join(entries)

    def damaged(self, good, places):
        draw = random.Random(4)
        for name in (".debug_info", ".debug_abbrev", ".debug_str") * 20:
            program, (at, size) = bytearray(good), places[name]
            for _ in range(draw.randrange(1, 8)):
                program[at + draw.randrange(size)] = draw.choice((0, 1, 127, 128, 255, draw.randrange(256)))
            yield bytes(program)
        for name in (".debug_info", ".debug_abbrev", ".debug_str"):
            yield good.replace(name.encode() + b"\0", name[:-1].encode() + b"x\0")

    def setUp(self):
        super().setUp()
        self.converter = recorder.sanitized()

    def test_damaged_types_of_blocks(self):
        """A name is there or not, and no access is made that isn't allowed."""
        program, record, path, names = (self.folder / "app", self.folder / "app.rec",
                                        self.folder / "app.stacks", set())
        recorder.build(recorder.PROGRAMS / "blocks.cc", "-O1", program)
        recorder.must(recorder.call(program, env=recorder.settings(record)))
        good = program.read_bytes()
        for number, content in enumerate([good, *self.damaged(good, sections(program))]):
            program.write_bytes(content)
            answer = recorder.call(self.converter, "--stacks", path, record,
                                   env={**os.environ, "ASAN_OPTIONS": "detect_leaks=0"})
            with self.subTest(number):
                self.assertEqual(answer.returncode, 0, answer.stderr[-2000:])
            names.update(Stacks(path, len(answer.stdout.splitlines())).lasting_locals.values())
        self.assertIn(b"bank::Account.balance", names)

    def test_damaged_debug_information(self):
        """The trace is one that shb takes, and no access is made that isn't allowed."""
        program, record = self.folder / "app", self.folder / "app.rec"
        recorder.must(recorder.call("g++", "-w", "-g", "-no-pie", "-pthread",
                                    recorder.PROGRAMS / "members.cc", "-o", program))
        good, names = program.read_bytes(), set()
        record.write_bytes(self.record(program))
        places = sections(program)
        for number, content in enumerate([good, *self.damaged(good, places)]):
            program.write_bytes(content)
            answer = recorder.call(self.converter, record,
                                   env={**os.environ, "ASAN_OPTIONS": "detect_leaks=0"})
            with self.subTest(number):
                self.assertEqual(answer.returncode, 0, answer.stderr[-2000:])
                recorder.places(answer.stdout)
            names.update(re.findall(rb"\|w\((.*)\)\|", answer.stdout))
        self.assertIn(b"bank::both[1].id", names)
        self.assertTrue(any(re.fullmatch(rb"bank::both\+\d+", name) for name in names))
