"""Modules that are damaged, or made to harm who reads them: the trace is there, and a line says
what isn't read."""

import os
import pathlib
import random
import re
import shutil
import struct
import subprocess
import sys
import zlib

import recorder
from test_record import ENTRIES, HEADER, entry

SOURCE = """#include <pthread.h>
struct pair { int a, b; } st;
void *run(void *p) { st.b++; return p; }
int main(void) {
    pthread_t t;
    pthread_create(&t, 0, run, 0);
    st.b++;
    return pthread_join(t, 0);
}
"""
MAY_BE_ADDRESSES = ": names and places may be addresses, for its "
BUDGET = 512 << 20  # of a reader, beside 16 times the module


class Recorded(recorder.Case):
    """One of a small program."""

    def setUp(self):
        super().setUp()
        source, self.program, self.path = self.folder / "st.c", self.folder / "st", self.folder / "app.rec"
        source.write_text(SOURCE)
        recorder.must(recorder.call("gcc", "-w", "-g", "-O1", "-fsanitize=thread", f"-B{recorder.BUILT}/lib/",
                                    source, "-o", self.program))
        recorder.must(recorder.call(self.program, env=recorder.settings(self.path)))

    def said(self, answer):
        return [line for line in answer.stderr.decode(errors="replace").splitlines()
                if " records, " not in line]


class Modules(Recorded):
    def sections(self):
        listed = recorder.must(recorder.call("readelf", "-SW", self.program)).stdout.decode()
        return {name: (int(at, 16), int(size, 16))
                for name, at, size in re.findall(r"\] (\.\S+) +\S+ +[0-9a-f]+ ([0-9a-f]+) ([0-9a-f]+) ",
                                                 listed)}

    def test_a_symbol_without_a_name(self):
        """What stands there is named by its address."""
        content, (at, size) = bytearray(self.program.read_bytes()), self.sections()[".symtab"]
        listed = recorder.must(recorder.call("nm", self.program)).stdout.decode()
        variable = int(re.search(r"(?m)^(\w+) B st$", listed)[1], 16)
        places = [place for place in range(at, at + size, 24)
                  if struct.unpack_from("<Q", content, place + 8)[0] == variable
                  and content[place + 4] & 15 == 1]
        for place in places:
            struct.pack_into("<I", content, place, 0)
        self.assertEqual(len(places), 1)
        self.program.write_bytes(content)
        answer = recorder.must(recorder.convert(self.path))
        self.assertEqual(self.said(answer), [])
        self.assertEqual(len(re.findall(rb"(?m)^.*\|w\(0x[0-9a-f]+\)\|st\.c:[37]$", answer.stdout)), 2)

    def test_the_budget_of_a_module(self):
        """Sections that are small in the file, and together more than the budget: one that the rest goes
        beyond isn't taken."""
        bomb = zlib.compress(bytes(BUDGET // 2), 9)
        part, words = self.folder / "part", []
        for name in (".debug_info", ".debug_abbrev", ".debug_str", ".debug_line", ".debug_ranges"):
            part.write_bytes(struct.pack("<IIQQ", 1, 0, BUDGET // 2, 1) + bomb)
            words += ([f"--update-section={name}={part}"] if name in self.sections()
                      else [f"--add-section={name}={part}"])
            words += [f"--set-section-flags={name}=contents,readonly"]
        recorder.must(recorder.call("objcopy", *words, self.program))
        self.mark_compressed()
        self.assertLess(self.program.stat().st_size, 8 << 20)
        with subprocess.Popen([recorder.BUILT / "shb-std", self.path], stdout=subprocess.PIPE,
                              stderr=subprocess.PIPE) as ran:
            out, said = ran.stdout.read(), ran.stderr.read().decode()
            _, status, used = os.wait4(ran.pid, 0)
            ran.returncode = status
        self.assertEqual(status, 0, said)
        self.assertIn(b"|w(st+4)|st+0x", out)
        self.assertIn("can't be read: it", said)
        self.assertGreater(used.ru_maxrss << 10, BUDGET // 2)  # it was tried
        self.assertLess(used.ru_maxrss << 10, BUDGET + (200 << 20))

    def mark_compressed(self):
        """Sets the flag of compressed sections, which objcopy takes no word for."""
        content = bytearray(self.program.read_bytes())
        headers, = struct.unpack_from("<Q", content, 40)
        size, count, names = struct.unpack_from("<HHH", content, 58)
        names_at, = struct.unpack_from("<Q", content, headers + names * size + 24)
        for header in range(headers, headers + count * size, size):
            name, = struct.unpack_from("<I", content, header)
            if content[names_at + name:].startswith(
                    (b".debug_info\0", b".debug_abbrev\0", b".debug_str\0", b".debug_line\0",
                     b".debug_ranges\0")):
                struct.pack_into("<Q", content, header + 8,
                                 struct.unpack_from("<Q", content, header + 8)[0] | 1 << 11)
        self.program.write_bytes(content)

    def test_a_source_file_that_is_a_fifo(self):
        """The line of a call that allocates: it isn't opened, for nobody writes there."""
        source = self.folder / "block.c"
        source.write_text(SOURCE.replace("pthread_t t;", f'pthread_t t;\n#line 5 "{self.folder}/fifo.c"\n    '
                                                         'struct pair *p = malloc(sizeof(struct pair));')
                          .replace("#include", "#include <stdlib.h>\n#include",
                                   1).replace("&t, 0, run, 0", "&t, 0, run, p")
                          .replace("st.b++; return p",
                                   "((struct pair *)p)->b++; return p").replace("    st.b++;", "    p->b++;"))
        recorder.must(recorder.call("gcc", "-w", "-g", "-O1", "-fsanitize=thread", f"-B{recorder.BUILT}/lib/",
                                    source, "-o", self.program))
        recorder.must(recorder.call(self.program, env=recorder.settings(self.path)))
        os.mkfifo(self.folder / "fifo.c")
        answer = recorder.must(recorder.convert(self.path, "--stacks", self.folder / "stacks"))
        self.assertEqual(self.said(answer), [])
        self.assertEqual(len(re.findall(rb"(?m)^.*\|w\(fifo\.c:5#\d+\+4\)\|.*$", answer.stdout)), 2)

    def test_a_function_that_comes_from_itself(self):
        """Whether it allocates is asked of all that it comes from."""
        source, text = self.folder / "self.c", self.folder / "self.s"
        source.write_text("#include <pthread.h>\n#include <stdlib.h>\n"
                          "__attribute__((noinline)) int *make_unique(void) { int *p = malloc(4); *p = 1; "
                          "return p; }\nvoid *run(void *p) { ++*(int *)p; return p; }\n"
                          "int main(void) {\n    pthread_t t;\n    int *p = make_unique();\n    "
                          "pthread_create(&t, 0, run, p);\n    ++*p;\n    return pthread_join(t, 0);\n}\n")
        words = ["gcc", "-w", "-g", "-gdwarf-4", "-O1", "-fno-lto", "-fsanitize=thread",
                 f"-B{recorder.BUILT}/lib/"]
        recorder.must(recorder.call(*words, "-dA", "-S", source, "-o", text))
        parts = re.split(r"(?=\t\.uleb128 0x\w+\t# \((?:DIE|abbrev code))", text.read_text())
        [entry] = [k for k, part in enumerate(parts) if '# DW_AT_name: "make_unique"' in part]
        number, offset = re.match(r"\t\.uleb128 (0x\w+)\t# \(DIE \((0x\w+)\)", parts[entry]).groups()
        [form] = [k for k, part in enumerate(parts)
                  if part.startswith(f"\t.uleb128 {number}\t# (abbrev code)")]
        parts[entry] = re.sub(r"0x\w+(\t# DW_AT_type)", rf"{offset}\1", parts[entry])
        parts[form] = re.sub(r"0x49(\t# \(DW_AT_type\))", r"0x47\1", parts[form])  # DW_AT_specification
        text.write_text("".join(parts))
        recorder.must(recorder.call(*words, text, "-o", self.program))
        recorder.must(recorder.call(self.program, env=recorder.settings(self.path)))
        answer = recorder.must(recorder.convert(self.path, "--stacks", self.folder / "stacks"))
        self.assertEqual(self.said(answer), [])
        self.assertEqual(len(re.findall(rb"(?m)^.*\|w\(self\.c:7#\d+\)\|self\.c:[49]$", answer.stdout)), 2)

    def test_a_debug_file_that_is_a_fifo(self):
        """It isn't opened for good: nobody writes there."""
        own = self.program.with_suffix(".debug")
        recorder.must(recorder.call("objcopy", "--only-keep-debug", self.program, own))
        recorder.must(recorder.call("strip", "-g", self.program))
        recorder.must(recorder.call("objcopy", f"--add-gnu-debuglink={own}", self.program))
        own.unlink()
        os.mkfifo(own)
        answer = recorder.must(recorder.convert(self.path))
        self.assertIn(b"|w(st+4)|st+0x", answer.stdout)
        self.assertIn("is in a file that isn't there (.gnu_debuglink)", " ".join(self.said(answer)))


class Readers(Recorded):
    """What answers in the place of the reader of modules."""

    def convert(self, script):
        folder = self.folder / "tools"
        folder.mkdir(exist_ok=True)
        shutil.copy(recorder.BUILT / "shb-std", folder)
        if script:
            (folder / "module-reader").write_text(f"#!/bin/sh\n{script}\n")
            (folder / "module-reader").chmod(0o755)
        return recorder.must(recorder.call(folder / "shb-std", "--stacks", self.folder / "stacks", self.path))

    def check(self, answer):
        self.assertIn(b"|st+0x", answer.stdout)
        recorder.places(answer.stdout)

    def test_there_is_none_or_its_library_is_missing(self):
        for script in None, "exit 127":
            answer = self.convert(script)
            self.check(answer)
            self.assertEqual(len(self.said(answer)), 1)
            self.assertRegex(self.said(answer)[0],
                             r"^shb-std: names and places are addresses, for .*module-reader can't be run; "
                             r"it needs libdw\.so\.1 of elfutils$")

    def test_it_ends(self):
        for script, why in (("exit 1", "debug information can't be read: it takes too much memory"),
                            ("kill -XCPU $$", "debug information can't be read: it takes too much time"),
                            ("kill -SEGV $$", "debug information can't be read: its reader crashed"),
                            ("kill -KILL $$", "debug information can't be read: its reader was ended by the "
                                              "system, perhaps for memory")):
            answer = self.convert(script)
            self.check(answer)
            self.assertIn(f"shb-std: {self.program}{MAY_BE_ADDRESSES}{why}", self.said(answer))

    def reader(self, name, *changes):
        """The reader with other texts in its sources."""
        folder = self.folder / name
        shutil.copytree(recorder.SOURCES, folder, ignore=shutil.ignore_patterns("lib", "tests", "runtime"))
        for path, before, after in changes:
            text = (folder / path).read_text()
            self.assertEqual(text.count(before), 1, before)
            (folder / path).write_text(text.replace(before, after))
        recorder.compile_converter(folder, folder, "gcc", "-w")
        return folder

    def test_the_limit_of_time(self):
        """A reader that is as it should be but for one endless answer."""
        folder = self.reader("endless", ("reader/main.c", "SECONDS = 120", "SECONDS = 1"),
                             ("reader/main.c", "case ASK_SOURCES: each_source(d, give_source); break;",
                              "case ASK_SOURCES: for (;;) ;"))
        answer = self.convert(f'exec "{folder}/module-reader" "$1"')
        self.check(answer)
        self.assertEqual(self.said(answer)[0], f"shb-std: {self.program}{MAY_BE_ADDRESSES}debug information "
                                               "can't be read: it takes too much time")

    def test_the_limit_of_all_readers(self):
        folder = self.reader("short", ("converter/readers.c", "MOST_SECONDS = 360", "MOST_SECONDS = 0"))
        answer = recorder.must(recorder.call(folder / "shb-std", self.path))
        self.check(answer)
        self.assertEqual(self.said(answer)[0], f"shb-std: {self.program}{MAY_BE_ADDRESSES}debug information "
                                               "can't be read: all modules together take too much time")

    def test_the_limit_of_memory_of_all_readers(self):
        """The one that holds most is ended, and no other."""
        folder = self.reader("held", ("converter/readers.c", "(sysconf(_SC_PHYS_PAGES) / 2 * "
                                                             "sysconf(_SC_PAGESIZE))", "(64 << 20)"))
        (folder / "module-reader").rename(folder / "real")
        stand_in = folder / "module-reader"
        for held, why in (0, []), (100, [f"shb-std: {self.program}{MAY_BE_ADDRESSES}debug information can't "
                                         "be read: all modules together take too much memory"]):
            stand_in.write_text(f"#!{sys.executable}\nimport subprocess, sys\nheld = b'x' * ({held} << 20) "
                                f"if sys.argv[1] == {str(self.program)!r} else "
                                f"b''\nsys.exit(subprocess.call([{str(folder / 'real')!r}, sys.argv[1]]))\n")
            stand_in.chmod(0o755)
            answer = recorder.must(recorder.call(folder / "shb-std", "--stacks", self.folder / "stacks",
                                                 self.path))
            self.assertEqual(self.said(answer), why)

    STAND_IN = """import os, signal, struct, subprocess, sys
real = subprocess.Popen([{real!r}, sys.argv[1]], stdout=subprocess.PIPE)
left = {left}
while left:
    part = os.read(real.stdout.fileno(), left)
    left -= len(part)
    os.write(1, part) if part else sys.exit()
real.kill()
real.wait()
os.kill(os.getpid(), signal.SIGSEGV)
"""

    def test_it_dies_in_the_middle(self):
        """Of a row, a text, or between answers: what came before counts."""
        whole = recorder.places(recorder.must(recorder.convert(self.path)).stdout)
        self.assertEqual(len(whole), 1)
        stand_in, crashed, met = (self.folder / "stand_in.py",
                                  f"shb-std: {self.program}{MAY_BE_ADDRESSES}debug information can't be "
                                  "read: its reader crashed", set())
        for left in 0, 1, 23, 24, 30, 60, 150, 400, 700, 800:
            stand_in.write_text(self.STAND_IN.format(real=str(recorder.BUILT / "module-reader"), left=left))
            answer = self.convert(f'[ "$1" = "{self.program}" ] || exit 1\nexec python3 "{stand_in}" "$1"')
            found = recorder.places(answer.stdout)
            met |= {name for pair in found for name in pair}
            self.assertEqual(len(found), len(whole), left)
            self.assertEqual(self.said(answer).count(crashed), 1, left)
        self.assertTrue(any(name.startswith("st+0x") for name in met), met)
        self.assertTrue(any(name.startswith("st.c:") for name in met), met)

    ANSWERS = """import os, struct, sys
def row(one, two, first=b"", second=b""):
    return struct.pack("<QQII", one, two, len(first), len(second)) + first + second
def read(count):
    data = b""
    while len(data) < count:
        part = os.read(0, count - len(data))
        if not part:
            sys.exit()
        data += part
    return data
def give(data):
    while data:
        data = data[os.write(1, data):]
SYMBOLS, VARIABLE, FRAMES, SOURCES = range(4)
END = struct.pack("<QQII", 0, 0, 0x7fffffff, 0)
while True:
    kind, count = struct.unpack("<QQ", read(16))
    numbers = struct.unpack(f"<{{count}}Q", read(8 * count))
    {script}
    give(END)
"""

    def test_answers_that_do_not_end_or_come_in_another_order(self):
        """Of sources there are too many, of frames more than one address has, or those of one address again;
        a symbol is elsewhere."""
        for number, script in enumerate((
                "while kind == SOURCES: give(row(0, 0, b'/a') * 10000)",
                "while kind == FRAMES: give(row(0, 1, b'f', b'/a/b.c') * 10000)",
                "while kind == FRAMES: give((row(0, 1, b'f', b'/a/b.c') + row(1, 1, b'f', b'/a/b.c')) * "
                "10000)",
                "if kind == FRAMES: give(row(count, 1, b'f', b'/a/b.c'))",
                "if kind == SYMBOLS: give(row(numbers[0] - 8, 8 << 1, b'name'))",
                "if kind == SYMBOLS: give(row(numbers[0], 8 << 1, b'name') * 2)")):
            (self.folder / "answers.py").write_text(self.ANSWERS.format(script=script))
            answer = self.convert(f'exec python3 "{self.folder}/answers.py"')
            self.assertEqual(len(recorder.places(answer.stdout)), 1, number)
            self.assertIn(f"shb-std: {self.program}: names and places may be addresses, for its reader gave "
                          "a wrong answer", self.said(answer), number)

    def test_the_symbols_of_a_page_are_asked_for_together(self):
        """However many of them the record has, and in whatever order; one that goes on in the next page
        is there too."""
        log, modules, base = self.folder / "log", f"10000 ffffff 8000 {self.program}\n".encode(), 0x8000
        (self.folder / "answers.py").write_text(self.ANSWERS.format(script=(
            f"if kind == SYMBOLS: open({str(log)!r}, 'a').write(f'{{numbers[0]:x}}\\n');"
            "give(b''.join(row(at, 8 << 1, b'v%x' % at) for at in range(numbers[0] - 4, numbers[0] + 0x1000, "
            "8)))")))
        addresses = range(0x22ff8, 0x20ff8, -8)
        writes = b"".join(entry(thread, "WRITE", at, 0x101, 4) for thread in (0, 1) for at in addresses)
        self.path.write_bytes((HEADER.rstrip(b"whole\0") + modules).ljust(65536 - 256, b"\0") + HEADER[-256:]
                              + entry(0, "FORK", 1, 0x100) + writes)
        trace = self.convert(f'exec python3 "{self.folder}/answers.py"').stdout
        self.assertEqual(re.findall(rb"(?m)^main\|w\((.*)\)\|", trace),
                         [b"v%x+4" % (at - base - 4) for at in addresses])
        self.assertEqual(sorted(log.read_text().split()), ["19000", "1a000"])

    def test_answers_behind_the_last_page(self):
        """A module's base may be above its addresses; then the page is the last of the address space, and a
        symbol that fills it is the last."""
        modules = f"10000 ffffff 21000 {self.program}\n".encode()
        (self.folder / "answers.py").write_text(self.ANSWERS.format(script="if kind == SYMBOLS: "
                                                                    "give(row(numbers[0], 0x1000 << 1, b'a') "
                                                                    "+ row(numbers[0], 8 << 1, b'b'))"))
        writes = b"".join(entry(thread, "WRITE", 0x20000, 0x101, 4) for thread in (0, 1))
        self.path.write_bytes((HEADER.rstrip(b"whole\0") + modules).ljust(65536 - 256, b"\0") + HEADER[-256:]
                              + entry(0, "FORK", 1, 0x100) + writes)
        answer = self.convert(f'exec python3 "{self.folder}/answers.py"')
        self.assertIn(f"shb-std: {self.program}: names and places may be addresses, for its reader gave a "
                      "wrong answer", self.said(answer))

    def library_of_two(self, *options):
        """One of two source files, which have a header."""
        library = self.folder / "both.so"
        (self.folder / "both.h").write_text("static inline int *one(int *p) { return p + *p; }\n")
        for name in "ab":
            (self.folder / f"{name}.c").write_text(f'#include "both.h"\nint *of_{name}(int *p) {{ return '
                                                   'one(p); }\n')
        recorder.must(recorder.call("gcc", "-g", "-O1", "-shared", "-fPIC", *options, self.folder / "a.c",
                                    self.folder / "b.c", "-o", library))
        return library

    def sources(self, library):
        """What the reader tells of its source files that are in the test's folder."""
        number = re.search(r"enum request_kind \{(.*?)ASK_SOURCES",
                           (recorder.SOURCES / "converter/answers.h").read_text(), re.S)[1].count("ASK_")
        answer, found = (
            recorder.must(recorder.call(recorder.BUILT / "module-reader", library,
                                        input=struct.pack("<QQ", number, 0))).stdout, [])
        while struct.unpack_from("<I", answer, 16)[0] != 0x7fffffff:
            first, second = struct.unpack_from("<II", answer, 16)
            found.append(pathlib.Path(answer[24:24 + first].decode()))
            answer = answer[24 + first + second:]
        return sorted(path.name for path in found if path.parent == self.folder)

    def test_a_source_file_comes_once(self):
        """Also a header of several files; in each form of a table of lines."""
        for option in "-gdwarf-2", "-gdwarf-3", "-gdwarf-4", "-gdwarf-5", "-gdwarf64", "-gz":
            self.assertEqual(self.sources(self.library_of_two(option)), ["a.c", "b.c", "both.h"], option)

    def test_source_files_are_told_without_lines(self):
        """Also those of a unit whose lines can't be read, but not where its table's header isn't as it
        should be; other units have theirs."""
        for version, header, is_read in (4, 6, True), (4, 6, False), (5, 8, True), (5, 8, False):
            library, lines = self.library_of_two(f"-gdwarf-{version}"), self.folder / "lines"
            recorder.must(recorder.call("objcopy", "--dump-section", f".debug_line={lines}", library))
            table = bytearray(lines.read_bytes())
            length = struct.unpack_from("<I", table)[0]
            self.assertEqual(table[length + 1:length + 4], b"\0\1\1")    # the end of its program
            if is_read:
                table[length + 2] = 0xff    # bytes of the last instruction
            else:
                struct.pack_into("<I", table, header, length)
            lines.write_bytes(table)
            recorder.must(recorder.call("objcopy", "--update-section", f".debug_line={lines}", library))
            self.assertEqual(self.sources(library), ["a.c", "b.c", "both.h"][not is_read:])

    def test_modules_of_one_file_have_one_reader(self):
        """And it is told of no server."""
        log, path = self.folder / "log", self.folder / "two.rec"
        modules = f"0 200 0 {self.program}\n200 ffffff 0 {self.program}\n".encode()
        path.write_bytes((HEADER.rstrip(b"whole\0") + modules).ljust(65536 - 256, b"\0") + HEADER[-256:]
                         + ENTRIES)
        self.path = path
        os.environ["DEBUGINFOD_URLS"] = "http://127.0.0.1:9"
        self.addCleanup(os.environ.pop, "DEBUGINFOD_URLS")
        self.convert(f'echo "$1 $DEBUGINFOD_URLS" >> "{log}"\nexec "{recorder.BUILT}/module-reader" "$1"')
        self.assertEqual(log.read_text(), f"{self.program} \n")

    def test_wrong_answers(self):
        """Rows of any numbers, lengths and texts."""
        draw, end = random.Random(7), struct.pack("<QQII", 0, 0, 0x7fffffff, 0)
        numbers = (0, 1, 2, 7, 1 << 32, (1 << 64) - 1, 0x4000, 0x40 << 2)
        file, wrong = self.folder / "answers", 0
        for _ in range(90):
            answers = b""
            for _ in range(draw.randrange(1, 40)):
                texts = [draw.choice((b"", b"st", b"/a/b.c", b"a|b\n)", b"\0", bytes(draw.randrange(300))))
                         for _ in range(2)]
                lengths = [len(text) if draw.random() < 0.9 else draw.choice((20000, (1 << 32) - 1))
                           for text in texts]
                answers += (struct.pack("<QQII", draw.choice(numbers), draw.choice(numbers), *lengths)
                            + b"".join(texts))
                answers += end * draw.randrange(3)
            file.write_bytes(answers)
            answer = self.convert(f"exec cat {file}")
            recorder.places(answer.stdout)
            wrong += any(line.endswith("its reader gave a wrong answer") for line in self.said(answer))
        self.assertGreater(wrong, 10)
