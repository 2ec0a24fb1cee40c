#!/usr/bin/env python3
"""Gives shb-std changed records and changed answers of the reader of modules, and that reader changed
modules, lines of sources and names, for some time, by clang's libFuzzer with its sanitizers.

    fuzz.py SECONDS FOLDER [records|answers|modules|texts]

Each has so many seconds. FOLDER gets the programs, the inputs by which a new way was gone, which a later call
begins with, and what was found (crash-.., timeout-..). The last lines are libFuzzer's: how many inputs there
were.
"""

import itertools
import pathlib
import re
import struct
import subprocess
import sys
import tempfile

HERE = pathlib.Path(__file__).resolve().parent
SOURCES = HERE.parent
sys.dont_write_bytecode = True
sys.path[:0] = [str(HERE), str(SOURCES.parent / "tests")]

import test_record
from test_record import entry

SANITIZERS = ["-fsanitize=address,undefined", "-fno-sanitize-recover=all",
              "-fno-sanitize-coverage=trace-cmp"]  # a process's compared values don't come back to libFuzzer
HEADER = b"command a b\n0 ffff 0 /nowhere/a\n10000 20000 10000 /nowhere/libb.so\n"


def records():
    """Each record with each set of options, with a header and without."""
    bodies = [test_record.FRAMES + test_record.ENTRIES * 2,
              *map(b"".join, (test_record.LATE_ENTRIES, barriers(), large_blocks()))]
    for options, header, body in itertools.product(range(64), (b"", HEADER), bodies):
        yield bytes([options, len(header)]) + header + body


def barriers():
    """Three rounds of a barrier of two threads, with an access in each; another count at the end."""
    yield from (entry(0, "FORK", 1, 0x101), entry(0, "BARRIER_INIT", 0x7100, 0x102, 2))
    for _ in range(3):
        yield from (entry(thread, kind, 0x7100, 0x103) for kind in ("ARRIVE", "DEPART") for thread in (0, 1))
        yield from (entry(thread, "WRITE", 0x5000, 0x104, 300) for thread in (0, 1))
    yield entry(0, "BARRIER_INIT", 0x7100, 0x105, 3)


def large_blocks():
    """Blocks of whole pages at one address, which are used at their ends and over them."""
    yield entry(0, "FORK", 1, 0x101)
    for size in (4096, 8192, 65536):
        yield entry(0, "ALLOC", 0x9000, 0x102, size)
        yield from (entry(thread, "WRITE", 0x9000 + at, 0x103, 600) for thread in (0, 1)
                    for at in (0, 1000, size - 300))
        yield entry(0, "FREE", 0x9000, 0x104)


SOURCE = """struct pair { int id; struct { long low; int high[4]; } range; } one;
static struct pair many[3];
struct pair *make(long);
extern "C" void __tsan_init();
static inline struct pair *allocate(long size) { return make(size); }
struct pair *work(int n) { struct pair both = {n}; __tsan_init();
    if (n > 2) { struct pair other = both; make((long)&other); } make((long)&both);
    many[n % 3].id = one.id; return allocate(sizeof one); }
"""
FORMS = [["-gdwarf-3"], ["-gdwarf-4"], ["-gdwarf-5"], ["-gdwarf64"], ["-fdebug-types-section"],
         ["-gdwarf-4", "-fdebug-types-section"],
         ["-gsplit-dwarf"], ["-gdwarf-4", "-gsplit-dwarf"], ["-gsplit-dwarf", "-fdebug-types-section"]]


def with_sections(program, sections):
    """Adds sections to a program's file, with these contents."""
    for name, content in sections.items():
        part = program.with_suffix(".part")
        part.write_bytes(content)
        subprocess.run(["objcopy", "--add-section", f"{name}={part}", program], check=True)


def split_sections(path):
    """The sections of a split file or package, by their names."""
    listed = subprocess.run(["readelf", "-SW", path], capture_output=True, check=True).stdout.decode()
    content = path.read_bytes()
    return {name: content[int(at, 16):int(at, 16) + int(size, 16)]
            for name, at, size in re.findall(r"\] (\.debug_\S+) +\S+ +[0-9a-f]+ ([0-9a-f]+) ([0-9a-f]+) ",
                                             listed)}


def modules():
    """Small libraries by gcc and clang in each form; split files, packages and what is shared are in
    the same file."""
    with tempfile.TemporaryDirectory() as name:
        folder = pathlib.Path(name)
        (folder / "input.cc").write_text(SOURCE)
        for compiler in "g++", "clang++":
            for form in FORMS:
                program = folder / "program"
                subprocess.run([compiler, "-w", "-g", "-O1", "-fPIC", *form, "-c", "input.cc"], cwd=folder,
                               check=True)
                subprocess.run([compiler, "-shared", "-nostdlib", "-Wl,--build-id", "input.o", "-o", program],
                               cwd=folder, check=True)
                plain = program.read_bytes()
                noted = subprocess.run(["readelf", "-n", program], capture_output=True,
                                       check=True).stdout.decode()
                identity = bytes.fromhex(re.search(r"Build ID: (\w+)", noted)[1])
                with_sections(program, {".gnu_debugaltlink": b"input.dwo\0" + identity})
                yield from (plain, program.read_bytes())
                if "-gsplit-dwarf" in form:
                    program.write_bytes(plain)
                    with_sections(program, split_sections(folder / "input.dwo"))
                    yield program.read_bytes()
                if form == ["-gdwarf-4", "-gsplit-dwarf"]:
                    subprocess.run(["dwp", "input.dwo", "-o", "package"], cwd=folder, check=True)
                    program.write_bytes(plain)
                    with_sections(program, split_sections(folder / "package"))
                    yield program.read_bytes()


def answers():
    """Rows as readers give them, each followed by the end of an answer."""
    end = struct.pack("<QQII", 0, 0, 0x7fffffff, 0)
    for one, two, first, second in ((0, 0, b"/a/b.c", b""), (0, 3, b"f(int)", b"/a/b.c"),
                                    (0x5000, 64 << 2 | 1, b"main", b""), (7, 0, b"T[1].balance", b"")):
        row = struct.pack("<QQII", one, two, len(first), len(second)) + first + second
        yield (row + end) * 30
        yield end + row * 3 + end


USES = """struct place { int row, column; }; union either { long n; char text[8]; };
struct job { struct job *next; struct { int done; }; int counts[4][2]; place at;
    unsigned ready : 1; either *of; place &to; void run(int); } *jobs;
static place many[3];
void job::run(int k) { next->done = k; counts[k][1]++; (*this).at.row = many[k].column;
    of->n = to.row; auto f = [&] { next = this; }; f(); }
int use(job *j, place *p, int k) { p[k].row = j->counts[k][0]; { place *q = &j->at; q->column = 7; }
    j->run(k); return *&p->row; }
"""


def texts():
    """Lines as the reader takes expressions from."""
    lines = [*map(str.encode, USES.splitlines()), *MORE_USES]
    yield from (bytes([where]) + line for line in lines for where in range(0, 256, 32))


MORE_USES = (b"pthread_mutex_lock(&j->next->at); __atomic_load_n(&j->next, 0)",
             b"*j->next[2].at = (*p).row; if (k) (*j).done += ++p->row")


LONGEST = {"records": 8192, "answers": 8192, "modules": 32768, "texts": 511}
CONVERTER, READER = (sorted(SOURCES.glob("converter/*.c")),
                     [*sorted(SOURCES.glob("reader/*.c")), SOURCES / "converter/tables.c"])
WHAT = {"records": ([], CONVERTER, list(records())),
        "answers": (["-DFUZZ_ANSWERS"], CONVERTER, list(answers())),
        "modules": (["-DFUZZ_MODULES", "-ldw", "-lelf"], READER, modules()),
        "texts": (["-DFUZZ_MODULES", "-DFUZZ_TEXTS", "-ldw", "-lelf"], READER, texts())}


def build(name, folder):
    """The program that libFuzzer runs: the command without its main, and fuzz_readers.c."""
    flags, sources, seeds = WHAT[name]
    objects = []
    for source in sources:
        objects.append(folder / f"{name}-{source.parent.name}-{source.stem}.o")
        subprocess.run(["clang", "-g", "-O1", "-w", "-Dmain=command", "-fsanitize=fuzzer-no-link",
                        *SANITIZERS, "-c", source, "-o", objects[-1]], check=True)
    subprocess.run(["clang", "-g", "-O1", "-w", "-fsanitize=fuzzer", *SANITIZERS, HERE / "fuzz_readers.c",
                    *objects, *flags, "-o", folder / name], check=True)
    (folder / f"{name}-inputs").mkdir(exist_ok=True)
    for number, seed in enumerate(seeds):
        (folder / f"{name}-inputs" / f"seed-{number}").write_bytes(seed)
    return folder / name


def main(seconds, folder, names):
    folder = pathlib.Path(folder).resolve()
    folder.mkdir(parents=True, exist_ok=True)
    header = ((test_record.HEADER.rstrip(b"whole\0") + b"0 ffffff 0 /nowhere/a\n").ljust(65536 - 256, b"\0")
              + test_record.HEADER[-256:])
    (folder / "uses.cc").write_text(USES)
    subprocess.run(["g++", "-g", "-O1", "-fPIC", "-shared", folder / "uses.cc", "-o",
                    folder / "module-of-texts"], check=True)
    (folder / "record-of-answers").write_bytes(header + test_record.FRAMES + test_record.ENTRIES * 2)
    for name in names or WHAT:
        program = build(name, folder)
        if name == "answers":
            (folder / "module-reader").write_text('#!/bin/sh\nexec cat "$SHB_ANSWERS"\n')
            (folder / "module-reader").chmod(0o755)
        subprocess.run([program, f"-max_total_time={seconds}", f"-max_len={LONGEST[name]}", "-timeout=300",
                        "-print_final_stats=1", "-verbosity=1",
                        f"{name}-inputs"], cwd=folder, stdin=subprocess.DEVNULL)


if __name__ == "__main__":
    main(int(sys.argv[1]), sys.argv[2], sys.argv[3:])
