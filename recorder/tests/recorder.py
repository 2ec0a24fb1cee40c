"""The recorder, built for the tests, and the programs that are recorded with it."""

import functools
import os
import pathlib
import re
import shutil
import subprocess
import sys
import tempfile
import threading

from side_by_side import Case

HERE = pathlib.Path(__file__).resolve().parent
SOURCES = HERE.parent
PROGRAMS = HERE / "programs"
PYTHON = SOURCES.parent / "python"
SHB = SOURCES.parent / "crates" / "shb" / "out" / "shb"
BUILT = None  # where the recorder was built
COMMAND = None  # shb-record beside it
SECONDS = 600  # after so long a command hangs
OWN_SLICES = 0  # the recorder draws them


def call(*words, **how):
    """Runs a command to its end, and gives its status and what it wrote."""
    how = {"stdin": subprocess.DEVNULL, **how}
    if "input" in how:
        del how["stdin"]
    return subprocess.run([str(word) for word in words], capture_output=True, timeout=SECONDS, **how)


MOST_MEMORY = ("import resource, subprocess, sys; subprocess.run(sys.argv[1:], stdout=-3, check=True); "
               "print(resource.getrusage(resource.RUSAGE_CHILDREN).ru_maxrss)")


def must(answer):
    """The answer of a command that has to succeed."""
    if answer.returncode:
        raise AssertionError(f"{answer.args}: status "
                             f"{answer.returncode}\n{answer.stderr.decode(errors='replace')}")
    return answer


def most_memory(*words, **more):
    """The most bytes that a program takes, started by a process that takes little itself."""
    return int(must(call(sys.executable, "-c", MOST_MEMORY, *words, **more)).stdout) << 10


def put_commands(folder):
    """Copies the commands and their packages into a folder, where they look for the recorder beside them."""
    shutil.copytree(PYTHON, folder / "python", ignore=shutil.ignore_patterns("tests", "__pycache__"),
                    dirs_exist_ok=True)
    return folder / "python" / "shb-record"


def build_recorder(folder, *settings):
    """Builds the recorder from its sources in a new folder; the first one may be a copy of RECORDER, which is
    built already."""
    global BUILT, COMMAND
    copy, built = folder / "recorder", not BUILT and os.environ.get("RECORDER")
    made = [] if built else ["lib", "shb-std", "module-reader"]
    shutil.copytree(built or SOURCES, copy, symlinks=True, ignore=shutil.ignore_patterns("tests", *made))
    if not built:
        must(call("make", "-C", copy, *settings))
    put_commands(folder)
    BUILT, COMMAND = BUILT or copy, COMMAND or folder / "python" / "shb-record"
    return copy


def once(function):
    """A function whose answers are kept, also for a test that asks while the one beside it waits for one."""
    guard, kept = threading.Lock(), functools.lru_cache(maxsize=None)(function)

    def answer(*words):
        with guard:
            return kept(*words)

    return answer


def new_folder():
    """One beside the recorder, for what several tests use."""
    return pathlib.Path(tempfile.mkdtemp(dir=BUILT.parent))


@once
def library():
    """A recorder of its library alone. It isn't optimised as a whole, which takes most of the time."""
    return build_recorder(new_folder(), "CFLAGS=-O2", "LTO=", "lib/libtsan.so.2")


@once
def taking_turns(definition):
    """The same with a definition in turn.c."""
    copy = new_folder() / "recorder"
    shutil.copytree(library(), copy, symlinks=True)
    (copy / "runtime/turn.c").touch()
    must(call("make", "-C", copy, f"CFLAGS=-O2 -D{definition}", "LTO=", "lib/libtsan.so.2"))
    return copy


def compile_converter(sources, folder, *words):
    """Compiles the converter and its reader of modules by these words into a folder."""
    must(call(*words, *sorted(sources.glob("converter/*.c")), "-o", folder / "shb-std"))
    must(call(*words, *sorted(sources.glob("reader/*.c")), sources / "converter/tables.c", "-ldw", "-lelf",
              "-o", folder / "module-reader"))
    return folder / "shb-std"


@once
def sanitized(compiler="gcc"):
    """The converter and its reader of modules, built so that they end at the first access
    that isn't allowed."""
    return compile_converter(SOURCES, new_folder(), compiler, "-g", "-O1", "-fsanitize=address,undefined",
                             "-fno-sanitize-recover=all")


def build(source, option, program, built=None):
    """Builds a program that is to be recorded, as the README says."""
    compiler = "g++" if source.suffix == ".cc" else "gcc"
    words = ["-w", "-g", option, "-fsanitize=thread", "-pthread", f"-B{built or BUILT}/lib/", source, "-o",
             program]
    must(call(compiler, *words, *["-fopenmp"] * source.name.startswith("openmp")))


def two_of_one_name(folder):
    """The sources of a program with two files of one name, in new folders: each thread has a
    race with main's."""
    texts = {"main.c": "#include <pthread.h>\nvoid *a(void *), *b(void *);\nint one, two;\nint main(int "
                       "count, char **words) {\n    pthread_t t, u;\n    pthread_create(&t, 0, a, 0);\n    "
                       "if (count < 2) pthread_create(&u, 0, b, 0);\n    one = two = 1;\n    pthread_join(t, "
                       "0);\n    return count < 2 && pthread_join(u, 0);\n}\n",
             "a/util.c": "extern int one;\n\nvoid *a(void *x) { one = 2; return 0; }\n",
             "b/util.c": "extern int two;\n\nvoid *b(void *x) { two = 2; return 0; }\n"}
    for name, text in texts.items():
        (folder / name).parent.mkdir(parents=True, exist_ok=True)
        (folder / name).write_text(text)
    return [folder / name for name in texts]


def marked(source, word):
    """By line: what stands behind this word in the comment at its end, with commas in between."""
    marks = {f"{source.name}:{number}": re.search(rf" {word} (.*?)(?: \*/)?$", line)
             for number, line in enumerate(source.read_text().splitlines(), 1)}
    return {place: set(mark[1].split(", ")) for place, mark in marks.items() if mark}


def settings(path, seed=1, slice=200, **more):
    """The environment that has a program recorded."""
    of_slices = {"SHB_SLICE": str(slice)} if slice != OWN_SLICES else {}
    return {**os.environ, "SHB_RECORD": str(path), "SHB_SEED": str(seed), **of_slices, **more}


def convert(path, *options):
    return call(BUILT / "shb-std", *options, path)


def listed(record, page, converter=None):
    """The places of a record's trace, each with its two locations in order and a variable; the page's trace
    of these is written to a file, or none. It has both accesses of each listed race where the file of uses
    says."""
    uses = page.with_suffix(".uses")
    words = [str(word)
             for word in (converter or BUILT / "shb-std", "--list", "--only", "/dev/stdin", "--page", page,
                          "--uses", uses, record)]
    with subprocess.Popen(words, stdin=subprocess.PIPE, stdout=subprocess.PIPE,
                          stderr=subprocess.PIPE) as ran:
        listed = must(call(SHB, "places", "--list", "--variables", stdin=ran.stdout)).stdout
        found = re.findall(rb"^race \d+: (\d+) (\d+)\nfirst (.*?\|[rw]\((.*?)\)\|(.*))\nsecond "
                           rb"(.*?\|[rw]\(.*?\)\|(.*))$", listed, re.M)
        ran.communicate(
            b"".join(b"%b %b %b\n" % (first, second, name) for first, second, _, name, _, _, _ in found))
        if ran.returncode:
            raise AssertionError(f"{words}: status {ran.returncode}")
    lines = page.read_bytes().split(b"\n") if found else []
    there = (
        {number: lines[int(in_page) - 1]
         for in_page, number in re.findall(rb"^event\t(\d+)\t(\d+)$", uses.read_bytes(), re.M)} if found
        else {})
    for first, second, one, _, _, other, _ in found:
        if (there.get(first), there.get(second)) != (one, other):
            raise AssertionError(f"{record}: the page's trace lacks {first} or {second}")
    return {(tuple(sorted((one.decode(), other.decode()))), name.decode())
            for _, _, _, name, one, _, other in found}


def part(answer):
    """The answer of the converter where the trace is a part of the run."""
    if answer.returncode != 1:
        raise AssertionError(f"{answer.args}: status "
                             f"{answer.returncode}\n{answer.stderr.decode(errors='replace')}")
    return answer


def places(trace):
    """The pairs of places that the analyser lists for a trace, without order."""
    listed = must(call(SHB, "places", "--list", input=trace)).stdout.decode(errors="surrogateescape")
    return {tuple(sorted(pair)) for pair in re.findall(r"^at (.*)\nand (.*)$", listed, re.M)}
