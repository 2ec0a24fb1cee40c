"""Call stacks: of a record made by hand, and of programs that enter and leave functions in many ways."""

import os
import re
import shutil
import struct
import sys

import recorder
from test_record import BLOCK, HEADER, entry, late

sys.path.insert(0, str(recorder.PYTHON))
from shb_common.stacks import Stacks  # noqa: E402


def plain(thread, operation, address, caller, depth):
    """An access of 8 bytes that tells the depth itself."""
    where, what = struct.unpack("<QQ", entry(thread, operation, address, caller, 0))
    return struct.pack("<QQ", where, what & (1 << 54) - 1 | (3 | depth << 3) << 54)


CANNED = [  # entries of a record, and for each event the calls of its stack, the innermost first
    (entry(0, "FRAME", 0x5000, 0x100, 0), []),
    (entry(0, "FRAME", 0x5100, 0x5010, 1), []),
    (entry(0, "ALLOC", BLOCK, 0x5110, 32), []),
    (entry(0, "CONTEXT", 1, 0), []),
    (entry(0, "FORK", 1, 0x5020), ["0x5020"]),
    (entry(1, "START", 0x30000000, 0x500, 4096), []),
    (entry(0, "FRAME", 0x5200, 0x5030, 1), []),
    (entry(0, "WRITE", BLOCK, 0x5210, 8), ["0x5210 0x5030"]),
    (entry(1, "FRAME", 0x5000, 0x200, 0), []),
    (entry(1, "WRITE", BLOCK, 0x5040, 8), ["0x5040"]),
    (entry(0, "FRAME", 0x5300, 0x5220, 2), []),
    (entry(0, "READ", BLOCK, 0x5310, 8), ["0x5310 0x5220 0x5030"]),
    (plain(0, "WRITE", BLOCK, 0x5060, 1), ["0x5060"]),  # that once
    (entry(0, "READ", BLOCK, 0x5320, 8), ["0x5320 0x5220 0x5030"]),
    (entry(0, "CONTEXT", 3, 0), []),
    (entry(0, "WRITE", BLOCK, 0x5230, 8), ["0x5230 0x5030"]),
    (entry(1, "CONTEXT", 5, 0), []),  # another thread's
    (entry(1, "WRITE", BLOCK, 0x5330, 8), ["0x5330 0x5220 0x5030"]),
    (entry(1, "FRAME", 0x5400, 0x5050, 1), []),  # in the first of the functions that it is in
    (entry(1, "WRITE", BLOCK, 0x5410, 8), ["0x5410 0x5050"]),
    (entry(1, "CONTEXT", 0, 0), []),
    (entry(1, "WRITE", BLOCK, 0x5070, 8), ["0x5070"]),
    (entry(0, "CONTEXT", 6, 0), []),
    (entry(0, "WRITE", BLOCK, 0x5420, 8), ["0x5420 0x5050"]),
]


def name(frame):
    """The bare name of a frame's function."""
    words = re.sub(r"\(.*", "", frame.function.decode()).replace("[clone", " ").split("::")[-1].split()
    return (words[-1] if words else "") + ("" if frame.location else "?")  # one whose line isn't known


def places(stacks, events):
    return [" ".join(frame.location.decode() for frame in stacks.of_event(event))
            for event in range(1, events + 1)]


COLD = """#include <pthread.h>
int shared;
void __attribute__((noinline)) thrower(long n) { if (n) throw 1; }
void __attribute__((noinline)) catcher(long n) {
    try { thrower(n); } catch (int) { shared++; }
}
void *run(void *p) { catcher((long)&p); return p; }
int main() {
    pthread_t t;
    pthread_create(&t, 0, run, 0);
    shared++;
    return pthread_join(t, 0);
}
"""


class MadeByHand(recorder.Case):
    def record(self):
        return self.folder / "app.rec"

    def stacks(self):
        path = self.folder / "app.stacks"
        self.record().write_bytes(HEADER + b"".join(record for record, _ in CANNED) + bytes(64))
        return path, recorder.must(recorder.convert(self.record(), "--stacks", path)).stdout

    def test_the_stack_of_each_event(self):
        path, trace = self.stacks()
        wanted = [stack for _, events in CANNED for stack in events]
        self.assertEqual(len(trace.splitlines()), len(wanted))
        found = Stacks(path, len(wanted))
        self.assertEqual(places(found, len(wanted)), wanted)
        self.assertEqual([frame.location for frame in found.of_thread(b"T1")], [b"0x5020"])
        self.assertEqual([frame.location for frame in found.of_variable(b"0x5110#1")], [b"0x5110", b"0x5010"])

    def test_a_record_cut_short_is_a_prefix(self):
        wanted = [stack for _, events in CANNED for stack in events]
        for entries in range(len(CANNED)):
            self.record().write_bytes(HEADER + b"".join(record for record, _ in CANNED[:entries]))
            path = self.folder / "app.stacks"
            events = len(
                recorder.must(recorder.convert(self.record(), "--stacks", path, "-a")).stdout.splitlines())
            found = Stacks(path, events)
            self.assertEqual(places(found, events), wanted[:events])

    def test_an_access_that_is_late_has_its_own_context(self):
        entries = [entry(0, "FORK", 1, 0x5000), entry(0, "FRAME", 0x5000, 0x100, 0),
                   entry(0, "FRAME", 0x5100, 0x5010, 1),
                   entry(1, "WRITE", BLOCK, 0x5120, 8), entry(0, "FRAME", 0x5200, 0x5020, 1),
                   entry(0, "WRITE", BLOCK, 0x5210, 8),
                   late(5, 1, plain(0, "READ", BLOCK, 0x5110, 63), 2),
                   late(4, 1, plain(0, "READ", BLOCK, 0x5030, 63), 1),
                   entry(0, "WRITE", BLOCK, 0x5220, 8)]
        path = self.folder / "app.stacks"
        self.record().write_bytes(HEADER + b"".join(entries))
        events = len(recorder.must(recorder.convert(self.record(), "--stacks", path)).stdout.splitlines())
        self.assertEqual(places(Stacks(path, events), events),
                         ["0x5000", "0x5120", "0x5030", "0x5110 0x5010", "0x5210 0x5020", "0x5220 0x5020"])

    def test_the_trace_is_the_same(self):
        _, trace = self.stacks()
        self.assertEqual(recorder.must(recorder.convert(self.record())).stdout, trace)


class Texts(recorder.Case):
    """The sums of lines: of a program whose sources are changed after it was built."""

    def setUp(self):
        super().setUp()
        self.sources = recorder.two_of_one_name(self.folder / "sources")
        self.program, self.path = self.folder / "program", self.folder / "app.rec"
        recorder.must(recorder.call("gcc", "-w", "-g", "-O1", "-fsanitize=thread", "-pthread",
                                    f"-B{recorder.BUILT}/lib/", *self.sources, "-o", self.program))
        recorder.call(self.program, env=recorder.settings(self.path))

    def sums(self):
        stacks = self.folder / "app.stacks"
        recorder.must(recorder.convert(self.path, "--stacks", stacks))
        return {place.decode(): text for place, text in Stacks(stacks).sums.items()}

    def change(self, old, new):
        source = self.sources[1]
        source.write_text(source.read_text().replace(old, new))

    def test_each_line_of_a_frame(self):
        found = self.sums()
        self.assertEqual({place for place in found if not place.startswith("main.c:")},
                         {"a/util.c:3", "b/util.c:3"})
        self.assertIn("main.c:8", found)
        self.assertNotEqual(found["a/util.c:3"], found["b/util.c:3"])
        self.assertEqual(self.sums(), found)

    def test_a_changed_line(self):
        """Its own sum changes alone; blanks at the ends don't count, those inside do."""
        before = self.sums()
        self.change("one = 2; return 0; }\n", "one = 2; return 0; } \r\n")
        self.change("void *a", "\tvoid *a")
        self.assertEqual(self.sums(), before)
        self.change("one = 2", "one = 3")
        after = self.sums()
        self.assertEqual({place for place in before if after[place] != before[place]}, {"a/util.c:3"})
        self.change("one = 3", "one =  3")
        self.assertNotEqual(self.sums()["a/util.c:3"], after["a/util.c:3"])

    def test_a_file_that_cannot_be_read(self):
        """A FIFO, a folder, a shorter file, none."""
        source = self.sources[1]
        for make in (
                lambda: source.write_text("\n\n"), lambda: source.write_text(""), lambda: (
                    source.unlink(), os.mkfifo(source)),
                     lambda: (source.unlink(), source.mkdir()), source.rmdir):
            make()
            found = self.sums()
            self.assertEqual(("a/util.c:3" in found, "b/util.c:3" in found), (False, True))


class Programs(recorder.Case):
    def stacks_of(self, source, option):
        """By line: the functions of each stack that an event there has, the innermost first, those of the
        system left out."""
        program, found = self.folder / "program", {}
        recorder.build(source, option, program)
        for seed in (1, 2):
            recorder.must(recorder.call(program, env=recorder.settings(self.folder / "app.%p.rec", seed)))
            for number, record in enumerate(sorted(self.folder.glob("app.*.rec"))):
                path = self.folder / f"{number}.stacks"
                lines = recorder.must(recorder.convert(record, "--stacks", path)).stdout.splitlines()
                stacks = Stacks(path, len(lines))
                for event, line in enumerate(lines, 1):
                    fields = line.split(b"|")
                    names = [name(frame) for frame in stacks.of_event(event) if not frame.in_system]
                    found.setdefault(fields[2].decode(), set()).add(" ".join(names))
                record.unlink()
        return found

    def check(self, source):
        wanted = recorder.marked(source, "IN")
        for option in ("-O0", "-O1", "-O2"):
            found = self.stacks_of(source, option)
            for place, stacks in wanted.items():
                with self.subTest(option=option, place=place):
                    met = {(stack, way) for stack in found.get(place, ())
                           for way in stacks if f"{stack} ".startswith(f"{way} ")}
                    others = found.get(place, set()) - {stack for stack, _ in met}
                    self.assertEqual(({way for _, way in met}, others), (stacks, set()))

    def check_exactly(self, source):
        for option in ("-O0", "-O1", "-O2"):
            found = self.stacks_of(source, option)
            for place, stacks in recorder.marked(source, "IN").items():
                with self.subTest(option=option, place=place):
                    self.assertEqual(found[place], stacks)

    def test_contexts(self):
        """After a switch the functions further out are missing, and none of another context is there."""
        self.check_exactly(recorder.PROGRAMS / "contexts.c")

    def test_fibers(self):
        """Where one was made stands further out than its functions."""
        self.check_exactly(recorder.PROGRAMS / "fibers.c")

    def test_in_c(self):
        self.check(recorder.PROGRAMS / "calls.c")

    def test_in_cxx(self):
        self.check(recorder.PROGRAMS / "calls_cxx.cc")

    def test_without_stacks(self):
        """The same trace as far as the events go; each stack is the place of its event alone."""
        program, record, path = self.folder / "program", self.folder / "app.rec", self.folder / "app.stacks"
        recorder.build(recorder.PROGRAMS / "names.c", "-O1", program)
        said = []
        for setting in ("1", "0"):
            recorder.must(recorder.call(program, env=recorder.settings(record, SHB_STACKS=setting)))
            answer = recorder.must(recorder.convert(record, "--stacks", path))
            said.append(
                b"no call stacks are known: the program was recorded with SHB_STACKS=0" in answer.stderr)
        self.assertEqual(said, [False, True])
        lines = answer.stdout.decode().splitlines()
        self.assertEqual(places(Stacks(path, len(lines)), len(lines)), [line.split("|")[2] for line in lines])

    def recorded(self, source, option):
        """The record of a program."""
        program, record = self.folder / "program", self.folder / "app.rec"
        recorder.build(source, option, program)
        recorder.must(recorder.call(program, env=recorder.settings(record)))
        return record

    def test_an_inlined_function_has_its_own_name(self):
        source, path = recorder.PROGRAMS / "inlined.cc", self.folder / "app.stacks"
        numbers = {line.partition("// ")[2]: number
                   for number, line in enumerate(source.read_text().splitlines(), 1)}
        for option in ("-O1", "-O2"):
            lines = recorder.must(recorder.convert(self.recorded(source, option), "--stacks",
                                                   path)).stdout.decode().splitlines()
            looked = next(event for event, line in enumerate(lines, 1)
                          if line.endswith(f"|inlined.cc:{numbers['LOOK']}"))
            frames = Stacks(path, len(lines)).of_event(looked)[:2]
            self.assertEqual([name(frame) for frame in frames], ["look", "lambda"])
            self.assertEqual([frame.location.decode() for frame in frames],
                             [f"inlined.cc:{numbers[it]}" for it in ("LOOK", "LAMBDA")])

    def test_a_part_of_a_function_that_stands_apart(self):
        """Compilers put what handles exceptions elsewhere, as "catcher(long) [clone .cold]"."""
        source, path = self.folder / "cold.cc", self.folder / "app.stacks"
        source.write_text(COLD)
        record = self.recorded(source, "-O2")
        self.assertIn(b"catcher(long) [clone .cold]",
                      recorder.must(recorder.call("nm", "-C", self.folder / "program")).stdout)
        recorder.must(recorder.convert(record, "--stacks", path))
        self.assertIn("frame catcher(long)\tcold.cc:5\n", path.read_text(errors="replace"))

    def test_no_program_of_the_path_is_needed(self):
        record = self.recorded(recorder.PROGRAMS / "inlined.cc", "-O1")
        answer = recorder.must(recorder.call(recorder.BUILT / "shb-std", record, env={"PATH": "/nowhere"}))
        self.assertIn(b"|inlined.cc:", answer.stdout)
        self.assertEqual(answer.stdout, recorder.must(recorder.convert(record)).stdout)

    def asked(self, source):
        """The modules that are read for the stacks of a program."""
        record, log, folder = (self.recorded(recorder.PROGRAMS / source, "-O1"), self.folder / "asked",
                               self.folder / "tools")
        folder.mkdir(exist_ok=True)
        shutil.copy(recorder.BUILT / "shb-std", folder)
        reader = folder / "module-reader"
        reader.write_text(f'#!/bin/sh\necho "$1" >> "{log}"\nexec "{recorder.BUILT}/module-reader" "$1"\n')
        reader.chmod(0o755)
        log.write_text("")
        recorder.must(recorder.call(folder / "shb-std", "--stacks", self.folder / "app.stacks", record))
        return [os.path.basename(path) for path in log.read_text().splitlines()]

    def test_no_library_without_a_caller_is_read(self):
        asked = self.asked("names.c")
        self.assertEqual((asked[0], asked.count("program"), "libm.so.6" in asked), ("program", 1, False))
        self.assertIn("libc.so.6", self.asked("calls.c"))

    def test_code_of_headers_is_told_by_the_programs_own_lines(self):
        source, program, record = (recorder.PROGRAMS / "headers.cc", self.folder / "program",
                                   self.folder / "app.rec")
        lines = source.read_text().splitlines()

        def marked(mark):
            return {f"headers.cc:{number}" for number, line in enumerate(lines, 1)
                    if line.endswith(f"// {mark}")}

        for option in ("-O0", "-O1", "-O2"):
            recorder.build(source, option, program)
            recorder.must(recorder.call(program, env=recorder.settings(record)))
            trace = recorder.must(recorder.convert(record)).stdout.decode()
            for allocated, used in (("NEW", "BILL"), ("BLOCK", "FIRST")):
                [block] = marked(allocated)
                with self.subTest(option=option, block=allocated):
                    self.assertEqual(set(re.findall(rf"(?m)^.*\|w\({block}#\d+.*\)\|(.*)$", trace)),
                                     marked(used))

    def test_each_call_of_a_function_of_a_header_in_c_is_a_place(self):
        """Also where three of them are in each other, and whatever the functions are in that call them."""
        source, program, record = (recorder.PROGRAMS / "pretended.c", self.folder / "program",
                                   self.folder / "app.rec")
        lines = source.read_text().splitlines()
        [write] = [f"pretended.c:{number}" for number, line in enumerate(lines, 1)
                   if line.endswith("// WRITE")]
        reads = [f"pretended.c:{number}" for number, line in enumerate(lines, 1) if line.endswith("// READ")]
        for option in ("-O0", "-O2"):
            recorder.build(source, option, program)
            recorder.must(recorder.call(program, env=recorder.settings(record)))
            self.assertEqual(recorder.places(recorder.must(recorder.convert(record)).stdout),
                             {tuple(sorted((read, write))) for read in reads}, option)

    def test_each_call_of_a_function_of_a_header_is_a_place(self):
        source, program, record = (recorder.PROGRAMS / "filled.cc", self.folder / "program",
                                   self.folder / "app.rec")
        lines = [f"filled.cc:{number}" for number, line in enumerate(source.read_text().splitlines(), 1)
                 if line.endswith("// FILL")]
        pairs = {tuple(sorted((one, other))) for one in lines for other in lines}
        for option in ("-O0", "-O2"):
            recorder.build(source, option, program)
            for seed in range(1, 4):
                recorder.must(recorder.call(program, env=recorder.settings(record, seed)))
                self.assertEqual(recorder.places(recorder.must(recorder.convert(record)).stdout), pairs,
                                 (option, seed))
