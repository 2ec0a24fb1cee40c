"""Locals that other threads use, by their names: of programs, of records made by hand, and of programs with
damaged debug information."""

import os
import random
import re
import shutil
import struct
import sys

import recorder
import test_members
from test_record import entry

sys.path.insert(0, str(recorder.PYTHON))
from shb_common.stacks import Stacks  # noqa: E402

END = 0x40000000  # of the main thread's stack
SOURCE = """\
struct { int id; } other;
struct pair { int id; long sum[4]; };
void work(struct pair *);
int main(void) { struct pair both_of_them = {0}; work(&both_of_them); return both_of_them.id; }
void work(struct pair *p) { p->sum[2]++; }
"""


def of_events(path, trace):
    """Of each access of a variable on a stack the place and the name of its local."""
    lines = trace.decode(errors="surrogateescape").splitlines()
    stacks = Stacks(path, len(lines))
    for event, line in enumerate(lines, 1):
        found = re.fullmatch(r"[^|]*\|[rw]\((stack\.[^!]*?)(?:!.*)?\)\|(.*)", line)
        if found:
            yield (found[2], stacks.local_of(os.fsencode(found[1]), event).decode(errors="surrogateescape")
                   or "-")


class Programs(recorder.Case):
    def recorded(self, compiler, option, source, *options):
        """The record of a program."""
        program, record = self.folder / "app", self.folder / "app.rec"
        library = recorder.BUILT / "lib"
        linked = ([f"-B{library}/"] if compiler == "gcc"
                  else ["-fno-sanitize-link-runtime", f"-L{library}", "-ltsan"])
        recorder.must(recorder.call(compiler, "-w", "-g", option, *options, "-fsanitize=thread", "-pthread",
                                    recorder.PROGRAMS / source, *linked,
                                    "-o", program))
        recorder.must(recorder.call(program, env=recorder.settings(record, SHB_CELLS="0")))
        return record

    def found(self, compiler, option, *options):
        """By line, the names of what it accesses."""
        record, path = self.recorded(compiler, option, "locals.c", *options), self.folder / "app.stacks"
        names = {}
        for place, name in of_events(path,
                                     recorder.must(recorder.convert(record, "-a", "--stacks", path)).stdout):
            names.setdefault(place, set()).add(name)
        return names

    def test_locks_and_atomics(self):
        """Each has one name in the whole trace, however much of it is written."""
        raced = {b"work.gate of main", b"work.tail of main", b"work.items[1] of main"}
        kept_apart = {b"work.door of main", b"work.count of main"}
        for compiler in ("gcc", "clang"):
            record, path = self.recorded(compiler, "-O1", "local_locks.c"), self.folder / "app.stacks"
            for options in ((), ("-a",)):
                lines = recorder.must(recorder.convert(record, *options, "--stacks",
                                                       path)).stdout.splitlines()
                stacks, named = Stacks(path, len(lines)), set()
                for line in lines:
                    name = line.split(b"(", 1)[1].split(b")|")[0].partition(b"@")[0].partition(b"!")[0]
                    named.update([stacks.lasting_locals.get(name)] if name.startswith(b"stack.main") else [])
                named.update(stacks.lasting_locals.get(use.name) for use in stacks.uses)
                wanted = raced | kept_apart
                others = named - raced - kept_apart - {b"one of main", b"other of main"}
                self.assertEqual((wanted - named, others), (set(), set()), (compiler, options))

    def test_what_other_functions_did_at_the_address(self):
        """It isn't shown under the local's name."""
        source, path, trace = (recorder.PROGRAMS / "dead_locals.c", self.folder / "app.stacks",
                               self.folder / "app.std")
        wanted = {f"dead_locals.c:{number}" for number, line in enumerate(source.read_text().splitlines(), 1)
                  if re.search(r"/\* (RACE|BEGIN) \*/", line)}
        for compiler in ("gcc", "clang"):
            for option in ("-O0", "-O1", "-O2"):
                record = self.recorded(compiler, option, "dead_locals.c")
                trace.write_bytes(recorder.must(recorder.convert(record, "--stacks", path)).stdout)
                view = recorder.PYTHON / "shb-view"
                shown = recorder.call(sys.executable, view, "--stacks", path, trace,
                                      env={**os.environ, "SHB": str(recorder.SHB)})
                with self.subTest(compiler=compiler, option=option):
                    self.assertIn(b"1. flag of wait_for", recorder.must(shown).stdout)
                    self.assertEqual(
                        set(re.findall(r"(?m)^   (dead_locals\.c:\d+): ", shown.stdout.decode())), wanted)

    def test_by_gcc(self):
        wanted = recorder.marked(recorder.PROGRAMS / "locals.c", "IS")
        self.assertGreater(len(wanted), 10)
        for option in ("-O0", "-O1", "-O2", "-O3"):
            found = self.found("gcc", option)
            for place, names in wanted.items():
                with self.subTest(option=option, place=place):
                    self.assertEqual(found.get(place), names)

    def test_older_lists_of_locations(self):
        """They tell the same as those of DWARF 5, of the lines that are marked: where else a name is certain
        depends on the address at which the stack begins."""
        wanted = recorder.marked(recorder.PROGRAMS / "locals.c", "IS")
        for compiler in "gcc", "clang":
            if shutil.which(compiler):
                newest = self.found(compiler, "-O2", "-gdwarf-5")
                for version in 3, 4:
                    found = self.found(compiler, "-O2", f"-gdwarf-{version}")
                    for place in wanted:
                        with self.subTest(compiler=compiler, version=version, place=place):
                            self.assertEqual(found.get(place, set()) - {"-"},
                                             newest.get(place, set()) - {"-"})

    def test_by_clang(self):
        """It doesn't tell of each where it lies, and may have no hooks for members; a part of one may be a
        variable of its own."""
        if not shutil.which("clang"):
            self.skipTest("clang isn't installed")
        wanted = recorder.marked(recorder.PROGRAMS / "locals.c", "IS")
        for option in ("-O0", "-O1", "-O2", "-O3"):
            found = {place: {name.replace("+4", "") for name in names}
                     for place, names in self.found("clang", option).items()}
            for place, names in wanted.items():
                with self.subTest(option=option, place=place):
                    self.assertEqual(found.get(place, set()) - names - {"-"}, set())
            named = set().union(*found.values())
            self.assertLessEqual({"total of main", "mine of descend", "buffer[2] of worker",
                                  "first of blocks", "second of blocks",
                                  "queue.items[1].range.high of main", "cells[4] of grid"}, named, option)


class MadeByHand(recorder.Case):
    """Records of a program of which `main` is entered by hand, at places that are said to be anywhere."""

    def setUp(self):
        super().setUp()
        self.program, self.record, self.path = (self.folder / "app", self.folder / "app.rec",
                                                self.folder / "app.stacks")
        (self.folder / "app.c").write_text(SOURCE)
        recorder.must(recorder.call("gcc", "-g", "-no-pie", self.folder / "app.c", "-o", self.program))
        listed = recorder.must(recorder.call("nm", self.program)).stdout.decode()
        self.main = int(re.search(r"(?m)^(\w+) T main$", listed)[1], 16)
        told = recorder.must(recorder.call("readelf", "--debug-dump=info", self.program)).stdout.decode()
        # below main's caller's frame
        self.at = int(re.search(r"both_of_them\n(?:.*\n){0,4}?.*DW_OP_fbreg: (-\d+)", told)[1])

    def entered(self, gap=8, size=200, depth=0, thread=0):
        return (entry(thread, "PLACE", gap | size << 24, 0)
                + entry(thread, "FRAME", self.main + 12, 0x100 + depth, depth))

    def write(self, frames, inside=4, gap=8, before=b"", behind=b""):
        """A record in which both threads write main's local, so far inside, while the main thread is
        in these frames."""
        local = END - gap + self.at + inside
        entries = [entry(0, "START", END - 8192, 0, 8192), entry(0, "FORK", 1, 0x101),
                   entry(1, "START", 0x30000000, 0x500, 4096), before,
                   frames, entry(0, "WRITE", local, self.main + 20, 4), entry(1, "WRITE", local, 0x200, 4),
                   behind]
        header = b"shb-record 12\n0 ffffff 0 " + os.fsencode(self.program) + b"\n"
        self.record.write_bytes(header.ljust(65536 - 256, b"\0") + b"whole".ljust(256, b"\0")
                                + b"".join(entries))

    def names(self, converter=None):
        words = [converter or recorder.BUILT / "shb-std", "--stacks", self.path, self.record]
        answer = recorder.must(recorder.call(*words, env={**os.environ, "ASAN_OPTIONS": "detect_leaks=0"}))
        self.assertEqual(answer.stdout, recorder.must(recorder.convert(self.record)).stdout)
        return [name for _, name in of_events(self.path, answer.stdout)]

    def test_a_name(self):
        for inside, name in ((0, "both_of_them.id of main"), (4, "both_of_them+4 of main"),
                             (8, "both_of_them.sum[0] of main"),
                             (28, "both_of_them.sum[2]+4 of main"), (40, "-"), (-8, "-")):
            self.write(self.entered(), inside)
            with self.subTest(inside):
                self.assertEqual(self.names(), [name, name])

    def test_a_function_that_is_left_names_nothing(self):
        local = END - 8 + self.at
        name, again, left = ("both_of_them.id of main", entry(0, "WRITE", local, self.main + 20, 4),
                             entry(0, "CONTEXT", 0, 0))
        elsewhere = self.entered(gap=16) + entry(0, "CONTEXT", 2, 0)
        # at the second it may have been left
        for behind, names in ((left + entry(1, "WRITE", local, 0x201, 4), [name, "-", "-"]),
                              (again + left + entry(1, "WRITE", local, 0x201, 4), [name, name, name, "-"]),
                              (again + elsewhere + entry(1, "WRITE", local, 0x202, 4),
                               [name, name, name, "-"]),
                              (again + self.entered() + again + entry(1, "WRITE", local, 0x202, 4),
                               [name] * 5)):
            self.write(self.entered(), 0, behind=behind)
            self.assertEqual(self.names(), names)

    def test_two_frames_of_one_function(self):
        """The one further out begins 8 bytes below the stack's end, the other one 16 below the stack
        pointer of that."""
        inner = entry(0, "PLACE", 16 | 200 << 24, 0) + entry(0, "FRAME", self.main + 12, self.main + 30, 1)
        self.write(self.entered() + inner, 0, gap=8 + 200 + 16)
        self.assertEqual(self.names(), ["both_of_them.id of main"] * 2)
        self.write(self.entered() + inner, 0, gap=8)
        self.assertEqual(self.names(), ["both_of_them.id of main"] * 2)
        self.write(self.entered() + inner, 40, gap=8 + 200 + 16)
        self.assertEqual(self.names(), ["-"] * 2)

    def test_damaged_places(self):
        """A name is one of the local, or none is there."""
        converter, draw = recorder.sanitized(), random.Random(5)
        numbers = (0, 1, 7, 8, 16, 199, 200, (1 << 24) - 1)
        for _ in range(60):
            frames = b"".join(self.entered(draw.choice(numbers), draw.choice(numbers), depth)
                              for depth in range(draw.randrange(1, 4)))
            extra = entry(draw.randrange(3), "PLACE", draw.getrandbits(48), draw.getrandbits(48),
                          draw.randrange(1000))
            self.write(frames, behind=extra + entry(1, "WRITE", END - draw.randrange(1 << 13), 0x203, 4))
            self.assertLessEqual({re.sub(r"[.+].*", "", name) for name in self.names(converter)},
                                 {"both_of_them", "-", "both_of_them of main"})

    def test_hostile_names(self):
        good = self.program.read_bytes()
        for hostile in (b"a|b\n\t@#!", b"\x1b[2J\xff\xfe\r\n", b"of main\t1", b"<script>",
                        b"\xe2\x80\xae.id of x"):
            self.program.write_bytes(good.replace(b"both_of_them", hostile[:12].ljust(12, b"_")))
            self.write(self.entered())
            shown = re.sub(rb"[\x00-\x1f|]", b"!", hostile[:12].ljust(12, b"_"))
            self.assertEqual([os.fsencode(name) for name in self.names()], [shown + b"+4 of main"] * 2)

    def test_damaged_debug_information(self):
        converter, good = recorder.sanitized(), self.program.read_bytes()
        self.write(self.entered())
        names = set()
        for number, content in enumerate(
                [good, *test_members.Damaged.damaged(self, good, test_members.sections(self.program))]):
            self.program.write_bytes(content)
            with self.subTest(number):
                names.update(self.names(converter))
        self.assertLessEqual({"both_of_them+4 of main", "-"}, names)
