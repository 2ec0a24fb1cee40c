#!/usr/bin/env python3
"""The list of places of `shb-std`'s text has those of a record: of records drawn at random `analysis.py`
finds the same, from the entries alone.

    test_drawn.py FIRST LAST    these seeds, by hand, each verified

What decides which accesses `shb` is given, and of which variable, is in the converter; so a fault there would
be found, which is tested too.
"""

import functools
import io
import pathlib
import re
import sys
import types

if __name__ == "__main__":
    sys.path += [str(pathlib.Path(__file__).resolve().parents[2] / name) for name in ("tests", "python")]

import recorder
import test_open
from analysis import Analysis, Step
from shb_common.report import Report
from shb_common.words import Refused
from shb_record import converting
from test_record import HEADER, entry

POSITION_BITS, ENTRY_BYTES = 40, 16
BLOCK = re.compile(rb"0x[0-9a-f]+#(\d+)(?:\+(\d+))?")


class Drawn(test_open.Drawn):
    """Besides: accesses of any bytes of a few cells, blocks that are freed and allocated again, ends of locks
    and semaphores, counters; long ranges, large blocks, and barriers, which a thread may leave before others
    come; mixed accesses of an atomic, and a lock that others release than took it."""

    all_words = ([words + more for words in test_open.WORDS for more in ("", "B", "BD", "RWBB")]
                 + ["RWGG", "RWGAF", "RWG"] * 2)
    all_words += ["M"] * 8 + ["RWMB", "RWV", "WVB"]
    all_words += ["RWN", "NNB", "RRKKK", "WKKKL", "NKKK", "RWTT", "RWTTL", "NTTT"]
    sizes = 1, 2, 3, 4, 8, 16, 24
    large, barrier, buffer, passed = 0x9000, 0x7100, 0xa000, 0x6200

    def __init__(self, seed):
        self.inside = set()  # of the barrier
        super().__init__(seed)

    def step(self, word):
        if word in "RW":
            cell = self.draw.choice([*self.cells, *self.blocks()]) + self.draw.randrange(12)
            self.add("READ" if word == "R" else "WRITE", cell, self.draw.choice(self.sizes))
        elif word == "B":
            at = self.draw.choice((0x8000, 0x8020, 0x8040))
            self.add(*self.draw.choice((("ALLOC", at, self.draw.randrange(1, 65)), ("FREE", at))))
        elif word == "G":  # gives, and takes what others gave
            cell = self.draw.choice(self.cells[:2])
            self.add("ATOMIC_UPDATE", cell, 4 | 3 << 5)
            if self.draw.random() < 0.3:
                super().step("W")
            self.add("ATOMIC_LOAD", cell, 4 | 2 << 5)
        elif word == "N":
            cell = self.draw.choice([*self.cells, *self.blocks()]) + self.draw.randrange(0, 600, 4)
            self.add(self.draw.choice(("READ", "WRITE")), cell, self.draw.choice((256, 300, 504, 512, 600)))
        elif word == "K":
            self.use_large_block()
        elif word == "T":
            self.pass_barrier()
        elif word == "V":
            self.pass_lock()
        elif word == "M":
            self.use_mixed()
        elif word == "D":
            self.add("DESTROY", self.draw.choice((0x6000, 0x7000)))
        else:
            super().step(word)

    def use_large_block(self):
        kind = self.draw.choice(("ALLOC", "FREE", "READ", "WRITE", "READ", "WRITE"))
        if kind == "FREE":
            self.add("FREE", self.large)
        elif kind == "ALLOC":
            self.add("ALLOC", self.large, self.draw.choice((1024, 2000, 4096, 8192)))
        else:
            at = self.draw.choice((0, 500, 510, 516, 1000, 1020, 4000, 4092))
            self.add(kind, self.large + at, self.draw.choice(self.sizes))

    def use_mixed(self):
        """An atomic that half of the threads only load, and others store, and write once or twice; beside
        bytes that these race for."""
        chance = self.draw.random()
        if self.thread % 2 or chance > 0.3:
            writes = chance > 0.9 and sum(step.operation == "WRITE" and step.address == self.cells[0]
                                          for step in self.steps) < 2
            kind = "ATOMIC_LOAD" if self.thread % 2 else "WRITE" if writes else "ATOMIC_STORE"
            self.add(kind, self.cells[0], 4)
        else:
            for byte in range(self.draw.randrange(2, 12)):
                self.add("WRITE", self.buffer + byte, 1)

    def pass_lock(self):
        holder = self.owners.get(self.passed)
        if holder is None:
            self.owners[self.passed] = self.thread
            self.add("LOCK", self.passed)
        elif holder == self.thread or self.draw.random() < 0.2:
            del self.owners[self.passed]
            self.add("UNLOCK", self.passed)

    def pass_barrier(self):
        if not any(step.operation == "BARRIER_INIT" for step in self.steps) or self.draw.random() < 0.02:
            self.add("BARRIER_INIT", self.barrier, self.draw.randrange(1, 6))
        self.add("DEPART" if self.thread in self.inside else "ARRIVE", self.barrier)
        self.inside ^= {self.thread}

    def end(self, thread, chance=1):
        if thread not in self.inside:
            super().end(thread, chance)

    def blocks(self):
        return [step.address for step in self.steps if step.operation == "ALLOC"][-3:]


def file_of(drawn, draw):
    """The record of drawn steps. Some plain accesses of one entry come late, as the recorder's do, and some
    of these twice."""
    file, late, order, before = bytearray(), [], 0, None
    for step in drawn.steps:
        written = entry(step.thread, step.operation, step.address, step.place, step.size)
        if step.operation in ("READ", "WRITE") and len(written) == ENTRY_BYTES and draw.random() < drawn.late:
            order = order + 1 if before == len(file) // ENTRY_BYTES else 1
            before = len(file) // ENTRY_BYTES
            late.append((before << 12 | order, written))
        else:
            file += written
        if draw.random() < 0.1:
            come(file, late, draw)
    come(file, late, draw)
    return HEADER + file


def come(file, late, draw):
    for position, written in [*late, *draw.sample(late, len(late) // 4)]:
        file += entry(0, "LATE", position | draw.randrange(2) << POSITION_BITS, 0) + written
    late.clear()


@functools.lru_cache(maxsize=None)  # several tests take the same ones
def drawn_record(seed):
    """A drawn record, and the bytes that race in it by two places, each as (number of the block, address or
    offset)."""
    drawn = Drawn(seed)
    drawn.late = drawn.draw.choice((0, 0, 0.3, 0.8))
    analysis = Analysis(drawn.steps)
    at = {block.number: block.at for block in analysis.blocks}
    return file_of(drawn, drawn.draw), {place: {(block, byte - at.get(block, 0)) for block, byte in racing}
                                        for place, racing in analysis.races.items()}


def draw_record(folder, seed):
    """The bytes that race in a drawn record, which is written to a file."""
    record, wanted = drawn_record(seed)
    path = folder / "app.rec"
    path.write_bytes(record)
    return wanted, path


def listed(path, converter):
    """What `shb places --list` has of the trace of all variables."""
    trace = recorder.must(recorder.call(converter, "--list", path)).stdout
    return bytes_in(Report(
        io.BytesIO(
            recorder.must(recorder.call(recorder.SHB, "places", "--list", "--variables",
                                        input=trace)).stdout)).races())


def found(path, converter, is_verified=False):
    """The same as shb-record finds it, by a coarse trace first; with the page's trace of all places. Besides,
    how many traces it took."""
    options = types.SimpleNamespace(strip=None, live=False, window=4_194_304, known_path=None,
                                    verify=is_verified)
    conversion = converting.Conversion(converting.Process("", "", "", path, []), options)
    conversion.words[0], taken, take = converter, [], conversion.take
    conversion.take = lambda listing: taken.append(listing) or take(listing)
    converting.ANALYSER = recorder.SHB
    conversion.find(lambda _, places: places)
    return bytes_in(conversion.races), len(taken)


def bytes_in(races):
    """By two places: the first bytes of the variables of races, as (number of the block, address or
    offset)."""
    found = {}
    for race in races:
        name = race.accesses[0].name.partition(b"!")[0]
        block = BLOCK.fullmatch(name)
        byte = (int(block[1]), int(block[2] or 0)) if block else (0, int(name, 16))
        found.setdefault(tuple(int(location, 16) for location in race.place), set()).add(byte)
    return found


def differs(wanted, found):
    """What of these places isn't as the analysis has it, or nothing. A variable is named by its first byte;
    the bytes behind it that race at the same place are of it too."""
    if found.keys() != wanted.keys():
        return "places", sorted(found.keys() ^ wanted.keys())
    for place, racing in wanted.items():
        begun = {(block, byte) for block, byte in racing if (block, byte - 1) not in racing}
        if not begun <= found[place] <= racing:
            return "variables", place
    return None


class Decided(recorder.Case):
    def test_coarse_traces_find_the_races_of_the_record(self):
        """By one trace, by a finer one, and by that of all variables."""
        traces = set()
        converter = bundling(self.folder / "bundling")
        for seed in range(150):
            wanted, path = draw_record(self.folder, seed)
            races, count = found(path, converter, seed % 3 == 0)
            self.assertIsNone(differs(wanted, races), seed)
            traces.add(count)
        self.assertEqual(traces, {1, 2, 3})

    def test_the_list_has_the_races_of_the_record(self):
        places = 0
        for seed in range(300):
            wanted, path = draw_record(self.folder, seed)
            found = listed(path, recorder.BUILT / "shb-std")
            self.assertIsNone(differs(wanted, found), seed)
            places += len(found)
        self.assertGreater(places, 1000)

    def test_a_thread_that_uses_a_bundle_alone_begins_on_the_page(self):
        """Else its join by another thread than forked it would make an event there."""
        path, cell, byte = self.folder / "app.rec", 0x5000, 0x100000
        steps = [Step(0, "FORK", 1, 0x101), Step(0, "FORK", 2, 0x102), Step(0, "WRITE", cell, 0x103, 4),
                 *(Step(1, "WRITE", byte + k, 0x201, 1) for k in range(3)), Step(2, "JOIN", 1, 0x301),
                 *(Step(2, "READ", byte + k, 0x302, 1) for k in range(3)), Step(2, "WRITE", cell, 0x303, 4)]
        path.write_bytes(HEADER + b"".join(entry(*step) for step in steps))
        self.assertEqual(found(path, recorder.BUILT / "shb-std"), ({(0x103, 0x303): {(0, cell)}}, 1))

    def test_a_read_of_a_finer_trace_repeats_none_of_a_coarse_one(self):
        """The thread's first read in the second trace is as its last one in the first, and has a race of its
        own, with the write that came between the two."""
        path, cell, other = self.folder / "app.rec", 0x5000, 0x5100
        steps = [*(Step(0, "FORK", child, 0x100 + child) for child in (1, 2, 3)),
                 Step(1, "ATOMIC_LOAD", cell, 0x201, 4), Step(0, "WRITE", cell, 0x104, 4),
                 Step(0, "WRITE", other, 0x105, 4), Step(1, "READ", other, 0x202, 4),
                 Step(1, "ATOMIC_LOAD", cell, 0x201, 4), Step(2, "ATOMIC_STORE", cell, 0x301, 4),
                 *(Step(thread, "WRITE", 0x100000 + k, 0x402, 1) for thread in (2, 3) for k in range(40))]
        path.write_bytes(HEADER + b"".join(entry(*step) for step in steps))
        wanted = Analysis(steps).races
        self.assertIn((0x201, 0x104), wanted)
        for fault, is_right in ((), True), (("records.c", "        s->epoch++;\n", ""), False):
            converter = test_open.planted(self.folder / f"epoch{is_right}", *fault)
            races, traces = found(path, converter)
            self.assertEqual((differs(wanted, races) is None, traces), (is_right, 2))
        said = "only the trace that omits nothing has a race of 0x5000 at 0x201 and 0x104; 1 such race"
        with self.assertRaisesRegex(converting.Contradiction, said):
            found(path, converter, True)

    def test_a_fence_takes_all_that_was_read(self):
        """What each of two threads gave, and what a value gave that a store replaced, though who gave last
        had taken all that the new one gave."""
        path, x, y, atomic = self.folder / "app.rec", 0x5000, 0x5008, 0x6000
        forks = [Step(0, "FORK", child, 0x100 + child) for child in (1, 2, 3, 4)]
        first = [Step(1, "WRITE", x, 0x201, 4), Step(1, "ATOMIC_UPDATE", atomic, 0x202, 4 | 3 << 5)]
        reads = [Step(3, "ATOMIC_LOAD", atomic, 0x401, 4)]
        fence = [Step(3, "FENCE", 0, 0x402, 2), Step(3, "READ", x, 0x403, 4), Step(3, "READ", y, 0x404, 4)]
        second = [Step(2, "WRITE", y, 0x301, 4), Step(2, "ATOMIC_UPDATE", atomic, 0x302, 4 | 3 << 5)]
        replaced = [Step(2, "ATOMIC_STORE", atomic, 0x302, 4 | 3 << 5),
                    Step(4, "ATOMIC_LOAD", atomic, 0x501, 4 | 2 << 5),
                    Step(4, "ATOMIC_UPDATE", atomic, 0x502, 4 | 3 << 5)]
        for steps, before, after in (
                (first + second + reads, "if (g.taken > from) from = g.taken;", "break;"),
                (first + reads + replaced + reads, "last->to == from && from > o->begun",
                 "last->to == from")):
            path.write_bytes(HEADER + b"".join(entry(*step) for step in forks + steps + fence))
            wanted = Analysis(forks + steps + fence).races.keys()
            self.assertNotIn((0x201, 0x403), wanted)
            self.assertEqual(listed(path, recorder.BUILT / "shb-std").keys(), wanted)
            faulty = test_open.planted(self.folder / before[:4], "objects.c", before, after)
            self.assertIn((0x201, 0x403), listed(path, faulty))

    def test_a_free_ends_with_its_block(self):
        """Who reads bytes behind it sees who wrote these, and comes after that thread's other accesses."""
        path, cell, block = self.folder / "app.rec", 0x5000, 0x8000
        steps = [Step(0, "FORK", 1, 0x101), Step(0, "FORK", 2, 0x102), Step(0, "ALLOC", block, 0x103, 7),
                 Step(1, "WRITE", cell, 0x201, 4), Step(1, "WRITE", block + 4, 0x202, 8),
                 Step(0, "FREE", block, 0x104), Step(2, "READ", block + 4, 0x301, 8),
                 Step(2, "READ", cell, 0x302, 4)]
        path.write_bytes(HEADER + b"".join(entry(*step) for step in steps))
        wanted = Analysis(steps).races
        self.assertNotIn((0x201, 0x302), wanted)
        self.assertEqual(listed(path, recorder.BUILT / "shb-std").keys(), wanted.keys())

    def test_each_variable_at_a_place_is_verified(self):
        """Two neighbours race at one place, in a block whose memory one thread alone had before, and cut."""
        path, block = self.folder / "app.rec", 0x8000
        lost = test_open.planted(self.folder / "lost", "accesses.c", "? 1 : r->count;",
                                 "|| !whole_trace ? 1 : r->count;")
        steps = [Step(0, "FORK", 1, 0x101), Step(0, "ALLOC", block, 0x102, 64),
                 *(Step(0, "WRITE", block + at, 0x103, 2) for at in range(0, 64, 2)),
                 Step(0, "FREE", block, 0x104), Step(0, "ALLOC", block, 0x105, 64),
                 Step(0, "WRITE", block, 0x106, 16),
                 *(Step(1, "WRITE", block + at, 0x201, 8) for at in (0, 8))]
        path.write_bytes(HEADER + b"".join(entry(*step) for step in steps))
        races = {(0x106, 0x201): {(2, 0), (2, 8)}}
        self.assertEqual(found(path, recorder.BUILT / "shb-std", True), (races, 2))
        with self.assertRaisesRegex(converting.Contradiction, r"0x105#2\+8 at 0x106 and 0x201; 1 such race"):
            found(path, lost, True)

    def test_a_record_that_is_read_a_few_entries_at_a_time(self):
        few = test_open.planted(self.folder / "few", "records.c", "AT_ONCE = 1 << 16", "AT_ONCE = 3")
        for seed in range(50):
            _, path = draw_record(self.folder, seed)
            self.assertEqual(recorder.must(recorder.call(few, path)).stdout,
                             recorder.must(recorder.convert(path)).stdout, seed)


MANY = 2**16 + 1  # variables; tables of recent ones have 2**16 and 2**14


def is_right_of_many(folder, converter):
    """Each variable is read by one thread at one place, and then written by another one."""
    variables = range(0x100000, 0x100000 + 8 * MANY, 8)
    record = folder / "many.rec"
    accesses = [(1, "READ", "r", 0x201), (0, "WRITE", "w", 0x102)]
    record.write_bytes(HEADER + entry(0, "FORK", 1, 0x101)
                       + b"".join(entry(t, kind, at, place, 8) for t, kind, _, place in accesses
                                  for at in variables))
    wanted = ["main|fork(T1)|0x101", *(f"{'main' if t == 0 else 'T1'}|{word}({at:#x})|{place:#x}"
                                       for t, _, word, place in accesses for at in variables)]
    return recorder.must(recorder.call(converter, "--list", record)).stdout.decode().splitlines() == wanted


class Many(recorder.Case):
    def test_more_variables_than_tables_of_recent_ones_have(self):
        self.assertTrue(is_right_of_many(self.folder, recorder.BUILT / "shb-std"))

    def test_a_page_omits_the_same_reads_as_the_list(self):
        """Also where reads at two places share entries of the table of recent ones."""
        record, races, page, uses = (self.folder / name for name in ("app.rec", "races", "page", "uses"))
        variables = range(0x100000, 0x100000 + 8 * (MANY // 2), 8)
        accesses = (1, "READ", 0x201), (1, "READ", 0x202), (1, "READ", 0x201), (0, "WRITE", 0x102)
        record.write_bytes(HEADER + entry(0, "FORK", 1, 0x101)
                           + b"".join(entry(t, kind, at, place, 8) for t, kind, place in accesses
                                      for at in variables))
        trace = recorder.must(recorder.convert(record, "--list")).stdout.decode().splitlines()
        name = hex(variables[-1])
        one, other = (trace.index(line) + 1 for line in (f"T1|r({name})|0x201", f"main|w({name})|0x102"))
        races.write_text(f"{one} {other} {name}\n")
        recorder.must(recorder.convert(record, "--list", "--only", races, "--page", page, "--uses", uses))
        events = [line for line in uses.read_text().splitlines() if line.startswith("event\t")]
        self.assertEqual([line.split("\t")[2] for line in events], [str(one), str(other)])

    def test_a_file_of_stacks_changes_no_trace(self):
        """Nor which reads share entries of that table, though the functions of frames are places then."""
        record, stacks = self.folder / "app.rec", self.folder / "stacks"
        accesses = (1, "READ", 0x201), (1, "READ", 0x202), (1, "READ", 0x201), (0, "WRITE", 0x102)
        record.write_bytes(HEADER + entry(0, "FORK", 1, 0x101) + entry(1, "FRAME", 0x300, 0x301)
                           + b"".join(entry(t, kind, 0x100000 + 8 * k, place, 8)
                                      for t, kind, place in accesses for k in range(MANY // 2)))
        trace, other = (recorder.must(recorder.convert(record, *words)).stdout
                        for words in (["--list"], ["--list", "--stacks", stacks]))
        self.assertEqual(trace, other)

    def test_each_fault_is_found(self):
        for number, (name, before, after) in enumerate(FAULTS_OF_MANY):
            with self.subTest(before):
                converter = test_open.planted(self.folder / str(number), name, before, after)
                self.assertFalse(is_right_of_many(self.folder, converter))


FAULTS_OF_MANY = (
    ("events.c", "if (recent[at].piece != number) {", "if (!recent[at].piece) {"),
    ("accesses.c", " && last->piece == number", ""),
)
FAULTS = {  # to plant in the converter: the file, what stands there, and what in its place
    "users": ("accesses.c", "    add_thread(&b->users, e->thread);", ""),
    "cuts": ("accesses.c", "cut(e->address, end);", "cut(e->address, e->address);"),
    "who takes a lock that others release gives": (
        "objects.c", "if (o->foreign) pass_lock(o, t, own, caller);\n        else if", "if"),
    "atomics": ("accesses.c", "if (u->writes_atomically && has_others(users->readers, u->thread)) {",
                "if (u->writes_atomically && users->readers == SEVERAL) {"),
    "reuse": ("memory.c", "return grain > p->whole ? grain : p->whole;",
              "return grain ? 1 : p->whole;"),
    "what was used before others did is cut no more": ("accesses.c", "else if (b && i < b->shared_at) {",
                                                       "else if (0) {"),
    "a write after a read is the same use": ("bundles.c", "s->region * 2 + (writes ? WRITES : 0)",
                                             "s->region * 2"),
    "late": ("late.c", "u64 order = its->where % POSITIONS;", "u64 order = end - first;"),
    "list_name": ("events.c", "        part name = variable_name(p->at, p->block", "        part name = "
                  "variable_name(p->at & ~1ul, p->block"),
    "shared_lock": ("objects.c", "(o->threads == SEVERAL && (", "(is_atomic(e->operation) && ("),
    "the last section before another thread's": ("objects.c", "orders_others.at[o->section - 1] = orders",
                                                 "orders"),
    "the first section behind another thread's": ("objects.c", "= orders_others.at[orders_others.count - 1] "
                                                  "= 1;", "= 1;"),
    "an atomic read stands for a plain one": ("accesses.c", " | (u64)u->reads << 63", ""),
    "repeats": ("accesses.c", " && last->writes == this.writes", ""),
    "every write is the last": ("accesses.c", "if (e->number < p->last_write) {", "if (0) {"),
    "who writes atomically is no writer": ("accesses.c", "    add_thread(&p->writers", "    if (u->writes) "
                                           "add_thread(&p->writers"),
    "fences": ("objects.c", "if (releases(e)) threads[e->thread].is_fenced = 1;", ""),
    "what others gave is dropped": ("objects.c", "while (o->gifts && sight_at(o->first_gift)->gift <= last)",
                                    "while (o->gifts)"),
    "a wait takes one post": ("objects.c", "!is_last_post(o, p)) continue;",
                              "k < o->posts.count) continue;"),
    "a poster had taken all": ("objects.c", "(p->taken > first) first = p->taken;", "(1) break;"),
    "more than gifts is given on": ("objects.c", " || threads[t].gave != index_of(o) + 1", ""),
    "no begin of a thread that did nothing": ("main.c", "if (!has_events(child) &&", "if (0 &&"),
    "half of what is freed": ("records.c", "MAX_FREED = 1024", "MAX_FREED = 512"),
    "ranges of 256 bytes and more": (
        "records.c", "inside & IS_RANGE ? inside - IS_RANGE",
        "inside & IS_RANGE ? (inside - IS_RANGE) % 256"),
    "blocks of whole pages": ("memory.c", "if (stop - from == PAGE) p->whole = number;", "if (stop - from == "
                              "PAGE) p->whole = 0;"),
    "a barrier has one round": ("objects.c", "u32 round = has_rounds ? o->arrivals / o->count : 0;",
                                "u32 round = 0;"),
    "a barrier always has rounds": ("objects.c", "o->count && o->users <= o->count && !o->recounted",
                                    "o->count"),
    "who leaves a barrier gets nothing": ("objects.c", "    case OP_DEPART: pass_lock(",
                                          "    case OP_DEPART: if (0) pass_lock("),
    "a fork ends no repeats": (
        "events.c", "if (*operation != 'r' || operation[1]) threads", "if (!strchr(\"rf\", *operation)) "
                                                                      "threads"),
    "acquire fences": ("objects.c", "if (acquires(e)) take_noted(e->thread, hand, e->caller);", ""),
    "numbers that are used again": ("records.c", "if (is_used[number]) with_number[number] = thread_bound();",
                                    ""),
}


FAULTS_OF_BUNDLES = {
    "a finer trace omits what repeats a coarse one": ("records.c", "        s->epoch++;\n", ""),
    "no last use": ("bundles.c", "u->is_pending = 1;", "u->is_pending = 0;"),
    "no first use of a later phase": ("bundles.c", "u->phase != b->phase", "!u->phase"),
    "who writes reads": ("bundles.c", 'b->writer ? "w" : "r"', '"r"'),
    "reading ends no phase of another's writing": ("bundles.c", "(writes || b->writer)", "writes"),
    "writing ends no phase of reading": ("bundles.c", "(writes || b->writer)", "b->writer"),
    "a last use behind its phase": ("bundles.c", "for (u32 k = b->users;", "for (u32 k = 0;"),
    "an atomic is in a bundle": ("accesses.c", "if (in_region == APART) p->last = APART;",
                                 "if (in_region == APART) note_history(p, use_in_region(u->thread, 0));"),
    "a page has other numbers": ("events.c", "        meet_span();\n        events++;\n    }\n    threads",
                                 "        meet_span();\n    }\n    threads"),
}
FAULTS_OF_PAGES = {
    "no page for what is written atomically": ("page.c", "if (!sign) return;", "return;"),
    "visits of other variables aren't counted": ("accesses.c", "if (!made && !is_kept) return;",
                                                 "if (!is_kept) return;"),
    "a read has events where the run's has none": ("accesses.c", "int made = next_visit(),",
                                                   "int made = next_visit() | 1,"),
    "locks before what is passed over aren't counted": ("events.c", "    write_holds(t);\n    meet_span();",
                                                        "    meet_span();"),
}


def bundling(folder, *fault):
    """The converter with bundles however few uses they have, and a fault."""
    few = "bundles.c", "if (of_bundles < uses / 2)", "if (0)"
    return test_open.planted(folder, *few, *fault)


class Planted(recorder.Case):
    def test_each_fault_of_bundles_is_found(self):
        for number, (fault, planted) in enumerate(FAULTS_OF_BUNDLES.items()):
            with self.subTest(fault):
                converter = bundling(self.folder / f"bundles{number}", *planted)
                self.assertTrue(any(self.has_other_races(converter, seed) for seed in range(300)))

    def has_other_races(self, converter, seed):
        wanted, path = draw_record(self.folder, seed)
        try:
            return differs(wanted, found(path, converter)[0]) is not None
        except Refused:
            return True

    def test_each_fault_of_pages_is_found(self):
        for number, (fault, (name, before, after)) in enumerate(FAULTS_OF_PAGES.items()):
            with self.subTest(fault):
                converter = test_open.planted(self.folder / f"page{number}", name, before, after)
                self.assertTrue(any(self.has_other_page(converter, seed) for seed in range(300)))

    def has_other_page(self, converter, seed):
        """Whether the page's trace hasn't the places of the run, or lacks accesses of a race."""
        _, path = draw_record(self.folder, seed)
        page = self.folder / "page.std"
        try:
            found = recorder.listed(path, page, converter)
            return bool(found) and recorder.places(page.read_bytes()) != {place for place, _ in found}
        except AssertionError:
            return True

    def is_found(self, converter):
        for seed in range(300):
            wanted, path = draw_record(self.folder, seed)
            try:
                if differs(wanted, listed(path, converter)):
                    return True
            except (AssertionError, ValueError):
                return True  # it can't go on
        return False

    def test_each_fault_is_found(self):
        for number, (fault, (name, before, after)) in enumerate(FAULTS.items()):
            with self.subTest(fault):
                self.assertTrue(
                    self.is_found(test_open.planted(self.folder / str(number), name, before, after)))


def compare(folder, seed, *converters):
    """What differs between a drawn record, its list, and what coarse traces have with --verify."""
    wanted, path = draw_record(folder, seed)
    yield differs(wanted, listed(path, recorder.BUILT / "shb-std"))
    for converter in converters:
        try:
            yield differs(wanted, found(path, converter, True)[0])
        except converting.Contradiction as refused:
            yield str(refused)


def main(folder, first, last):
    recorder.SHB = recorder.SOURCES.parent / "bin" / "shb"
    recorder.build_recorder(folder)
    converters, count = (recorder.BUILT / "shb-std", bundling(folder / "bundling")), 0
    for seed in range(first, last):
        for said in filter(None, compare(folder, seed, *converters)):
            print(seed, said)
            count += 1
    print(f"{last - first} records, {count} differences")
    sys.exit(count > 0)


if __name__ == "__main__":
    import tempfile
    with tempfile.TemporaryDirectory() as made:
        main(pathlib.Path(made), int(sys.argv[1]), int(sys.argv[2]))
