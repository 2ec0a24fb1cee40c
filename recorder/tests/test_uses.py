"""The table of uses, which facts of locks count from."""

import re

import recorder
from shb_common import uses as files
from test_record import BLOCK, HEADER, LATE_ENTRIES, LOCK, RANGE, entry, late

# The trace has the worker's first read alone, for the others repeat it, and nothing of the lock there, which
# no other thread uses.
PROGRAM = """#include <pthread.h>
static long x;
static pthread_mutex_t m = PTHREAD_MUTEX_INITIALIZER;
static void *work(void *unused) {
    long sum = 0;
    for (int k = 0; k < 6; k++) {
        pthread_mutex_lock(&m);
        sum += x;
        pthread_mutex_unlock(&m);
    }
    return sum == 99 ? unused : 0;
}
int main(void) {
    pthread_t t;
    pthread_create(&t, 0, work, 0);
    x = 1;
    return pthread_join(t, 0);
}
"""
EXCHANGES = """#include <pthread.h>
static int word;
static void *work(void *unused) {
    int nine = 9;
    __atomic_exchange_n(&word, 9, __ATOMIC_RELEASE);
    __atomic_exchange_n(&word, 9, __ATOMIC_RELAXED);
    __atomic_compare_exchange_n(&word, &nine, 8, 0, __ATOMIC_ACQUIRE, __ATOMIC_RELAXED);
    __atomic_fetch_add(&word, 1, __ATOMIC_ACQ_REL);
    return 0;
}
static void *look(void *unused) { return __atomic_load_n(&word, __ATOMIC_ACQUIRE) == 9 ? 0 : unused; }
int main(void) {
    pthread_t t;
    for (int k = 0; k < 2; k++) {
        pthread_create(&t, 0, k ? look : work, 0);
        pthread_join(t, 0);
    }
    return 0;
}
"""


class Uses(recorder.Case):
    def test_a_lock_is_held_where_nothing_is_written_under_it(self):
        source, program, record = self.folder / "u.c", self.folder / "u", self.folder / "u.rec"
        source.write_text(PROGRAM)
        recorder.build(source, "-O1", program)
        recorder.must(recorder.call(program, env=recorder.settings(record, SHB_CELLS="0")))
        recorder.listed(record, self.folder / "u.std")
        fields = [line.split("\t") for line in (self.folder / "u.uses").read_text().splitlines()
                  if line.startswith("use\tr\t")]
        sums = [tuple(its[at:at + 3]) for its in fields for at in range(5, len(its), 3)]
        self.assertEqual(sorted((kind, count, name if kind != "held" else "") for kind, count, name in sums),
                         [("by", "6", "T1.work"), ("held", "6", ""), ("under", "6", "m")])

    def test_each_set_of_locks_has_a_use(self):
        """Of uses that their thread repeats one is recorded for each of the 48 sets that are held at them."""
        program, record = self.folder / "sets", self.folder / "sets.rec"
        recorder.build(recorder.PROGRAMS / "many_sets.c", "-O1", program)
        recorder.must(recorder.call(program, env=recorder.settings(record)))
        trace, held, sets = recorder.must(recorder.convert(record)).stdout.decode(), set(), set()
        for operation, name in re.findall(r"(?m)^T1\.work\|(acq|rel|w)\((.*?)\)\|", trace):
            if operation == "w" and name == "shared":
                sets.add(frozenset(held))
            held ^= {name} if operation != "w" else set()
        self.assertEqual(len(sets), 48)

    def test_most_of_many_sets_of_locks_share_uses(self):
        """Of 600 sets 64 have a use of their own, and all others those of as many locks: else a table with a
        lock per row would have as many uses in each cell as it has room for."""
        source, program, record = (self.folder / name for name in ("sets.c", "sets", "sets.rec"))
        source.write_text((recorder.PROGRAMS / "many_sets.c").read_text().replace("= 24", "= 300"))
        recorder.build(source, "-O1", program)
        recorder.must(recorder.call(program, env=recorder.settings(record)))
        trace = recorder.must(recorder.convert(record)).stdout.decode()
        self.assertEqual(len(re.findall(r"(?m)^T1\.work\|w\(shared\)", trace)), 66)

    def test_sums_of_each_line_and_way(self):
        """By two threads, under a lock, under it and one for reading, and under none; a free is apart, and so
        is another variable."""
        def access(thread, kind, place=0x300):
            return entry(thread, kind, BLOCK, place, 4)

        def under(thread, *inside):
            return [entry(thread, "LOCK", LOCK, 0x301), *inside, entry(thread, "UNLOCK", LOCK, 0x302)]

        entries = [entry(0, "ALLOC", BLOCK, 0x100, 4), entry(0, "FORK", 1, 0x101), access(0, "WRITE"),
                   access(1, "READ"), *under(1, access(1, "WRITE")),
                   entry(1, "READ_LOCK", LOCK + 64, 0x303), *under(1, access(1, "WRITE"), access(1, "WRITE")),
                   entry(1, "RW_UNLOCK", LOCK + 64, 0x304),
                   access(0, "READ"), access(0, "READ"), entry(0, "FREE", BLOCK, 0x300)]
        record, races, uses = (self.folder / name for name in ("app.rec", "races", "uses"))
        record.write_bytes(HEADER + b"".join(entries))
        races.write_text("2 3 0x100#1\n")
        recorder.must(recorder.convert(record, "--only", races, "--uses", uses))
        lines = [line.split("\t") for line in uses.read_text().splitlines()]
        found = {line[1]: {tuple(line[at:at + 3]) for at in range(5, len(line), 3)}
                 for line in lines if line[0] == "use"}
        self.assertEqual({tuple(line[2:5]) for line in lines if line[0] == "use"}, {("0x100#1", "", "0x300")})
        self.assertEqual(found, {
            "r": {("by", "1", "T1"), ("by", "2", "main"), ("bare", "3", "0")},
            "w": {("by", "1", "main"), ("by", "3", "T1"), ("bare", "1", "0"), ("held", "3", "0"),
                  ("under", "3", hex(LOCK)), ("reading", "2", hex(LOCK + 64))},
            "f": {("by", "1", "main"), ("bare", "1", "0")}})

    def test_a_file_that_is_damaged_or_of_another_version(self):
        path, line = self.folder / "uses", "use\tr\tx\t\ta.c:1\tby\t1\tT1\tbare\t1\t0\n"
        path.write_text(f"shb-uses 3\n{line}events\t0\n")
        [use] = files.Uses(path).uses
        sums = {kind: getattr(use, kind) for kind in files.SUMS.split() if getattr(use, kind)}
        self.assertEqual(use[:4], (b"r", b"x", b"", b"a.c:1"))
        self.assertEqual(sums, {"by": {b"T1": 1}, "bare": {0: 1}})
        for text, said in ((f"{line}events\t0\n", "is of another version"),
                           ("shb-uses 2\n", "is of another version"), ("", "is of another version"),
                           *((f"shb-uses 3\n{line.replace(*change)}events\t0\n", "is damaged in line 2")
                             for change in (
                               ("by", "to"), ("\t1\tT1", "\tT1\tT1"), ("\t0\n", "\n"), ("\t0\n", "\tm\n"),
                               ("\tr", "\tq")))):
            path.write_text(text)
            with self.assertRaisesRegex(files.BadUses, said):
                files.Uses(path)

    def test_too_many_locks_have_no_sums(self):
        entries = [entry(0, "FORK", 1, 0x101), entry(0, "WRITE", RANGE, 0x102, 4)]
        for number in range(65):
            entries += [entry(1, "LOCK", LOCK + 64 * number, 0x301), entry(1, "WRITE", RANGE, 0x302, 4)]
        record, races, uses = (self.folder / name for name in ("app.rec", "races", "uses"))
        record.write_bytes(HEADER + b"".join(entries))
        races.write_text(f"2 4 {hex(RANGE)}\n")
        recorder.must(recorder.convert(record, "--only", races, "--uses", uses))
        [line] = [line.split("\t") for line in uses.read_text().splitlines() if line.startswith("use\tw")
                  and "\t0x302\t" in line]
        sums = {(line[at], line[at + 2]): int(line[at + 1]) for at in range(5, len(line), 3)}
        self.assertEqual(sums,
                         {("by", "T1"): 65, ("held", "0"): 64, ("many", "0"): 1,
                          **{("under", hex(LOCK + 64 * number)): 64 - number for number in range(64)}})

    def repeated(self, entries, race):
        """The events of the page's trace of a race that stand for others, and that trace."""
        record, races, uses = (self.folder / name for name in ("app.rec", "races", "uses"))
        record.write_bytes(HEADER + b"".join(entries))
        races.write_text(f"{race} {hex(RANGE)}\n")
        trace = recorder.must(recorder.convert(record, "--only", races, "--uses",
                                               uses)).stdout.decode().splitlines()
        lines = [line.split("\t") for line in uses.read_text().splitlines()]
        return sorted(trace[int(fields[1]) - 1] for fields in lines if fields[0] == "repeated")

    def test_a_page_repeats_no_read_of_the_list(self):
        """The first read is the same as the last one of the trace before."""
        record, page = self.folder / "app.rec", self.folder / "page.std"
        record.write_bytes(HEADER + entry(0, "FORK", 1, 0x101) + b"".join(entry(*access, 4) for access in (
            (1, "READ", RANGE, 0x201), (0, "WRITE", RANGE, 0x102), (1, "READ", RANGE, 0x201))))
        self.assertEqual(recorder.listed(record, page), {(("0x102", "0x201"), hex(RANGE))})
        self.assertEqual(page.read_text().count("|r("), 2)

    def test_a_load_before_the_first_store_is_of_no_store(self):
        """Though the list's trace, which is made first, has met the store."""
        record, races, page, stacks = (self.folder / name for name in ("app.rec", "races", "page", "stacks"))
        record.write_bytes(HEADER + entry(0, "FORK", 1, 0x101) + entry(0, "WRITE", RANGE, 0x102, 4)
                           + entry(1, "ATOMIC_LOAD", LOCK, 0x201, 4)
                           + entry(0, "ATOMIC_STORE", LOCK, 0x103, 4) + entry(1, "WRITE", RANGE, 0x202, 4))
        races.write_text(f"2 3 {hex(RANGE)}\n")
        recorder.must(recorder.convert(record, "--list", "--only", races, "--page", page, "--stacks",
                                       stacks))
        found = [line for line in stacks.read_bytes().split(b"\n") if line.startswith(b"use ")]
        self.assertEqual(found, [b"use 3\t%#x\tmain\t0x103\tstore relaxed" % LOCK])

    def test_which_updates_are_exchanges(self):
        """Those that leave another value, whatever had been there."""
        source, program, record, stacks = (self.folder / name for name in ("a.c", "a", "app.rec", "stacks"))
        source.write_text(EXCHANGES)
        recorder.build(source, "-O1", program)
        recorder.must(recorder.call(program, env=recorder.settings(record)))
        recorder.must(recorder.convert(record, "--stacks", stacks))
        found = [line.split("\t") for line in stacks.read_text(errors="replace").split("\n")
                 if line.startswith("use ")]
        self.assertEqual([(thread, how) for _, _, thread, _, how in found], [
            ("T1.work", "exchange release"), ("T1.work", "update relaxed"), ("T1.work", "update acquire"),
            ("T1.work", "update both"), ("T2.look", "load acquire")])

    def test_what_was_read_of_another_thread_in_the_whole_run(self):
        """Also behind the end of the page's trace, and of what a thread wrote atomically; not of its own."""
        def access(thread, kind, place, size=4):
            return entry(thread, kind, RANGE, place, size)

        record, races, uses = (self.folder / name for name in ("app.rec", "races", "uses"))
        record.write_bytes(HEADER + entry(0, "FORK", 1, 0x101) + access(0, "WRITE", 0x102)
                           + access(1, "READ", 0x201) + access(1, "WRITE", 0x202)
                           + access(1, "READ", 0x203) + access(0, "READ", 0x103) + access(0, "READ", 0x104)
                           + access(1, "ATOMIC_STORE", 0x204, 4 | 3 << 5)
                           + access(0, "READ", 0x103))
        races.write_text(f"2 3 {hex(RANGE)}\n")
        recorder.must(recorder.convert(record, "-n", "3", "--only", races, "--uses", uses))
        found = [line.split("\t")[1:] for line in uses.read_text().splitlines() if line.startswith("seen\t")]
        name = hex(RANGE)
        self.assertEqual(sorted(found),
                         sorted([[name, "0x102", "0x201"], [name, "0x202", "0x103"], [name, "0x202", "0x104"],
                                 [f"{name}!T1", "0x204", "0x103"]]))

    def test_a_late_access_that_stands_for_earlier_ones(self):
        """The last entry of these comes twice, and says so; with and without that."""
        self.assertEqual(self.repeated(LATE_ENTRIES, "2 4"), ["main|r(0x40000000)|0x104"])
        first = [entry(0, "FORK", 1, 0x101), entry(1, "WRITE", RANGE, 0x201, 4)]
        for which, is_repeated in enumerate([(0, 0), (0, 1), (1, 0), (1, 1)]):
            beat = entry(0, "WRITE", RANGE, 0x102, 4)
            both = [late(2, 1, beat, is_repeated=repeated) for repeated in is_repeated]
            self.assertEqual(self.repeated([*first, *both], "2 3"),
                             ["main|w(0x40000000)|0x102"] * any(is_repeated), which)

    def test_a_read_that_stands_for_later_ones(self):
        """Until the variable is written, or the thread orders another who writes it."""
        read, written = entry(0, "READ", RANGE, 0x102, 4), entry(1, "WRITE", RANGE, 0x201, 4)
        lock = [entry(thread, kind, RANGE + 64, 0x103) for thread in (1, 0) for kind in ("LOCK", "UNLOCK")]
        for rest, is_repeated in (([read], True), ([written, read], False), ([*lock, read], True),
                                  ([*lock, read, written], False),
                                  ([entry(0, "READ", RANGE, 0x104, 4), read], True)):
            found = self.repeated([entry(0, "FORK", 1, 0x101), written, read, *rest], "2 3")
            self.assertEqual(found, ["main|r(0x40000000)|0x102"] * is_repeated, rest)
