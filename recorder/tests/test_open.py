"""What `shb-std -r` leaves out has no race: records drawn at random have the same places with it and without.
Of a variable that races each thread's accesses at each place are there."""

import random
import re
import shutil

import recorder
from analysis import Step
from test_record import HEADER, entry

ORDERS = 0, 2, 3, 4, 5  # relaxed, acquire, release, both, sequentially consistent
# What the threads of a record do: read, write, lock (X: for readers), atomics, fences, semaphores (P:
# post alone).
WORDS = ["RW", "RWL", "RWA", "AR", "RWLS", "RWALFS", "RWP", "RWPX", "RWLX", "RWX"]
ATOMICS = "ATOMIC_LOAD", "ATOMIC_STORE", "ATOMIC_UPDATE"
COMPILER = "gcc", "-w", "-O0", "-mpopcnt"


class Drawn:
    """A record. A thread goes on for a while, at few places, so that accesses repeat. Threads are joined by
    any other, or detached, also those that did nothing, and their numbers are used again."""

    all_words, sizes, longest_run = WORDS, (4, 4, 8, 16), 8

    def __init__(self, seed):
        self.draw, self.are_apart = random.Random(seed), seed % 2 == 0
        self.cells = [0x5000 + 8 * k for k in range(self.draw.randrange(1, 4))]
        self.places, self.words = self.draw.randrange(1, 5), self.draw.choice(self.all_words)
        self.owners, self.readers, self.running, self.steps = {}, set(), [0], []
        self.unused = list(range(1, self.draw.randrange(2, 7)))
        for _ in range(self.draw.randrange(10, 100)):
            self.thread = self.draw.choice(self.running)
            for _ in range(self.draw.randrange(1, self.longest_run)):
                self.step(self.draw.choice(self.words))
            self.begin_or_end_a_thread()

    def add(self, operation, address, size=0):
        kind = len(operation) if self.are_apart else 0  # else all kinds of accesses share locations
        place = (self.thread + 1) << 16 | kind << 8 | self.draw.randrange(self.places) + 1
        self.steps.append(Step(self.thread, operation, address, place, size))

    @property
    def entries(self):
        return [entry(step.thread, step.operation, step.address, step.place, step.size)
                for step in self.steps]

    def step(self, word):
        cell = self.draw.choice(self.cells)
        if word in "RW":
            self.add("READ" if word == "R" else "WRITE", cell, self.draw.choice(self.sizes))
        elif word == "A":
            self.add(self.draw.choice(ATOMICS), cell, 4 | self.draw.choice(ORDERS) << 5)
        elif word == "F":
            self.add("FENCE", 0, self.draw.choice(ORDERS[1:]))
        elif word in "SP":
            self.add(self.draw.choice(("POST", "WAIT")) if word == "S" else "POST", 0x7000)
        elif word == "X":
            self.lock_for_readers(0x6100)
        else:
            self.lock(self.draw.choice((0x6000, 0x6010)))

    def lock(self, lock):
        if lock not in self.owners:
            self.owners[lock] = self.thread
            self.add("LOCK", lock)
        elif self.owners[lock] == self.thread:
            del self.owners[lock]
            self.add("UNLOCK", lock)

    def lock_for_readers(self, lock):
        if self.thread in self.readers or self.owners.get(lock) == self.thread:
            self.readers.discard(self.thread)
            self.owners.pop(lock, None)
            self.add("RW_UNLOCK", lock)
        elif (lock not in self.owners and self.readers | {self.draw.choice((None, self.thread))}
              == self.readers | {self.thread}):
            self.readers.add(self.thread)
            self.add("READ_LOCK", lock)
        elif lock not in self.owners and not self.readers:
            self.owners[lock] = self.thread
            self.add("WRITE_LOCK", lock)

    def begin_or_end_a_thread(self):
        if self.unused and self.draw.random() < 0.3:
            child = self.unused.pop()
            self.add("FORK", child)
            self.running.append(child)
            if self.draw.random() < 0.3:  # it does nothing
                self.thread = self.draw.choice(self.running[:-1])
                self.end(child)
        self.end(self.draw.choice(self.running), 0.1)

    def end(self, thread, chance=1):
        holds = thread in self.readers or thread in self.owners.values()
        if thread not in (0, self.thread) and not holds and self.draw.random() < chance:
            self.running.remove(thread)
            if self.draw.random() < 0.8:
                self.add("JOIN", thread)
            if self.draw.random() < 0.5:
                self.unused.append(thread)


def races(trace):
    """The places of a trace, and the variables of their races."""
    listed = recorder.must(recorder.call(recorder.SHB, "races", "--list", input=trace)).stdout.decode()
    return (set(re.findall(r"^at (.*)\nand (.*)$", listed, re.M)),
            set(re.findall(r"^first .*?\|\w\((.*)\)\|", listed, re.M)))


def trace_of(folder, drawn, *words):
    """The trace of drawn entries. By --list, for a number that is used again is another thread, of which else
    there may be 1,024."""
    record = folder / "app.rec"
    record.write_bytes(HEADER + b"".join(drawn.entries))
    return recorder.must(recorder.call(*words, "--list", record)).stdout


def accesses(trace, variables):
    """The threads' accesses of these variables, each with its place once."""
    found = re.findall(r"^((.*?\|[rw])\((.*)\)\|.*)$", trace.decode(), re.M)
    return {line for line, _, variable in found if variable in variables}


@recorder.once
def compiled():
    """The folder of the converter's object files, as it is."""
    folder = recorder.new_folder()
    recorder.must(recorder.call(*COMPILER, "-c", *(recorder.SOURCES / "converter").glob("*.c"), cwd=folder))
    return folder


def planted(folder, *changes):
    """The converter with another text at one place of its sources, or at several: the file's name, what
    stands there, and what in its place. Only files that change are compiled."""
    shutil.copytree(recorder.SOURCES / "converter", folder / "converter")
    shutil.copy(recorder.SOURCES / "record.h", folder)
    for name, before, after in zip(*[iter(changes)] * 3):
        path = folder / "converter" / name
        text = path.read_text()
        if text.count(before) != 1:
            raise AssertionError(f"{name} has {text.count(before)} times {before}")
        path.write_text(text.replace(before, after))
    has_header = any(name.endswith(".h") for name in changes[::3])
    parts = [path if has_header or path.name in changes[::3] else compiled() / f"{path.stem}.o"
             for path in sorted((folder / "converter").glob("*.c"))]
    recorder.must(recorder.call(*COMPILER, *parts, "-o", folder / "shb-std"))
    return folder / "shb-std"


def instructions(record):
    """How many the converter takes for a record."""
    ran = recorder.must(recorder.call("valgrind", "--tool=callgrind", "--callgrind-out-file=/dev/null",
                                      recorder.BUILT / "shb-std", "--list", record))
    return int(re.search(rb"Collected : (\d+)", ran.stderr)[1])


class Open(recorder.Case):
    def test_the_page_has_the_places_of_the_run(self):
        """And all accesses of their variables, as the run's trace has them."""
        lines, kept, found, converter, page = 0, 0, 0, recorder.BUILT / "shb-std", self.folder / "page.std"
        for seed in range(150):
            whole = trace_of(self.folder, Drawn(seed), converter)
            places, variables = races(whole)
            of_list = recorder.listed(self.folder / "app.rec", page)
            self.assertEqual({pair for pair, _ in of_list}, {tuple(sorted(pair)) for pair in places}, seed)
            self.assertEqual({name for _, name in of_list}, variables, seed)
            if not places:
                continue
            needed = page.read_bytes()
            self.assertEqual(races(needed), (places, variables), seed)
            self.assertEqual(accesses(whole, variables), accesses(needed, variables), seed)
            lines, kept, found = lines + whole.count(b"\n"), kept + needed.count(b"\n"), found + len(places)
        self.assertGreater(found, 500)
        self.assertLess(kept, lines)  # few variables, most of them in races


class Limits(recorder.Case):
    """What a record of gigabytes would reach, with limits that a drawn one reaches."""

    def test_more_variables_than_are_numbered(self):
        limited, record = (planted(self.folder / "limited", "converter.h", "MOST_PIECES = (1u << 30) - 1",
                                   "MOST_PIECES = 2"), self.folder / "app.rec")
        used = [entry(thread, "WRITE", 0x5000 + 8 * k, 0x200, 8) for k in range(3) for thread in (0, 1)]
        for accesses, status in ((used[:4], 0), (used, 2)):
            record.write_bytes(HEADER + b"".join([entry(0, "FORK", 1, 0x100), *accesses]))
            answer = recorder.call(limited, record)
            self.assertEqual((answer.returncode, b"more variables than shb-std takes (2)" in answer.stderr),
                             (status, status == 2))

    def test_order_of_many_threads_is_linear(self):
        """Where a semaphore goes round, a wait takes the last post alone; a wait after many posts looks at
        none of them twice, and relaxed reads take no memory for each thread that gave."""
        forks, record = b"".join(entry(0, "FORK", t, 0x200) for t in range(1, 801)), self.folder / "app.rec"
        turn = b"".join(entry(t, "WAIT", 0x5000, 0x300) + entry(t, "WRITE", 0x6000, 0x301, 4)
                        + entry(t, "POST", 0x5000, 0x302) for t in range(1, 65))
        record.write_bytes(HEADER + forks + entry(0, "POST", 0x5000, 0x299) + turn * 10)
        lines = recorder.must(recorder.convert(record, "--list")).stdout.count(b"\n")
        self.assertLess(lines - 800, 64 * 10 * 6)
        posts = entry(0, "POST", 0x5000, 0x299) * 20_000
        record.write_bytes(HEADER + forks + posts + b"".join(entry(t, "WAIT", 0x5000, 0x300)
                                                             for t in range(1, 801)))
        self.assertLess(instructions(record), 100_000_000)
        updates = b"".join(entry(t, "ATOMIC_UPDATE", 0x5000, 0x300, 4 | 3 << 5) for t in range(1, 401))
        loads = b"".join(entry(t, "ATOMIC_LOAD", 0x5000, 0x300, 4) for t in range(401, 801))
        for relaxed in (updates, updates + loads):
            record.write_bytes(HEADER + forks + entry(0, "FENCE", 0, 0x299, 2) + relaxed * 200)
            self.assertLess(recorder.most_memory(recorder.BUILT / "shb-std", "--list", record), 60 << 20)

    def test_twice_as_many_take_twice_the_work(self):
        """Threads that release without an acquire, others that read that relaxed, and locks that are held at
        once and released in the order of their acquires, with an access behind each acquire."""
        def forks(count):
            return b"".join(entry(0, "FORK", t, 0x200) for t in range(1, count + 1))

        def released(count):
            return b"".join(entry(t + 1, "ATOMIC_UPDATE", 0x5000, 0x300, 4 | 3 << 5) for t in range(count))

        def read(count):
            return b"".join(entry(count + t + 1, "ATOMIC_LOAD", 0x5000, 0x301, 4) for t in range(count))

        def locks(count):
            return b"".join([entry(thread, kind, 0x6000 + 16 * k, 0x300)
                             + entry(thread, "WRITE", 0x5000, 0x301, 4)
                             for thread in (1, 2) for kind in ("LOCK", "UNLOCK") for k in range(count)])

        fence, record = entry(0, "FENCE", 0, 0x299, 2), self.folder / "app.rec"
        for made, few in ((lambda count: forks(count) + fence + released(count) * 100, 64),
                          (lambda count: forks(2 * count) + fence + (released(count) + read(count)) * 50, 64),
                          (lambda count: forks(2) + locks(count), 500)):
            counts = []
            for count in (few, 2 * few):
                record.write_bytes(HEADER + made(count))
                counts.append(instructions(record))
            self.assertLess(counts[1], 2.2 * counts[0])

    def test_a_few_records_that_take_much_work(self):
        """Each takes what many threads gave, or goes through many functions."""
        forks = b"".join(entry(0, "FORK", t, 0x200) for t in range(1, 61))
        gives, takes = ([entry(t, "ATOMIC_" + kind, 0x5000, 0x300, 4 | order << 5) for t in threads]
                        for kind, order, threads in (("UPDATE", 3, range(1, 31)), ("LOAD", 2, range(31, 61))))
        frames = b"".join(entry(1, "FRAME", 0x400 + d, 0x500 + d, d) for d in range(2000))
        back = entry(1, "CONTEXT", 0, 0) + entry(1, "CONTEXT", 2000, 0)
        written = entry(1, "WRITE", 0x7000, 0x301, 4)
        limited, record = (planted(self.folder / "limited", "main.c", "(1ull << 28)", "(1ull << 16)"),
                           self.folder / "app.rec")
        for entries in (b"".join(gives + takes) * 5, frames + (back + written) * 100):
            record.write_bytes(HEADER + forks + entry(2, "WRITE", 0x7000, 0x302, 4) + entries)
            stacks = self.folder / "stacks"
            recorder.must(recorder.call(recorder.BUILT / "shb-std", "--stacks", stacks, record))
            answer = recorder.part(recorder.call(limited, "--stacks", stacks, record))
            self.assertIn(b"the trace is cut where long ranges, deep stacks", answer.stderr)

    def test_a_race_of_accesses_far_apart_leaves_room_for_others(self):
        """Between the accesses of x are 22,000 events that a page would keep, those of a lock; y
        stands behind them."""
        locks = [entry(k // 2 % 2, ("LOCK", "UNLOCK")[k % 2], 0x6000, 0x200) for k in range(22_000)]
        x, y = ([entry(thread, "WRITE", at, 0x100, 8) for thread in (1, 0)] for at in (0x5000, 0x5008))
        record, page, uses = (self.folder / name for name in ("app.rec", "page.std", "uses"))
        record.write_bytes(
            HEADER + b"".join([entry(0, "FORK", 1, 0x100), *locks[2:4], x[0], *locks, x[1], *y]))
        for most in (100_000, 3_000):
            words = [recorder.BUILT / "shb-std", "--list", "--only", "/dev/stdin", "--page", page, "--uses",
                     uses, "-n", most, record]
            recorder.must(recorder.call(*words, input=b"4 22005 0x5000\n22006 22007 0x5008\n"))
            there = {int(number) for number in re.findall(r"(?m)^event\t\d+\t(\d+)$", uses.read_text())}
            self.assertLessEqual({4, 22_005, 22_006, 22_007}, there, most)
            self.assertLess(page.read_bytes().count(b"\n"), 2_000, most)
