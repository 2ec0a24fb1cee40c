"""The converter: a record made by hand with the trace worked out from the table in README.md,
and damaged records."""

import itertools
import os
import random
import re
import shutil
import struct

import recorder

HEADER = b"shb-record 12\n".ljust(65536 - 256, b"\0") + b"whole".ljust(256, b"\0")
DEFINED = re.search(r"enum operation \{(.*?)\n\};", (recorder.SOURCES / "record.h").read_text(), re.S)[1]
OPERATIONS = re.findall(r"OP_\w+", re.sub(r"/\*.*?\*/", "", DEFINED))
SIZE_FOLLOWS = 1023
IS_RANGE = 512


def entry(thread, operation, address, caller, size=0):
    number = OPERATIONS.index("OP_" + operation)
    if operation in ("READ", "WRITE"):
        inside = min(IS_RANGE + size, SIZE_FOLLOWS)
        follows = (struct.pack("<QQ", size, OPERATIONS.index("OP_SIZE") << 48) if inside == SIZE_FOLLOWS
                   else b"")
        return struct.pack("<QQ", address | thread << 48, caller | number << 48 | inside << 54) + follows
    follows = struct.pack("<QQ", size, OPERATIONS.index("OP_SIZE") << 48) if size >= SIZE_FOLLOWS else b""
    return (struct.pack("<QQ", address | thread << 48, caller | number << 48 | min(size, SIZE_FOLLOWS) << 54)
            + follows)


def names(thread, name):
    """The entries that give a thread a name: 12 bytes in each."""
    pieces = [name[at:at + 12].ljust(12, b"\0") for at in range(0, len(name), 12)] or [bytes(12)]
    return b"".join(
        entry(thread, "NAME", *(int.from_bytes(half, "little") for half in (piece[:6], piece[6:])),
              12 * (k > 0))
                    for k, piece in enumerate(pieces))


# beside the size of an atomic access
RELAXED, ACQUIRE, RELEASE, BOTH = (order << 5 for order in (0, 2, 3, 4))
BLOCK, STACK, ATOMIC, LOCK, SEMAPHORE, RANGE = (0x20000000, 0x30000000, 0x10000000, 0x10000010, 0x10000020,
                                                0x40000000)
CANNED = [  # entries of a record, and the lines that each becomes
    (entry(0, "ALLOC", BLOCK, 0x100, 32), []),
    (entry(0, "FORK", 1, 0x101), ["main|fork(T1)|0x101"]),
    (entry(1, "START", STACK, 0x500, 4096), []),
    (entry(0, "WRITE", BLOCK, 0x102, 8), ["main|w(0x100#1+4)|0x102"]),  # its upper half is shared
    (entry(1, "READ", BLOCK + 4, 0x201, 4), ["T1|r(0x100#1+4)|0x201"]),
    (entry(1, "WRITE", STACK + 16, 0x202, 8), []),  # its own stack
    (entry(0, "ATOMIC_STORE", ATOMIC, 0x103, 4 | RELEASE),
     ["main|acq(0x10000000@1)|0x103", "main|w(0x10000000!main)|0x103", "main|rel(0x10000000@1)|0x103",
      "main|acq(0x10000000@1>T1)|0x103", "main|rel(0x10000000@1>T1)|0x103"]),
    (entry(1, "READ", ATOMIC, 0x203, 4), ["T1|r(0x10000000!main)|0x203"]),
    (entry(1, "ATOMIC_LOAD", ATOMIC, 0x204, 4 | ACQUIRE),
     ["T1|acq(0x10000000@1>T1)|0x204", "T1|rel(0x10000000@1>T1)|0x204"]),
    (entry(0, "LOCK", LOCK, 0x104), ["main|acq(0x10000010)|0x104"]),
    (entry(0, "UNLOCK", LOCK, 0x105), ["main|rel(0x10000010)|0x105"]),
    (entry(1, "LOCK", LOCK, 0x205), ["T1|acq(0x10000010)|0x205"]),
    (entry(1, "UNLOCK", LOCK, 0x206), ["T1|rel(0x10000010)|0x206"]),
    (entry(0, "WRITE", RANGE, 0x106, 4096), ["main|w(0x40000800)|0x106"]),  # one piece of three is shared
    (entry(1, "POST", SEMAPHORE, 0x207),
     ["T1|acq(0x10000020@1>main)|0x207", "T1|rel(0x10000020@1>main)|0x207"]),
    (entry(0, "WAIT", SEMAPHORE, 0x107),
     ["main|acq(0x10000020@1>main)|0x107", "main|rel(0x10000020@1>main)|0x107"]),
    (entry(1, "WRITE", RANGE + 2048, 0x208, 1), ["T1|w(0x40000800)|0x208"]),
    (entry(0, "JOIN", 1, 0x108), ["main|join(T1)|0x108"]),
]
TRACE = [line for _, lines in CANNED for line in lines]
ENTRIES = b"".join(record for record, _ in CANNED)
RACES = {("0x102", "0x201"), ("0x103", "0x203"), ("0x106", "0x208")}


class Canned(recorder.Case):
    def setUp(self):
        super().setUp()
        self.record = self.folder / "app.rec"
        self.record.write_bytes(HEADER + ENTRIES + bytes(64))

    def test_the_trace(self):
        lines = recorder.must(recorder.convert(self.record)).stdout.decode().splitlines()
        self.assertEqual(lines, TRACE)

    def test_the_names_of_what_the_kernel_has(self):
        for kind, name in enumerate(("fd5", "semaphores5", "queue5", "mqueue5")):
            object_ = (1 << 47) + (kind << 40) + 5 * 16
            self.record.write_bytes(HEADER + entry(0, "FORK", 1, 0x101) + entry(1, "POST", object_, 0x201)
                                    + entry(0, "WAIT", object_, 0x102) + bytes(64))
            self.assertIn(f"\nmain|acq({name}@1>main)|0x102\n",
                          recorder.must(recorder.convert(self.record)).stdout.decode())

    def test_the_races(self):
        trace = recorder.must(recorder.convert(self.record)).stdout
        self.assertEqual(recorder.places(trace), RACES)

    def test_a_record_cut_short_is_a_prefix(self):
        for entries in range(len(CANNED)):
            record = b"".join(record for record, _ in CANNED[:entries])
            for more in (b"", bytes(16), CANNED[entries][0][:7]):
                self.record.write_bytes(HEADER + record + more)
                lines = recorder.must(recorder.convert(self.record, "-a")).stdout.decode()
                recorder.places(lines.encode())  # is accepted

    def test_a_limit_of_events_is_said(self):
        answer = recorder.part(recorder.convert(self.record, "-n", "5"))
        self.assertEqual(answer.stdout.decode().splitlines(), TRACE[:5])
        self.assertIn(b"the trace is cut at the limit of events", answer.stderr)
        self.assertNotIn(b"cut", recorder.convert(self.record, "-n", str(len(TRACE))).stderr)

    def test_the_trace_of_the_whole_run(self):
        """It is the same, and no limit cuts it."""
        for words in ((), ("-n", "5"), ("--stacks", self.folder / "stacks")):
            answer = recorder.must(recorder.convert(self.record, "--list", *words))
            self.assertEqual(answer.stdout.decode().splitlines(), TRACE)

    def test_a_recording_that_ended_early_is_said(self):
        for how, said in ((b"", b"the program was killed"), (b"the disk is\nfull", b"the disk is!full")):
            self.record.write_bytes(HEADER[:65536 - 256] + how.ljust(256, b"\0") + ENTRIES)
            answer = recorder.part(recorder.convert(self.record))
            self.assertEqual(answer.stdout.decode().splitlines(), TRACE)
            self.assertIn(b"shb-std: the recording is not the whole run: " + said + b"\n", answer.stderr)

    def test_a_trace_that_cannot_be_written(self):
        with open("/dev/full", "wb") as full:
            answer = recorder.subprocess.run([recorder.BUILT / "shb-std", self.record], stdout=full,
                                             stderr=-1)
        self.assertEqual(answer.returncode, 2)
        self.assertIn(b"cannot write the trace", answer.stderr)

    def test_long_ranges_without_end_are_cut(self):
        ranges = b"".join(entry(k % 2, "WRITE", RANGE, 0x300 + k, (1 << 36) - 1) for k in range(2000))
        self.record.write_bytes(HEADER + ENTRIES[:64] + ranges)
        answer = recorder.part(recorder.convert(self.record))
        self.assertIn(b"the trace is cut where long ranges, deep stacks or many threads take too much work",
                      answer.stderr)


def late(before, which, access, context=0, is_repeated=False):
    """What was held back, as the entry with this number was to come; which one of those held back there."""
    return entry(0, "LATE", is_repeated << 40 | before << 12 | which, context) + access


LATE_ENTRIES = [  # held back before T1's first write, and behind its second, of which the same comes twice
    entry(0, "FORK", 1, 0x101), entry(1, "WRITE", RANGE, 0x201, 4),
                late(1, 2, entry(0, "READ", RANGE, 0x102, 4)),
    late(1, 1, entry(0, "WRITE", RANGE, 0x103, 4)), entry(1, "WRITE", RANGE, 0x202, 4),
    *[late(7, 1, entry(0, "READ", RANGE, 0x104, 4), is_repeated=True)] * 2,
]
SORTED = ["main|fork(T1)|0x101", "main|w(0x40000000)|0x103", "main|r(0x40000000)|0x102",
          "T1|w(0x40000000)|0x201",
          "T1|w(0x40000000)|0x202", "main|r(0x40000000)|0x104"]


class Late(recorder.Case):
    def convert(self, entries, header=HEADER):
        path = self.folder / "app.rec"
        path.write_bytes(header + entries)
        return recorder.convert(path)

    def test_each_is_where_it_was_made(self):
        self.assertEqual(recorder.must(self.convert(b"".join(LATE_ENTRIES))).stdout.decode().splitlines(),
                         SORTED)

    def test_a_record_cut_short(self):
        """An access that is late and was cut off was never made."""
        cut = b"".join(LATE_ENTRIES[:6])[:-16]
        self.assertEqual(recorder.must(self.convert(cut)).stdout.decode().splitlines(), SORTED[:5])

    def test_a_damaged_one(self):
        access, before = (entry(0, "READ", RANGE, 0x103, 4),
                          entry(0, "FORK", 1, 0x101) + entry(0, "WRITE", RANGE, 0x104, 600))
        for damaged in (late(4, 1, access), late((1 << 28) - 1, 1, access), late(2, 1, access),
                        late(1, 1, entry(0, "LOCK", LOCK, 0x102)),
                        late(1, 1, entry(0, "READ", RANGE, 0x103, 600)), late(1, 1, late(1, 1, access)),
                        late(1 << 29, 1, access), late(1, 1, access) + late(4, 1, access),
                        late(1, 1, entry(65535, "READ", RANGE, 0x103, 4))):
            answer = self.convert(before + damaged)
            self.assertEqual((answer.returncode, answer.stdout), (2, b""))
            self.assertIn(b"is damaged", answer.stderr)

    def test_two_at_one_place(self):
        """They are one access, by a thread at a line: no other is passed over."""
        first, access = ([entry(0, "FORK", 1, 0x101), entry(1, "WRITE", RANGE, 0x201, 4)],
                         entry(0, "READ", RANGE, 0x102, 4))
        for other in (entry(0, "READ", RANGE, 0x103, 4), entry(0, "WRITE", RANGE, 0x102, 4),
                      entry(1, "READ", RANGE, 0x102, 4)):
            answer = self.convert(b"".join([*first, late(2, 1, access), late(2, 1, other, is_repeated=True)]))
            self.assertEqual((answer.returncode, answer.stdout), (2, b""))
            self.assertIn(b"app.rec is damaged: two accesses that are late have one place\n", answer.stderr)

    def test_a_sum(self):
        """It is of the entries as they stand in the file."""
        entries = b"".join(LATE_ENTRIES)
        words = struct.unpack(f"<{len(entries) // 8}Q", entries)
        sums = ((where ^ number << 20) * 0x9E3779B97F4A7C15 + (what ^ number) * 0xD6E8FEB86659FD93
                for number, (where, what) in enumerate(zip(words[::2], words[1::2])))
        ended = b"whole %x %x" % (len(words) // 2, sum(sums) % 2**64)
        header = HEADER[:65536 - 256] + ended.ljust(256, b"\0")
        self.assertEqual(recorder.must(self.convert(entries, header)).stdout.decode().splitlines(), SORTED)
        for changed, said in ((entries[:-16], b"was cut"),
                              (entries.replace(b"\x03\x01", b"\x07\x01", 1), b"was changed")):
            answer = self.convert(changed, header)
            self.assertEqual(answer.returncode, 2)
            self.assertIn(said, answer.stderr)


OWN, RW, CELL = 0x10000040, 0x10000050, 0x10000060
# locks of one thread alone, and reader-writer locks: in the trace where something happens under them
HELD = [
    (entry(0, "FORK", 1, 0x101), ["main|fork(T1)|0x101"]),
    (entry(0, "LOCK", OWN, 0x102), []),
    (entry(0, "UNLOCK", OWN, 0x103), []),
    (entry(0, "LOCK", OWN, 0x104), []),
    (entry(0, "LOCK", OWN, 0x105), []),
    (entry(0, "WRITE", CELL, 0x106, 4),
     ["main|acq(0x10000040)|0x104", "main|acq(0x10000040)|0x105", "main|w(0x10000060)|0x106"]),
    (entry(0, "UNLOCK", OWN, 0x107), ["main|rel(0x10000040)|0x107"]),
    (entry(0, "READ", CELL, 0x108, 4), ["main|r(0x10000060)|0x108"]),
    (entry(0, "READ", CELL, 0x108, 4), []),  # the same read again
    (entry(0, "UNLOCK", OWN, 0x109), ["main|rel(0x10000040)|0x109"]),
    (entry(0, "READ", CELL, 0x108, 4), ["main|r(0x10000060)|0x108"]),  # under other locks it isn't the same
    (entry(1, "READ_LOCK", RW, 0x201), []),
    (entry(1, "READ", CELL, 0x202, 4), ["T1|acq(0x10000050@reader.T1)|0x201", "T1|r(0x10000060)|0x202"]),
    (entry(1, "RW_UNLOCK", RW, 0x203), ["T1|rel(0x10000050@reader.T1)|0x203", "T1|acq(0x10000050@0<T1)|0x203",
                                        "T1|rel(0x10000050@0<T1)|0x203"]),
    (entry(0, "WRITE_LOCK", RW, 0x10a), ["main|acq(0x10000050@0)|0x10a", "main|rel(0x10000050@0)|0x10a",
                                         "main|acq(0x10000050@0<T1)|0x10a",
                                         "main|rel(0x10000050@0<T1)|0x10a"]),
    (entry(0, "WRITE", CELL, 0x10b, 4), ["main|acq(0x10000050)|0x10a", "main|w(0x10000060)|0x10b"]),
    (entry(0, "RW_UNLOCK", RW, 0x10c), ["main|rel(0x10000050)|0x10c", "main|acq(0x10000050@1)|0x10c",
                                        "main|rel(0x10000050@1)|0x10c"]),
    (entry(1, "WRITE", CELL, 0x204, 4), ["T1|w(0x10000060)|0x204"]),
]


ORDERS = [  # of T1 and T2: who gives what to whom, lock by lock
    (entry(0, "FORK", 1, 0x101), ["main|fork(T1)|0x101"]),
    (entry(0, "FORK", 2, 0x102), ["main|fork(T2)|0x102"]),
    (entry(0, "ATOMIC_STORE", ATOMIC, 0x103, 4 | RELEASE),  # to T1 by the update at 0x203, to T2 by the fence
     ["main|acq(0x10000000@1)|0x103", "main|rel(0x10000000@1)|0x103", "main|acq(0x10000000@1>T2)|0x103",
      "main|rel(0x10000000@1>T2)|0x103"]),
    (entry(1, "ATOMIC_LOAD", ATOMIC, 0x201, 4 | RELAXED), []),
    (entry(1, "ATOMIC_UPDATE", ATOMIC, 0x202, 4 | RELAXED), []),
    (entry(2, "ATOMIC_LOAD", ATOMIC, 0x301, 4 | RELAXED), []),
    (entry(2, "FENCE", 0, 0x302, 2), ["T2|acq(0x10000000@1>T2)|0x302", "T2|rel(0x10000000@1>T2)|0x302"]),
    (entry(1, "ATOMIC_UPDATE", ATOMIC, 0x203, 4 | BOTH),
     ["T1|acq(0x10000000@1)|0x203", "T1|rel(0x10000000@1)|0x203", "T1|acq(0x10000000@2>T2)|0x203",
      "T1|rel(0x10000000@2>T2)|0x203"]),
    (entry(2, "ATOMIC_UPDATE", ATOMIC, 0x303, 4 | RELEASE),  # a gift of its own, which main takes below
     ["T2|acq(0x10000000@3>main)|0x303", "T2|rel(0x10000000@3>main)|0x303"]),
    (entry(0, "ATOMIC_UPDATE", ATOMIC, 0x104, 4 | BOTH),
     ["main|acq(0x10000000@3>main)|0x104", "main|rel(0x10000000@3>main)|0x104",
      "main|acq(0x10000000@1)|0x104",
      "main|rel(0x10000000@1)|0x104"]),
    # ends what the others gave, and goes on with what T1 gave at 0x203
    (entry(1, "ATOMIC_STORE", ATOMIC, 0x204, 4 | RELAXED), []),
    (entry(2, "ATOMIC_LOAD", ATOMIC, 0x304, 4 | ACQUIRE),
     ["T2|acq(0x10000000@2>T2)|0x304", "T2|rel(0x10000000@2>T2)|0x304"]),
    (entry(1, "FENCE", 0, 0x205, 3), []),
    (entry(1, "ATOMIC_STORE", ATOMIC, 0x206, 4 | RELAXED),  # after the fence it gives
     ["T1|acq(0x10000000@6)|0x206", "T1|rel(0x10000000@6)|0x206", "T1|acq(0x10000000@6>T2)|0x206",
      "T1|rel(0x10000000@6>T2)|0x206"]),
    (entry(2, "ATOMIC_LOAD", ATOMIC, 0x305, 4 | ACQUIRE),
     ["T2|acq(0x10000000@6>T2)|0x305", "T2|rel(0x10000000@6>T2)|0x305"]),
]


class Orders(recorder.Case):
    def test_memory_orders(self):
        record = self.folder / "app.rec"
        record.write_bytes(HEADER + b"".join(entries for entries, _ in ORDERS))
        trace = recorder.must(recorder.convert(record)).stdout
        self.assertEqual(trace.decode().splitlines(), [line for _, lines in ORDERS for line in lines])

    def test_a_store_goes_on_with_what_its_thread_gave(self):
        """Also behind an update by another thread that has taken it; what that thread gave has ended."""
        record = self.folder / "app.rec"
        record.write_bytes(HEADER + b"".join([
            entry(0, "FORK", 1, 0x101), entry(0, "FORK", 2, 0x102),
            entry(0, "WRITE", CELL, 0x103, 4), entry(0, "ATOMIC_STORE", ATOMIC, 0x104, 4 | RELEASE),
            entry(1, "WRITE", CELL + 8, 0x201, 4), entry(1, "ATOMIC_UPDATE", ATOMIC, 0x202, 4 | BOTH),
            entry(0, "ATOMIC_STORE", ATOMIC, 0x105, 4 | RELAXED),
            entry(2, "ATOMIC_LOAD", ATOMIC, 0x301, 4 | ACQUIRE),
            entry(2, "READ", CELL, 0x302, 4), entry(2, "READ", CELL + 8, 0x303, 4)]))
        trace = recorder.must(recorder.convert(record)).stdout
        self.assertEqual(recorder.places(trace), {("0x201", "0x303")})

    def test_what_is_late_and_private_changes_nothing(self):
        """A thread's access of its own stack, held back, comes between what the thread took and what
        it gives on."""
        entries = [*(entry(0, "FORK", thread, 0x100) for thread in (1, 2, 3, 4)),
                   entry(1, "START", 0x100000, 0x900, 0x1000),
                   *(entry(thread, "ATOMIC_UPDATE", ATOMIC, 0x200 + thread, 4 | RELEASE)
                     for thread in (2, 3, 1))]
        loads = [entry(thread, "ATOMIC_LOAD", ATOMIC, 0x300 + thread, 4 | ACQUIRE)
                 for thread in (1, 4, 2, 3, 1)]
        private = late(len(b"".join(entries)) // 16, 1, entry(1, "WRITE", 0x100ff0, 0x777, 4))
        record, traces = self.folder / "app.rec", []
        for more in (b"", private):
            record.write_bytes(HEADER + b"".join([*entries, *loads, more]))
            traces.append(recorder.must(recorder.convert(record)).stdout)
        self.assertIn(b"T4|acq(", traces[0])
        self.assertEqual(traces[1], traces[0])


OMITTED = [  # entries of a record, and the lines that each becomes: of reads that tell nothing none
    (entry(0, "FORK", 1, 0x101), ["main|fork(T1)|0x101"]),
    (entry(0, "WRITE", CELL, 0x102, 4), [f"main|w({CELL:#x})|0x102"]),
    (entry(0, "READ", CELL, 0x103, 4), []),  # by who alone writes it
    (entry(1, "READ", CELL, 0x201, 4), [f"T1|r({CELL:#x})|0x201"]),
    (entry(1, "WRITE", CELL + 8, 0x202, 4), [f"T1|w({CELL + 8:#x})|0x202"]),
    (entry(1, "READ", CELL, 0x201, 4), [f"T1|r({CELL:#x})|0x201"]),  # T1 may have told main of the first
    (entry(0, "WRITE", CELL, 0x104, 4), [f"main|w({CELL:#x})|0x104"]),
    (entry(1, "READ", CELL, 0x201, 4), [f"T1|r({CELL:#x})|0x201"]),  # it is another value
    (entry(1, "WRITE", CELL + 8, 0x202, 4), [f"T1|w({CELL + 8:#x})|0x202"]),
    (entry(1, "READ", CELL, 0x201, 4), []),  # it is written no more
    (entry(0, "READ", CELL + 8, 0x105, 4), [f"main|r({CELL + 8:#x})|0x105"]),
]


class Omitted(recorder.Case):
    def test_reads_that_tell_nothing(self):
        record = self.folder / "app.rec"
        record.write_bytes(HEADER + b"".join(entries for entries, _ in OMITTED))
        trace = recorder.must(recorder.convert(record)).stdout
        self.assertEqual(trace.decode().splitlines(), [line for _, lines in OMITTED for line in lines])
        whole = recorder.must(recorder.convert(record, "-a")).stdout
        self.assertEqual(len(whole.splitlines()), len(OMITTED))
        self.assertEqual(recorder.places(whole), recorder.places(trace))

    def test_an_atomic_read_stands_for_no_plain_one(self):
        """It doesn't conflict with an atomic write."""
        record = self.folder / "app.rec"
        record.write_bytes(HEADER + b"".join([
            entry(0, "FORK", 1, 0x101), entry(0, "ATOMIC_STORE", ATOMIC, 0x102, 4 | RELAXED),
            entry(0, "WRITE", ATOMIC + 4, 0x103, 4), entry(1, "ATOMIC_LOAD", ATOMIC, 0x201, 4 | RELAXED),
            entry(1, "READ", ATOMIC, 0x201, 4)]))
        trace = recorder.must(recorder.convert(record)).stdout
        self.assertEqual(recorder.places(trace), {("0x102", "0x201")})


POSTS = [  # a wait takes of each other thread the last one since its wait before
    (entry(0, "FORK", 1, 0x101), ["main|fork(T1)|0x101"]),
    (entry(1, "FORK", 2, 0x201), ["T1|fork(T2)|0x201"]),
    (entry(0, "POST", SEMAPHORE, 0x102), []),
    (entry(2, "POST", SEMAPHORE, 0x301), ["T2|acq(0x10000020@2>T1)|0x301", "T2|rel(0x10000020@2>T1)|0x301"]),
    (entry(1, "POST", SEMAPHORE, 0x202), []),
    (entry(0, "POST", SEMAPHORE, 0x103), ["main|acq(0x10000020@4>T1)|0x103",
                                          "main|rel(0x10000020@4>T1)|0x103"]),
    (entry(1, "WAIT", SEMAPHORE, 0x203), ["T1|acq(0x10000020@4>T1)|0x203", "T1|rel(0x10000020@4>T1)|0x203",
                                          "T1|acq(0x10000020@2>T1)|0x203", "T1|rel(0x10000020@2>T1)|0x203"]),
    (entry(1, "WAIT", SEMAPHORE, 0x204), []),
    (entry(0, "POST", SEMAPHORE, 0x104), []),
]


class Held(recorder.Case):
    def test_posts_that_are_taken(self):
        record = self.folder / "app.rec"
        record.write_bytes(HEADER + b"".join(entries for entries, _ in POSTS))
        trace = recorder.must(recorder.convert(record)).stdout
        self.assertEqual(trace.decode().splitlines(), [line for _, lines in POSTS for line in lines])

    def test_locks_that_are_held_at_an_access_are_in_the_trace(self):
        record = self.folder / "app.rec"
        record.write_bytes(HEADER + b"".join(entries for entries, _ in HELD))
        trace = recorder.must(recorder.convert(record)).stdout
        self.assertEqual(trace.decode().splitlines(), [line for _, lines in HELD for line in lines])
        self.assertEqual(recorder.places(trace), {("0x106", "0x202"), ("0x108", "0x204"), ("0x10b", "0x204")})

    def test_a_writer_that_never_releases_its_lock(self):
        entries = [entry(0, "FORK", 1, 0x101), entry(0, "WRITE_LOCK", RW, 0x102),
                   entry(0, "WRITE", CELL, 0x103, 4),
                   entry(1, "WRITE_LOCK", RW, 0x201), entry(1, "WRITE", CELL, 0x202, 4),
                   entry(1, "RW_UNLOCK", RW, 0x203)]
        record = self.folder / "app.rec"
        record.write_bytes(HEADER + b"".join(entries))
        trace = recorder.must(recorder.convert(record)).stdout
        self.assertEqual(recorder.places(trace), {("0x103", "0x202")})  # a trace that is taken


class Open(recorder.Case):
    def setUp(self):
        super().setUp()
        self.record = self.folder / "app.rec"

    def test_a_thread_without_events_that_another_one_joins(self):
        """It comes after what its creator did, and before what the joining thread does."""
        entries = [entry(0, "FORK", 1, 0x101), entry(0, "WRITE", CELL, 0x102, 4), entry(0, "FORK", 2, 0x103),
                   entry(1, "JOIN", 2, 0x201),
                   entry(1, "WRITE", CELL, 0x202, 4)]
        self.record.write_bytes(HEADER + b"".join(entries))
        for words in ((), ("-a",), ("--list",)):
            trace = recorder.must(recorder.convert(self.record, *words)).stdout
            self.assertIn(b"T2|begin(T2)|0x201\nT1|join(T2)|0x201\n", trace)
            self.assertEqual(recorder.places(trace), set())

    def test_a_lock_that_tells_of_a_joined_thread(self):
        entries = [entry(0, "FORK", 1, 0x101), entry(0, "FORK", 2, 0x102), entry(0, "FORK", 3, 0x103),
                   entry(1, "WRITE", CELL, 0x201, 4),
                   entry(0, "JOIN", 1, 0x104), entry(0, "LOCK", LOCK, 0x105), entry(0, "UNLOCK", LOCK, 0x106),
                   entry(2, "LOCK", LOCK, 0x301),
                   entry(2, "UNLOCK", LOCK, 0x302), entry(2, "WRITE", CELL, 0x303, 4),
                   entry(3, "WRITE", CELL, 0x401, 4)]
        self.record.write_bytes(HEADER + b"".join(entries))
        trace = recorder.must(recorder.convert(self.record)).stdout
        self.assertEqual(recorder.places(trace), {("0x201", "0x401"), ("0x303", "0x401")})



def random_bytes(draw, count):
    return bytes(draw.randrange(256) for _ in range(count))


FRAMES = b"".join([entry(0, "FRAME", 0x500, 0x100, 0), entry(0, "FRAME", 0x501, 0x101, 1),
                   entry(1, "WAY", 0, 0x502),
                   entry(1, "FRAME", 0x503, 0x102, 0), entry(0, "CONTEXT", 1, 0),
                   entry(0, "CONTEXT", 2000, 0),
                   names(1, b"fifteen bytes.."), names(0, b"main"), entry(1, "NAME", 0x61, 0x62, 12),
                   entry(5, "NAME", 0x61, 0x62, 12),
                   entry(6, "FRAME", 0x503, 0x102, 0), entry(6, "NAME", 0x61, 0x62, 12)])


def damaged_records():
    good, draw = HEADER + FRAMES + ENTRIES * 2 + FRAMES, random.Random(1)
    yield from (good[:size] for size in (0, 5, 12, 65535, 65536, 65537))
    yield from (good[:65536 + size] for size in range(1, len(ENTRIES), 9))
    for _ in range(150):
        record = bytearray(good)
        for _ in range(draw.randrange(1, 6)):
            record[draw.randrange(65536, len(record))] = draw.randrange(256)
        yield bytes(record)
    yield from (HEADER + random_bytes(draw, 16 * entries) for entries in range(20))
    yield random_bytes(draw, 70000)
    yield (b"shb-record 12\nffff 1 2 \n1 2\nx y z\n0 fff 0 --help\n0 ffffffffffff 0 /\n".ljust(65536, b"1")
           + ENTRIES)


def damaged_programs(good):
    """A program with its debug information damaged where the files of its lines stand, in many ways."""
    draw, found = random.Random(2), good.find(b".debug_line")
    spans = [(max(0, at - 400), at + 400) for at in (good.find(b"util.c"), good.rfind(b"main.c"), found)
             if at > 0]
    for _ in range(50):
        program = bytearray(good)
        for _ in range(draw.randrange(1, 8)):
            program[min(draw.randrange(*draw.choice(spans)), len(good) - 1)] = draw.choice(
                (0, 1, 127, 128, 255, draw.randrange(256)))
        yield bytes(program)
    yield from (good[:size] for size in range(0, len(good), len(good) // 8))
    yield from (good[:-size] for size in range(1, 2000, 250))  # the table of sections is at the end


class Damaged(recorder.Case):
    def convert(self, converter, record):
        answer = recorder.call(converter, "--stacks", self.folder / "app.stacks", record,
                               env={**os.environ, "ASAN_OPTIONS": "detect_leaks=0"})
        self.assertIn(answer.returncode, (0, 1, 2), answer.stderr[-2000:])
        if answer.returncode != 2:
            listed = recorder.call(recorder.SHB, "places", "--list", input=answer.stdout)
            self.assertRegex(listed.stderr, b"^(line [0-9]+: [a-z ]*(thread|lock)[a-z ]*\n)?$")
        self.assertIn(b"shb-std: ", answer.stderr)
        self.assertNotRegex(answer.stderr, b"Sanitizer|runtime error")
        return answer.returncode

    def test_is_refused_or_converted_and_nothing_else(self):
        converter, record, statuses = recorder.sanitized(), self.folder / "app.rec", []
        for number, damaged in enumerate(damaged_records()):
            record.write_bytes(damaged)
            with self.subTest(number):
                statuses.append(self.convert(converter, record))
        self.assertGreater(statuses.count(0), 20)
        self.assertGreater(statuses.count(2), 20)

    def test_a_program_with_damaged_debug_information(self):
        converter, record, program = (recorder.sanitized(), self.folder / "app.rec",
                                      self.folder / "app")
        recorder.must(recorder.call("gcc", "-g", *recorder.two_of_one_name(self.folder / "sources"), "-o",
                                    program, "-pthread"))
        module = b"shb-record 12\n0 ffffff 0 " + os.fsencode(program) + b"\n"
        record.write_bytes(module.ljust(65536 - 256, b"\0") + b"whole".ljust(256, b"\0") + ENTRIES)
        for number, damaged in enumerate(damaged_programs(program.read_bytes())):
            program.write_bytes(damaged)
            with self.subTest(number):
                self.assertEqual(self.convert(converter, record), 0)

    def test_a_program_without_a_section_of_its_debug_information(self):
        """clang's sanitizer knows what gcc's doesn't: that nothing may be added to a null pointer."""
        if not shutil.which("clang"):
            self.skipTest("clang isn't installed")
        converter, record, program = (recorder.sanitized("clang"), self.folder / "app.rec",
                                      self.folder / "app")
        recorder.must(recorder.call("gcc", "-g", *recorder.two_of_one_name(self.folder / "sources"), "-o",
                                    program, "-pthread"))
        record.write_bytes(
            (b"shb-record 12\n0 ffffff 0 " + os.fsencode(program) + b"\n").ljust(65536 - 256, b"\0")
                           + b"whole".ljust(256, b"\0") + ENTRIES)
        program.write_bytes(program.read_bytes().replace(b".debug_line_str", b".debug_line_xxx"))
        self.assertEqual(self.convert(converter, record), 0)

    def test_what_no_trace_can_have_is_refused_by_shb(self):
        fork, start, join = (entry(0, "FORK", 1, 0x101), entry(1, "START", STACK, 0x500, 4096),
                             entry(0, "JOIN", 1, 0x103))
        write = entry(0, "WRITE", BLOCK, 0x104, 8), entry(1, "WRITE", BLOCK, 0x201, 8)
        block, record = entry(0, "ALLOC", BLOCK, 0x100, 16), self.folder / "app.rec"
        for reason, entries in (("a thread cannot fork itself", [entry(1, "FORK", 1, 1)]),
                                ("the thread was joined before", [fork, start, join, *write]),
                                ("a thread cannot join itself", [entry(0, "JOIN", 0, 0x101)])):
            record.write_bytes(HEADER + block + b"".join(entries))
            for options in ((), ("--list",)):
                with self.subTest(reason, options=options):
                    trace = recorder.must(recorder.convert(record, *options)).stdout
                    answer = recorder.call(recorder.SHB, "places", "--list", input=trace)
                    self.assertEqual(answer.returncode, 2)
                    self.assertRegex(answer.stderr.decode(), fr"^line \d+: {reason}\n$")

    def test_a_number_that_is_used_again(self):
        """The next one that is forked with it is another thread: the one before was joined, or detached, or
        there when a segment began."""
        fork, start, join = (entry(0, "FORK", 1, 0x101), entry(1, "START", STACK, 0x500, 4096),
                             entry(0, "JOIN", 1, 0x103))
        write, record = entry(1, "WRITE", BLOCK, 0x201, 8), self.folder / "app.rec"
        block, threads = entry(0, "ALLOC", BLOCK, 0x100, 16), ("T1", "T65534", "T65535")
        forks, uses, joins = ([(by or thread, word, thread * bool(by)) for thread in threads]
                              for by, word in (("main", "fork"), ("", "w"), ("main", "join")))
        for entries, events in (((fork + start + write + join) * 3,
                                 itertools.chain(*zip(forks, uses, joins))),
                                ((fork + start + write) * 3, itertools.chain(*zip(forks, uses))),
                                (start + write + (fork + write) * 2,
                                 itertools.chain(uses[:1], *zip(forks[1:], uses[1:])))):
            record.write_bytes(HEADER + block + entries)
            trace = recorder.must(recorder.convert(record, "--list")).stdout.decode()
            self.assertEqual(re.findall(r"^(\w+)\|(\w+)(?:\((T\d+)\))?", trace, re.M), list(events))

    def test_a_name_is_that_of_the_thread_which_has_the_number(self):
        """A thread's last name is its name from its fork on; the next thread with its number has none,
        or its own."""
        fork, join = entry(0, "FORK", 1, 0x101), entry(0, "JOIN", 1, 0x103)
        write, record = entry(1, "WRITE", BLOCK, 0x201, 8), self.folder / "app.rec"
        record.write_bytes(HEADER + names(0, b"not main") + entry(0, "ALLOC", BLOCK, 0x100, 16) + fork
                           + names(1, b"first")
                           + write + names(1, b"fifteen bytes..") + join + fork + write + join
                           + fork + names(1, b"") + write + names(1, b"third") + join)
        lines = recorder.must(recorder.convert(record, "-a", "--list")).stdout.decode().splitlines()
        self.assertEqual([line.split("|")[:2] for line in lines],
                         [[*event] for thread in ("T1.fifteen bytes..", "T65534", "T65535.third")
                          for event in (("main", f"fork({thread})"), (thread, "w(0x100#1)"),
                                        ("main", f"join({thread})"))])

    def test_a_name_that_no_trace_can_have(self):
        """A piece of it that is none is no name; what ends a field or a line, or names another thing in a
        name, is another sign."""
        fork, write, record = (entry(0, "FORK", 1, 0x101), entry(1, "WRITE", BLOCK, 0x201, 8),
                               self.folder / "app.rec")
        for name, shown in ((b"a|b\tc\nd\re\x7f\xff", b".a_b_c_d_e\x7f\xff"), (b"a!b@c#d(e)", b".a_b_c_d(e)"),
                            (b"\x1b[31m", b"._[31m")):
            record.write_bytes(HEADER + fork + names(1, name) + write)
            self.assertTrue(
                recorder.must(recorder.convert(record, "-a")).stdout.startswith(
                    b"main|fork(T1" + shown + b")|"), name)
        record.write_bytes(HEADER + fork + entry(1, "NAME", 0x61, 0x62, 12) * 2 + write)
        self.assertTrue(recorder.must(recorder.convert(record, "-a")).stdout.startswith(b"main|fork(T1)|"))
        record.write_bytes(HEADER + fork + names(1, b"a") + entry(1, "NAME", 0x62626262, 0x62, 12) * 1000
                           + write)
        name = re.match(rb"main\|fork\(T1\.(ab+)\)\|", recorder.must(recorder.convert(record, "-a")).stdout)
        self.assertLess(len(name[1]), 80)

    def test_a_record_of_another_version(self):
        path = self.folder / "app.rec"
        for version in (b"5", b"11"):
            path.write_bytes(HEADER.replace(b"12", version, 1).ljust(65536, b"\0")[:65536])
            answer = recorder.convert(path)
            self.assertEqual((answer.returncode, answer.stdout), (2, b""))
            self.assertIn(b"is a record of version " + version + b", by another version of the recorder",
                          answer.stderr)

    def test_what_is_no_record(self):
        for path, reason in ((self.folder / "none", b"cannot read"), (self.folder, b"is no record"),
                             ("/dev/null", b"is no record")):
            answer = recorder.convert(path)
            self.assertEqual(answer.returncode, 2)
            self.assertIn(reason, answer.stderr)


class Copies(recorder.Case):
    """A record that was cut or changed after it was written is known, wherever that was."""

    def record(self):
        program, record = self.folder / "app", self.folder / "app.rec"
        recorder.build(recorder.PROGRAMS / "names.c", "-O1", program)
        recorder.must(recorder.call(program, env=recorder.settings(record)))
        recorder.must(recorder.convert(record))
        return record.read_bytes()

    def refused(self, content, reason):
        copy = self.folder / "copy.rec"
        copy.write_bytes(content)
        answer = recorder.convert(copy)
        self.assertEqual((answer.returncode, answer.stdout), (2, b""))
        self.assertRegex(answer.stderr.decode(), reason)

    def test_a_copy_that_was_cut(self):
        good = self.record()
        for size in (65536, 65536 + 16, (65536 + len(good)) // 32 * 16, len(good) - 16, len(good) - 1):
            with self.subTest(size):
                self.refused(good[:size], "copy.rec was cut: [0-9]+ of its [0-9]+ records are there")

    def test_a_copy_that_was_changed(self):
        good, draw = self.record(), random.Random(3)
        for _ in range(40):
            changed = bytearray(good)
            changed[draw.randrange(65536, len(good))] ^= 1 << draw.randrange(8)
            with self.subTest():
                self.refused(changed, "copy.rec was changed|was cut: |record [0-9]+ of .* is damaged")
        self.refused(good[:-16] + good[-32:-16], "was changed")
        self.refused(good + good[-16:], "was changed")
