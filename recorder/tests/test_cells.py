"""What is held back brings no race: records drawn at random have the same places with all their accesses and
with those that the cells leave. Of a variable that races each thread's accesses at each place are there."""

import collections
import os
import struct
import types

import recorder
import test_open
from test_record import OPERATIONS, entry, late

RUNTIME = recorder.SOURCES / "runtime"
HEADER_BYTES = 65536
X, PAGE, BLOCK = 0x5000, 0x30000000, 0x20000000
FORKS = [entry(0, "FORK", 1, 0x101), entry(0, "FORK", 2, 0x102)]


def write(thread, place, address=X, size=4):
    return entry(thread, "WRITE", address, place, size)


def read(thread, place, address=X, size=4):
    return entry(thread, "READ", address, place, size)


def context(thread, number):
    """Two of them, of which the first is even, are of one kind."""
    return entry(thread, "CONTEXT", number, 0)


def atomic(thread, operation, place, order=4, size=4):
    """With the order of C11's acquire and release, if no other is named."""
    return entry(thread, f"ATOMIC_{operation}", X, place, size | order << 5)


def repeated(before, which, access, context=0):
    """It was held back earlier in its phase, too."""
    return late(before, which, access, context, True)


OTHER_USES = [write(1, 0x300 + k) for k in range(15)]
CASES = {  # what a record has behind FORKS, and what is left of it
    "of one thread": ([write(1, 0x201), read(1, 0x202), write(1, 0x201), write(1, 0x203, X + 4, 1)], []),
    "a loop, and then another thread": (
        [write(1, 0x201), *[read(1, 0x202), write(1, 0x203)] * 3, write(2, 0x204)],
        [late(2, 1, write(1, 0x201)), repeated(2, 6, read(1, 0x202)), repeated(2, 7, write(1, 0x203)),
         write(2, 0x204)]),
    "a later phase": (
        [write(1, 0x201), *[write(2, 0x204)] * 4, read(1, 0x205)],
        [late(2, 1, write(1, 0x201)), write(2, 0x204), repeated(5, 3, write(2, 0x204)), read(1, 0x205)]),
    "a use once in a phase": (
        [write(1, 0x201), read(2, 0x204), write(1, 0x201)],
        [late(2, 1, write(1, 0x201)), read(2, 0x204), write(1, 0x201)]),
    "a reader that wrote": (
        [read(1, 0x201), write(1, 0x205), read(2, 0x204)],
        [late(2, 1, read(1, 0x201)), late(2, 2, write(1, 0x205)), read(2, 0x204)]),
    "readers alone": ([read(1, 0x201), read(2, 0x204), read(1, 0x201)], []),
    "readers, and then a write": (
        [read(1, 0x201), read(2, 0x204), read(1, 0x201), read(2, 0x204), write(1, 0x205)],
        [repeated(2, 3, read(1, 0x201)), repeated(2, 4, read(2, 0x204)), write(1, 0x205)]),
    "readers behind a write": (
        [write(1, 0x205), read(2, 0x204), *[read(1, 0x201), read(2, 0x204)] * 2, write(1, 0x206)],
        [late(2, 1, write(1, 0x205)), read(2, 0x204), read(1, 0x201), repeated(6, 3, read(2, 0x204)),
         late(6, 2, read(1, 0x201)), write(1, 0x206)]),
    "a reader behind a free": (
        [entry(1, "ALLOC", BLOCK, 0x201, 32), read(1, 0x202, BLOCK + 8), entry(1, "FREE", BLOCK, 0x203),
         *[read(2, 0x204, BLOCK + 8)] * 3,
         write(1, 0x205, BLOCK + 8)],
        [entry(1, "ALLOC", BLOCK, 0x201, 32), entry(1, "FREE", BLOCK, 0x203),
         late(3, 1, read(1, 0x202, BLOCK + 8)),
         read(2, 0x204, BLOCK + 8), late(7, 1, read(2, 0x204, BLOCK + 8)), write(1, 0x205, BLOCK + 8)]),
    "atomics of one thread": ([atomic(1, "STORE", 0x201),
                               *[atomic(1, "UPDATE", 0x202), atomic(1, "LOAD", 0x203)] * 2], []),
    "a lock made of an atomic": (
        [*[atomic(1, "UPDATE", 0x201, 2), write(1, 0x202, X + 8), atomic(1, "STORE", 0x203, 3)] * 3,
         atomic(2, "UPDATE", 0x201, 2), read(2, 0x204, X + 8)],
        [repeated(2, 7, atomic(1, "UPDATE", 0x201, 2)), repeated(2, 9, atomic(1, "STORE", 0x203, 3)),
         atomic(2, "UPDATE", 0x201, 2),
         repeated(2, 8, write(1, 0x202, X + 8)), read(2, 0x204, X + 8)]),
    "an atomic in a later phase": (
        [write(1, 0x201), *[atomic(2, "UPDATE", 0x204)] * 3, read(1, 0x205)],
        [late(2, 1, write(1, 0x201)), atomic(2, "UPDATE", 0x204), late(5, 1, atomic(2, "UPDATE", 0x204)),
         read(1, 0x205)]),
    "atomics at one place": (
        [*[atomic(1, "UPDATE", 0x201, order) for order in (2, 3, 4)], atomic(1, "LOAD", 0x201, 2),
         atomic(2, "LOAD", 0x204)],
        [late(2, 1, atomic(1, "UPDATE", 0x201, 2)), late(2, 2, atomic(1, "UPDATE", 0x201, 3)),
         late(2, 3, atomic(1, "UPDATE", 0x201, 4)),
         late(2, 4, atomic(1, "LOAD", 0x201, 2)), atomic(2, "LOAD", 0x204)]),
    "threads that wait by loads": (
        [*[atomic(1, "LOAD", 0x201), atomic(2, "LOAD", 0x204)] * 3, atomic(0, "STORE", 0x105),
         *[atomic(1, "LOAD", 0x201), atomic(2, "LOAD", 0x204)] * 2,
         atomic(0, "STORE", 0x106)],
        [repeated(2, 5, atomic(1, "LOAD", 0x201)), repeated(2, 6, atomic(2, "LOAD", 0x204)),
         atomic(0, "STORE", 0x105), atomic(1, "LOAD", 0x201),
         atomic(2, "LOAD", 0x204), late(9, 1, atomic(1, "LOAD", 0x201)), late(9, 2, atomic(2, "LOAD", 0x204)),
         atomic(0, "STORE", 0x106)]),
    "an atomic of two cells": (
        [*[atomic(1, "UPDATE", 0x201, size=16)] * 2, read(2, 0x204), atomic(1, "LOAD", 0x202, size=16)],
        [*[atomic(1, "UPDATE", 0x201, size=16)] * 2, read(2, 0x204), atomic(1, "LOAD", 0x202, size=16)]),
    "an atomic of two cells behind a write": (
        [*[write(1, 0x201)] * 2, atomic(2, "UPDATE", 0x204, size=16)],
        [repeated(2, 2, write(1, 0x201)), atomic(2, "UPDATE", 0x204, size=16)]),
    "parts of a cell": (
        [write(1, 0x201), write(1, 0x201, X + 4), read(2, 0x204, X + 6, 1)],
        [late(2, 1, write(1, 0x201)), late(2, 2, write(1, 0x201, X + 4)), read(2, 0x204, X + 6, 1)]),
    "calls from two places": (
        [context(1, 2), write(1, 0x201), context(1, 4), write(1, 0x201), context(1, 3), write(1, 0x201),
         write(2, 0x204)],
        [context(1, 2), context(1, 4), context(1, 3), repeated(5, 1, write(1, 0x201), 3),
         late(4, 1, write(1, 0x201), 4), write(2, 0x204)]),
    "a range in calls of one kind": (
        [context(1, 2), write(1, 0x201, X, 16), context(1, 3), write(1, 0x201, X, 16), write(2, 0x204)],
        [context(1, 2), context(1, 3), repeated(4, 1, write(1, 0x201, X, 16), 3), write(2, 0x204)]),
    "calls of readers": (
        [read(2, 0x204), context(1, 2), read(1, 0x201), context(1, 4), *[read(1, 0x201)] * 2,
         write(2, 0x205)],
        [context(1, 2), context(1, 4), late(2, 1, read(2, 0x204)), late(3, 1, read(1, 0x201), 2),
         late(4, 1, read(1, 0x201), 4), write(2, 0x205)]),
    "more uses than keys": (
        [*OTHER_USES, write(2, 0x204)],
        [*OTHER_USES[7:14], *[late(2, k, OTHER_USES[k - 1]) for k in range(1, 8)], late(9, 1, OTHER_USES[14]),
         write(2, 0x204)]),
    "an atomic access": (
        [write(2, 0x204), read(1, 0x201), entry(2, "ATOMIC_STORE", X, 0x205, 4), read(1, 0x201),
         read(1, 0x201)],
        [late(2, 1, write(2, 0x204)), read(1, 0x201), entry(2, "ATOMIC_STORE", X, 0x205, 4), read(1, 0x201)]),
    "uses that other cells have": (
        [write(1, 0x201), read(1, 0x202), read(2, 0x203), write(1, 0x201, X + 8), read(1, 0x202, X + 8),
         read(2, 0x203, X + 8), write(1, 0x201, X + 8),
         read(1, 0x202, X + 8), write(2, 0x204, X + 8)],
        [late(2, 1, write(1, 0x201)), late(2, 2, read(1, 0x202)), read(2, 0x203),
         late(7, 1, write(1, 0x201, X + 8)),
         late(7, 2, read(1, 0x202, X + 8)), read(2, 0x203, X + 8), write(1, 0x201, X + 8),
         read(1, 0x202, X + 8), write(2, 0x204, X + 8)]),
    "a write behind a read that another cell has": (
        [write(1, 0x201), read(1, 0x202, X + 8), write(1, 0x201, X + 8), read(2, 0x203, X + 8),
         write(2, 0x203)],
        [late(2, 2, read(1, 0x202, X + 8)), late(2, 3, write(1, 0x201, X + 8)), read(2, 0x203, X + 8),
         late(2, 1, write(1, 0x201)), write(2, 0x203)]),
    "a lock": ([write(1, 0x201), entry(2, "LOCK", X, 0x205)],
               [late(2, 1, write(1, 0x201)), entry(2, "LOCK", X, 0x205)]),
    "a range over two cells": (
        [*[write(1, 0x201, X, 16)] * 2, write(2, 0x204, X + 8), write(2, 0x205)],
        [repeated(2, 2, write(1, 0x201, X, 16)), write(2, 0x204, X + 8),
         repeated(2, 2, write(1, 0x201, X, 16)), write(2, 0x205)]),
    "a range that was used by another thread": (
        [write(2, 0x204), write(1, 0x201, X, 16), write(1, 0x201, X, 16)],
        [late(2, 1, write(2, 0x204)), write(1, 0x201, X, 16), write(1, 0x201, X, 16)]),
    "a range again and again": (
        [*[write(1, 0x201, X + 4, 16)] * 4, read(1, 0x202, X + 8), write(1, 0x201, X + 4, 16),
         write(2, 0x204, X + 16)],
        [repeated(2, 5, write(1, 0x201, X + 4, 16)), write(2, 0x204, X + 16)]),
    "a range of which another thread has a cell": (
        [*[write(1, 0x201, X, 24)] * 2, read(2, 0x204, X + 16), write(1, 0x201, X, 24)],
        [repeated(2, 2, write(1, 0x201, X, 24)), read(2, 0x204, X + 16), write(1, 0x201, X, 24)]),
    "a range that another thread has": (
        [write(2, 0x201, X, 16), write(1, 0x201, X, 16)],
        [*[late(2, 1, write(2, 0x201, X, 16))] * 2, write(1, 0x201, X, 16)]),
    "a page that one thread has": (
        [write(1, 0x201, PAGE, 4096), read(1, 0x202, PAGE + 8), read(1, 0x202, PAGE + 8),
         read(2, 0x204, PAGE + 8)],
        [write(1, 0x201, PAGE, 4096), repeated(4, 2, read(1, 0x202, PAGE + 8)), read(2, 0x204, PAGE + 8)]),
    "a page that two threads have": (
        [write(1, 0x201, PAGE, 4096), write(2, 0x204, PAGE, 4096), read(2, 0x205, PAGE + 8)],
        [write(1, 0x201, PAGE, 4096), write(2, 0x204, PAGE, 4096), read(2, 0x205, PAGE + 8)]),
    "a page that was another thread's": (
        [write(1, 0x201, PAGE, 4096), write(2, 0x204, PAGE, 4096), read(1, 0x205, PAGE + 8)],
        [write(1, 0x201, PAGE, 4096), write(2, 0x204, PAGE, 4096), read(1, 0x205, PAGE + 8)]),
    "a page of which another thread has a part": (
        [write(1, 0x201, PAGE, 4096), write(2, 0x204, PAGE + 8), write(1, 0x202, PAGE, 4096),
         write(2, 0x204, PAGE + 8)],
        [write(1, 0x201, PAGE, 4096), write(2, 0x204, PAGE + 8), write(1, 0x202, PAGE, 4096),
         write(2, 0x204, PAGE + 8)]),
    "a page with a new block": (
        [write(1, 0x201, PAGE, 4096), entry(1, "ALLOC", PAGE, 0x202, 32), write(1, 0x203, PAGE, 4096),
         write(2, 0x204, PAGE + 8)],
        [write(1, 0x201, PAGE, 4096), entry(1, "ALLOC", PAGE, 0x202, 32), write(1, 0x203, PAGE, 4096),
         write(2, 0x204, PAGE + 8)]),
    "a block that is freed by another thread": (
        [entry(1, "ALLOC", BLOCK, 0x201, 32), write(1, 0x202, BLOCK + 8), entry(2, "FREE", BLOCK, 0x204)],
        [entry(1, "ALLOC", BLOCK, 0x201, 32), late(3, 1, write(1, 0x202, BLOCK + 8)),
         entry(2, "FREE", BLOCK, 0x204)]),
    "a new block": (
        [write(1, 0x201, BLOCK + 8), entry(2, "ALLOC", BLOCK, 0x204, 32), write(2, 0x205, BLOCK + 8)],
        [entry(2, "ALLOC", BLOCK, 0x204, 32)]),
    "a block that is freed unused": (
        [entry(1, "ALLOC", BLOCK, 0x201, 32), entry(1, "FREE", BLOCK, 0x202),
         *[write(2, 0x204, BLOCK + 8)] * 3, read(1, 0x203, BLOCK + 8)],
        [entry(1, "ALLOC", BLOCK, 0x201, 32), entry(1, "FREE", BLOCK, 0x202), write(2, 0x204, BLOCK + 8),
         repeated(5, 2, write(2, 0x204, BLOCK + 8)), read(1, 0x203, BLOCK + 8)]),
    "a use that another cell has in a block that is freed unused": (
        [write(2, 0x204), entry(1, "ALLOC", BLOCK, 0x201, 32), entry(1, "FREE", BLOCK, 0x202),
         write(2, 0x204, BLOCK + 8)],
        [entry(1, "ALLOC", BLOCK, 0x201, 32), entry(1, "FREE", BLOCK, 0x202), write(2, 0x204, BLOCK + 8)]),
    "a range in a freed block": (
        [entry(1, "ALLOC", BLOCK, 0x201, 32), entry(1, "FREE", BLOCK, 0x202),
         *[write(2, 0x204, BLOCK, 16)] * 2],
        [entry(1, "ALLOC", BLOCK, 0x201, 32), entry(1, "FREE", BLOCK, 0x202),
         *[write(2, 0x204, BLOCK, 16)] * 2]),
    "a page with a freed block": (
        [entry(1, "ALLOC", PAGE, 0x201, 32), entry(1, "FREE", PAGE, 0x202), write(2, 0x204, PAGE, 4096),
         *[read(2, 0x205, PAGE + 8)] * 2],
        [entry(1, "ALLOC", PAGE, 0x201, 32), entry(1, "FREE", PAGE, 0x202), write(2, 0x204, PAGE, 4096),
         read(2, 0x205, PAGE + 8)]),
    "a block that is new again": (
        [entry(1, "ALLOC", BLOCK, 0x201, 32), entry(1, "FREE", BLOCK, 0x202),
         entry(1, "ALLOC", BLOCK, 0x203, 32),
         write(1, 0x204, BLOCK + 8)],
        [entry(1, "ALLOC", BLOCK, 0x201, 32), entry(1, "FREE", BLOCK, 0x202),
         entry(1, "ALLOC", BLOCK, 0x203, 32)]),
    "a block freed by another thread than has its page": (
        [entry(1, "ALLOC", PAGE, 0x201, 32), write(1, 0x202, PAGE, 4096), write(1, 0x203, PAGE + 8),
         entry(2, "FREE", PAGE, 0x204)],
        [entry(1, "ALLOC", PAGE, 0x201, 32), write(1, 0x202, PAGE, 4096),
         late(5, 1, write(1, 0x203, PAGE + 8)),
         entry(2, "FREE", PAGE, 0x204)]),
    "a new block in a page with cells": (
        [write(1, 0x201, PAGE, 4096), read(1, 0x202, PAGE + 8), entry(1, "ALLOC", PAGE, 0x203, 32),
         *[write(2, 0x204, PAGE + 16)] * 2],
        [write(1, 0x201, PAGE, 4096), entry(1, "ALLOC", PAGE, 0x203, 32)]),
    "a block over a bound of 64 cells": (
        [entry(1, "ALLOC", BLOCK + 504, 0x201, 528), write(1, 0x202, BLOCK + 504),
         write(1, 0x202, BLOCK + 1024),
         entry(2, "FREE", BLOCK + 504, 0x204),
         *[read(1, 0x205, BLOCK + at) for at in (496, 512, 1016, 1032)]],
        [entry(1, "ALLOC", BLOCK + 504, 0x201, 528), late(3, 1, write(1, 0x202, BLOCK + 504)),
         late(3, 2, write(1, 0x202, BLOCK + 1024)),
         entry(2, "FREE", BLOCK + 504, 0x204), read(1, 0x205, BLOCK + 512), read(1, 0x205, BLOCK + 1016)]),
    "a block so long that it is none": (
        [write(1, 0x201), entry(2, "ALLOC", 0x1000, 0x204, 1 << 32), write(2, 0x205)],
        [entry(2, "ALLOC", 0x1000, 0x204, 1 << 32), late(2, 1, write(1, 0x201)), write(2, 0x205)]),
    "a thread with the number of another one": (
        [write(1, 0x201), entry(0, "JOIN", 1, 0x103), entry(2, "FORK", 1, 0x204), write(1, 0x201)],
        [entry(0, "JOIN", 1, 0x103), entry(2, "FORK", 1, 0x204), late(2, 1, write(1, 0x201)),
         write(1, 0x201)]),
}
# What the threads of a record do: as in test_open, and blocks (B), and ranges over pages with accesses in
# them (G).
WORDS = ["RW", "RWL", "RWA", "AR", "RAL", "RWLS", "RWLX", "RWLLLL", "RLLL", "WL", "RWB", "BL", "G", "GGL",
         "GL", "GLL", "RWC", "RLC", "A", "AF", "ALF", "RWAF"]
# of these faults so many are found in a few drawn records too, each of the others in a case
FOUND_IN_DRAWN = 5
FAULTS = {  # to plant: the file, what stands there, and what in its place
    "each phase counts as the first": ("cells.c", "int is_first = !c->owner && !is_freed(page, address);",
                                       "int is_first = 1;"),
    "the last use of a phase isn't recorded": ("cells.c", "        if (is_held(key_at(c, k))) put_held(c, "
                                                          "key_at(c, k), address);\n", "        ;\n"),
    "the position is that of the first use": (
        "cells.c", "    *found.word = word_after(*found.word, word);\n", ""),
    "the position is where it is recorded": ("hold_back.c", "{word & (IS_REPEATED | POSITIONS), ",
                                             "{written << ORDER_BITS | 1, "),
    "bytes of a cell are one use": (
        "cells.c", "{what_of_use(r.what, address), kind | ", "{r.what, kind | "),
    "calls from two places are one use": ("cells.c", "    use.from = kind;\n", "    use.from = 0;\n"),
    "calls from two places are one use of a reader": (
        "cells.c", "kind | reader_of(serial, r.where >> 48)};", "reader_of(serial, r.where >> 48)};"),
    "a use that makes room isn't recorded": (
        "cells.c", "if (!grow_keys(c)) put_keys(c, address);",
        "if (!grow_keys(c)) c->uses[0] = c->used = 0;"),
    "atomic accesses end no phase": ("cells.c", "operation <= OP_ATOMIC_UPDATE && is_in_one",
                                     "is_plain(operation) && is_in_one"),
    "atomic accesses of several cells end no phase": ("cells.c", "is_atomic(operation) ? !is_in_one(address, "
                                                                 "end)", "is_atomic(operation) ? 0"),
    "atomic accesses of all orders are one use": ("cells.h", "(has_depth(what) ? OF_ALL_DEPTHS : 0)",
                                                  "OF_ALL_DEPTHS"),
    "atomic accesses of all kinds are one use": (
        "cells.h", "    return what | address % GRAIN", "    if (operation_of_use(what) > OP_WRITE) what |= "
                                                        "7ull << 48;\n    return what | address % GRAIN"),
    "atomic accesses are reads": ("cells.h", "return operation == OP_READ || operation == OP_ATOMIC_LOAD;",
                                  "return operation != OP_WRITE;"),
    "a free ends no phase": ("cells.c", "if (operation == OP_FREE) free_range", "if (0) free_range"),
    "each page begins with a first phase": (
        "cells.c", "page->is_first = !cells && !page->is_whole && !has_freed(page);", "page->is_first = 1;"),
    "a page that was freed begins with a first phase": ("cells.c", " && !has_freed(page)", ""),
    "a cell that was freed begins with a first phase": ("cells.c", "is_first = !c->owner && !is_freed(page, "
                                                                   "address)", "is_first = !c->owner"),
    "a free leaves what nobody used": ("cells.c", "        page->freed[w] |= bits & ~page->used[w];\n", ""),
    "a free is of what nobody used alone": (
        "cells.c", "used = bits & page->used[w]; used; used &= used - 1) {\n            unsigned",
        "used = 0; used; used &= used - 1) {\n            unsigned"),
    "a new block stays freed": ("cells.c", "        page->freed[w] &= ~bits;\n", ""),
    "a page's cells aren't known as used": ("cells.c", "    if (page->is_whole) memset(page->used, -1, "
                                                       "sizeof page->used);\n", ""),
    "a cell isn't known as used": ("cells.c", "    page->used[number_in_page(address) / 64] |= "
                                              "bit_of(address);\n", ""),
    "marks begin with a word": ("cells.c", "word == first / 64 ? ~0ull << first % 64 : ~0ull", "~0ull"),
    "marks end with a word": ("cells.c", "word == last / 64 ? bits & ~0ull >> (63 - last % 64) : bits",
                              "bits"),
    "a page forgets whose it is": ("cells.c", "if (page->is_whole && page->owner == serial) return;",
                                   "if (page->is_whole) return;"),
    "a page is whole for ever": ("cells.c", "    page->is_whole = 0;\n}\n\n/* The next", "}\n\n/* The next"),
    "a new block leaves its page whole": ("cells.c", "        if (page->is_whole) page->is_whole = 0;\n", ""),
    "a thread with the number of a joined one is the same": (
        "hold_back.c", "serials[address] = ++last_serial", "last_serial++"),
    "a range is held back in a later phase": ("cells.c", "c->is_first ? number_of_use(use) : 0;",
                                              "number_of_use(use);"),
    "readers are one": ("cells.c", "kind | reader_of(serial, r.where >> 48)};", "kind | reader_of(1, 1)};"),
    "a write leaves a phase of reads": ("cells.c", "    if (!is_read(use.what)) c->is_only_read = 0;\n", ""),
    "a free or a range leaves a phase of reads": ("cells.c", "    c->is_only_read = 0;\n}", "}"),
    "a cell that was freed begins with a first phase in a quick hook": (
        "cells.c", "if (!c->owner && !is_freed(page, address)) begin_phase(page",
        "if (!c->owner) page->freed[number_in_page(address) / 64] = 0, begin_phase(page"),
    "a use is new in a quick hook of a later phase": ("cells.c", "!c->is_first || (is_full(c)",
                                                      "(is_full(c)"),
    "a write in a quick hook leaves a phase of reads": ("cells.c", "    c->is_only_read &= "
                                                                   "is_read(use.what);\n", ""),
    "a quick hook takes another thread's cell": (
        "cells.c", "    if (c->owner && c->owner != serial && c->owner != READERS) return 0;\n", ""),
    "a range that is repeated keeps its first position": ("cells.c", "k < count; k++) *words[k] = word_after",
                                                          "k < 0; k++) *words[k] = word_after"),
    "a range is repeated in cells that another thread has": (
        "cells.c", "c && c->owner == serial ? word_in", "c ? word_in"),
    "a range is repeated where its first cell has it": (
        "cells.c", "        if (!words[count++]) return 0;", "        if (words[count]) count++;"),
    "a range is counted once more than it was held back": (
        "cells.c", "    if (count && is_right_behind(*words[0], word)) return IS_HELD_ALREADY;\n", ""),
    "a table grows without its keys": (
        "cells.c", "        if (*old.use) insert_key(&grown, *old.use, *old.word);\n", ""),
    "the context is that of the first use": (
        "cells.c", "*found.word = word_after(*found.word, word)",
        "*found.word = (*found.word & ~POSITIONS) | (word & POSITIONS) | IS_REPEATED"),
    "a position serves once more behind others": ("cells.c", "is_right_behind(*found.word, word)",
                                                  "*found.word"),
    "a use whose table is taken isn't recorded": (
        "cells.c", "c->log_lines == log) put_keys(c, at);", "c->log_lines == log) { free_table(c); *c = "
                   "(cell){.owner = c->owner, .number = c->number, .is_first = c->is_first}; }"),
    "each use is repeated": ("cells.h", "? word : word & ~IS_REPEATED;", "? word : word;"),
    "no use is repeated": ("cells.h", "? word : word & ~IS_REPEATED;", "? word & ~IS_REPEATED : word & "
                           "~IS_REPEATED;"),
    "the first use of a phase is repeated": ("cells.c", "c->is_first ? word_after(0, word) : NO_POSITION",
                                             "c->is_first ? word : NO_POSITION"),
    "what follows a use that isn't repeated is never right behind it": ("cells.h", "(before | IS_REPEATED) + "
                                                                        "1 == word", "before + 1 == word"),
    "a long block is new variables": ("cells.c", "    if (end - address >= MAX_BLOCK) return;\n", ""),
}


class Drawn(test_open.Drawn):
    """A record whose accesses of its cells are in one of them each. One of several is an event for each
    variable that it covers, and which variables there are hangs on all accesses: so of these the places
    needn't be the same."""

    all_words, sizes, longest_run = WORDS, (1, 4, 4, 8), 20

    def step(self, word):
        if word == "B":
            self.block(0x20000000 + 0x100 * self.draw.randrange(2))
        elif word == "G":
            self.page(0x30000000)
        elif word == "C":
            self.add("CONTEXT", self.draw.randrange(5))
        elif word in "RW":
            size = self.draw.choice(self.sizes)
            inside = self.draw.choice((0, 0, 2, 4)) if size < 8 else 0
            self.add("READ" if word == "R" else "WRITE", self.draw.choice(self.cells) + inside, size)
        else:
            super().step(word)

    def block(self, at):
        operation = self.draw.choice(("ALLOC", "READ", "WRITE", "WRITE", "FREE", "FREE"))
        if operation in ("READ", "WRITE") and self.draw.random() < 0.5:
            self.add(operation, at + self.draw.choice((0, 8)), 4)
        else:
            self.add(operation, at, 32)

    def page(self, at):
        chance, operation = self.draw.random(), self.draw.choice(("READ", "WRITE"))
        if chance < 0.05:
            self.add("ALLOC", at, 20480)
        elif chance < 0.1:
            self.add("FREE", at)
        elif chance < 0.3:
            self.add(operation, at + self.draw.choice((0, 0, 4096, 104)),
                     self.draw.choice((4096, 8192, 8192, 1200)))
        else:
            self.add(operation, at + self.draw.choice((0, 8, 4100)), 4)


class OfCells(Drawn):
    """One whose cells stay those that they are, and whose accesses are told apart by their entries."""

    all_words = [words for words in WORDS if not set(words) & set("BGC")]


def is_late(entry):
    return struct.unpack("<Q", entry[8:])[0] >> 48 & 63 == OPERATIONS.index("OP_LATE")


def is_marked(entry):
    return is_late(entry) and struct.unpack("<Q", entry[:8])[0] >> 40 & 1


def split(entries):
    return [entries[k:k + 16] for k in range(0, len(entries), 16)]


NO_TABLES = [("log <= MOST_LOG ? new_table(log) : 0", "0")]
FEW_TABLES = [("memory_of_keys = most_bytes / 2", "memory_of_keys = 64"),
              ("static uint64_t at;", f"uint64_t at = {X};")]  # the one to take is soon found


class Cells(recorder.Case):
    def program(self, folder, keys, plant=("", "", ""), has_tables=False):
        """The program that leaves of a record what cells of so many keys leave, and a few tables of more."""
        folder.mkdir()
        for path in (RUNTIME / "cells.c", RUNTIME / "cells.h", recorder.HERE / "hold_back.c"):
            text = path.read_text().replace("../record.h", str(recorder.SOURCES / "record.h"))
            if path.name == plant[0]:
                self.assertEqual(text.count(plant[1]), 1)
                text = text.replace(plant[1], plant[2])
            for old, new in FEW_TABLES if has_tables else NO_TABLES:
                text = text.replace(old, new)
            (folder / path.name).write_text(text.replace("enum { KEYS = 2 }", f"enum {{ KEYS = {keys} }}"))
        recorder.must(recorder.call("gcc", "-w", folder / "cells.c", folder / "hold_back.c", "-o",
                                    folder / "hold_back"))
        return folder / "hold_back"

    def left(self, program, entries):
        """The same entries without what is held back."""
        whole, left = self.folder / "whole.rec", self.folder / "left.rec"
        whole.write_bytes(test_open.HEADER + b"".join(entries))
        recorder.must(recorder.call(program, whole, left))
        return left.read_bytes()[HEADER_BYTES:]

    def trace(self, entries):
        return test_open.trace_of(self.folder, types.SimpleNamespace(entries=entries),
                                  recorder.BUILT / "shb-std")

    def wrong_cases(self, program):
        """Those in which something else is left."""
        for case, (entries, left) in CASES.items():
            if self.left(program, FORKS + entries) != b"".join(FORKS + left):
                yield case

    def test_what_is_left(self):
        self.assertEqual(list(self.wrong_cases(self.program(self.folder / "as-it-is", 7))), [])

    def test_the_places_are_the_same(self):
        programs = [self.program(self.folder / f"{keys}-{has_tables}", keys, has_tables=has_tables)
                    for keys, has_tables in ((7, False), (2, False), (2, True))]
        found, accesses, left_accesses = 0, 0, 0
        for seed in range(100):
            entries = Drawn(seed).entries
            left, whole = self.left(programs[seed % 3], entries), self.trace(entries)
            places, variables = test_open.races(whole)
            trace = self.trace([left])
            self.assertEqual(test_open.races(trace), (places, variables), seed)
            self.assertEqual(test_open.accesses(trace, variables), test_open.accesses(whole, variables), seed)
            found += len(places)
            accesses += whole.count(b"\n")
            left_accesses += trace.count(b"\n")
        self.assertGreater(found, 500)
        self.assertLess(left_accesses, 0.98 * accesses)

    def test_which_are_repeated(self):
        """Of a use that is repeated there are fewer accesses in what is left; one of which there are fewer is
        repeated. All are put."""
        programs, found = [self.program(self.folder / f"{keys}", keys) for keys in (7, 2)], 0
        for seed in range(100):
            entries = FORKS + OfCells(seed).entries
            ends = [entry(60, "USE", address, 0x999) for address in {0x5000 + 8 * k for k in range(4)}]
            left = split(self.left(programs[seed % 2], [*entries, entry(0, "FORK", 60, 0x104), *ends]))
            marked = {access for before, access in zip(left, left[1:]) if is_marked(before)}
            apart = [one for one, next in zip(entries, [*entries[1:], b""]) if one != next]
            many, fewest, kept = (collections.Counter(some) for some in (entries, apart, left))
            self.assertEqual([access for access in marked if many[access] <= kept[access]], [], seed)
            self.assertEqual(
                [access for access in fewest if fewest[access] > kept[access] and access not in marked], [],
                seed)
            found += len(marked)
        self.assertGreater(found, 500)

    def test_uses_without_room(self):
        """Cells whose uses are made once have all tables, when one is used again and again at six places. It
        gets theirs, and of the others no use is lost."""
        full = "cells.c", "memory_of_keys = most_bytes / 2", "memory_of_keys = 768"
        program, cold = self.program(self.folder / "full", 2, full, True), [X + 8 * k for k in range(8)]
        once = [write(1, 0x200 + k, cold[cell]) for cell in range(8) for k in range(4 if cell % 2 else 8)]
        again = [write(1, 0x300 + k, X + 64) for k in range(6)] * 1000
        others = [write(2, 0x400, address) for address in cold]
        left = split(self.left(program, FORKS + once + again + others))
        self.assertLess(len(left), len(again) // 20)
        self.assertLessEqual(set(once), set(left))

    def test_each_fault_is_found(self):
        whole = {}
        for number, (fault, plant) in enumerate(FAULTS.items()):
            with self.subTest(fault):
                of_tables = "table" in fault
                if not of_tables:
                    self.assertTrue(any(self.wrong_cases(self.program(self.folder / f"{number}", 7, plant))))
                if of_tables or number < FOUND_IN_DRAWN:
                    program = self.program(self.folder / f"{number}-drawn", 2, plant, of_tables)
                    self.assertTrue(
                        any(self.differs(program, seed, whole) for seed in range(200 if of_tables else 20)))

    def differs(self, program, seed, whole):
        """Has the record other places, or none that can be converted?"""
        entries = Drawn(seed).entries
        if seed not in whole:
            whole[seed] = test_open.races(self.trace(entries))
        try:
            return test_open.races(self.trace([self.left(program, entries)])) != whole[seed]
        except AssertionError:
            return True


class Runs(recorder.Case):
    """Programs with many times more accesses than records are allowed."""

    RECORDS = "50000"

    def recorded(self, *words, **more):
        """The status, and what is said."""
        program = self.folder / "private_memory"
        recorder.build(recorder.PROGRAMS / "private_memory.c", "-O1", program)
        how = {**os.environ, "SHB": str(recorder.SHB), "SHB_RECORDS": self.RECORDS, **more}
        ran = recorder.call(recorder.COMMAND, program, *words, cwd=self.folder, env=how)
        return ran.returncode, ran.stderr.decode()

    def test_a_race_at_the_end(self):
        race, = recorder.marked(recorder.PROGRAMS / "private_memory.c", "RACE")
        status, said = self.recorded()
        self.assertEqual(status, 66, said)
        self.assertIn("; 1 place with races", said)
        self.assertIn(race, said)
        status, said = self.recorded(SHB_CELLS="0")
        self.assertEqual(status, 124, said)
        self.assertIn("SHB_RECORDS is reached", said)
        self.assertRegex(said, r"\): \d\d,\d{3} records, ")

    def test_which_are_repeated(self):
        """A write that was made once, and then five times one of a cell and one of four cells, each of
        which puts it."""
        program, record = self.folder / "beats", self.folder / "beats.rec"
        recorder.build(recorder.PROGRAMS / "beats.c", "-O0", program)
        recorder.must(recorder.call(program, env=recorder.settings(record)))
        late = [one for one in split(record.read_bytes()[HEADER_BYTES:]) if is_late(one)]
        self.assertEqual([is_marked(one) for one in sorted(late)], [0, 1, 1, 1, 1, 1])

    def test_more_contexts_than_are_kept(self):
        status, said = self.recorded("deep", SHB_RECORDS="2000000")
        self.assertEqual(status, 66, said)
        self.assertIn("; 1 place with races", said)

    def test_a_crash_at_the_end(self):
        status, said = self.recorded("crash")
        self.assertEqual(status, 66, said)
        self.assertIn("; 1 place with races", said)
        self.assertIn("SIGSEGV at address 0x40 in thread main: main private_memory.c:", said)
