#!/usr/bin/env python3
"""Programs drawn at random, recorded with cells and quick hooks, and again by the list of their turns with
all accesses: the turns and the places are the same.

    test_drawn_programs.py FIRST LAST    these seeds, by hand
"""

import pathlib
import random
import sys

if __name__ == "__main__":
    sys.path.append(str(pathlib.Path(__file__).resolve().parents[2] / "tests"))

import recorder

SEEDS = range(8)
HEADER = 4096  # of a list of turns
HEAD = """#include <pthread.h>
#include <stdlib.h>
#include <string.h>
static pthread_mutex_t m[4] = {PTHREAD_MUTEX_INITIALIZER, PTHREAD_MUTEX_INITIALIZER,
                               PTHREAD_MUTEX_INITIALIZER, PTHREAD_MUTEX_INITIALIZER};
static long g[8], flag, a[4];
static int h[16];
static unsigned char b[32];
static long *volatile heap;
"""
OWN = 'long own[8] = {0}, s = 1; __asm__ volatile("" : : "r"(own) : "memory");'
ACCESSES = ["own[{0}] += {1};", "own[{0}] += {1};", "s += own[{0}];", "g[{0}] += 1;", "g[{0}] += 1;",
            "s += g[{0}];", "h[{0} * 2 + {1} % 2] = s;",
            "s += b[{0} * 4 + {1} % 4];", "b[{0} * 4 + {1} % 4] = s;",
            "s += __atomic_load_n(&flag, __ATOMIC_ACQUIRE);",
            "__atomic_store_n(&flag, s, __ATOMIC_RELEASE);",
            "s += __atomic_fetch_add(&a[{2}], {1}, __ATOMIC_RELAXED);",
            "s += __atomic_fetch_sub(&a[{2}], {1}, __ATOMIC_ACQ_REL);",
            "__atomic_store_n(&a[{2}], s, __ATOMIC_RELAXED);",
            "while (__atomic_exchange_n(&a[3], 1, __ATOMIC_ACQUIRE)) ; g[{0}] += 1; __atomic_store_n(&a[3], "
            "0, __ATOMIC_RELEASE);",
            "if (__atomic_compare_exchange_n(&a[{2}], &s, {1}, 0, __ATOMIC_SEQ_CST, __ATOMIC_RELAXED)) "
            "own[{0}] = g[{1}];",
            "__atomic_thread_fence(__ATOMIC_ACQ_REL);", "s += a[{2}];"]
BLOCKS = ["{{ long *p = malloc(64); p[1] = s; s += p[1]; heap = p; p[2] = 3; }}",
          "{{ long *p = malloc(64); p[1] = s; s += p[1]; free(p); }}",
          "memset(own, 0, 64); memcpy(own + 2, own, 16);", "{{ long *p = heap; if (p) s += p[1]; }}",
          "s += f{2}(own, s);", "s += f{2}(own, s);"]
LOCKED = "pthread_mutex_lock(&m[{2}]); %s %s pthread_mutex_unlock(&m[{2}]);"


class Program:
    """The text of a program, by a seed."""

    def __init__(self, seed):
        self.draw = random.Random(seed)
        count = self.draw.choice((2, 2, 3, 4))
        threads = [f"static void *t{k}(void *x) {{ {OWN}\n    {self.block()}\n    {self.block()}\n    return "
                   "(void *)s; }" for k in range(count)]
        functions = [f"__attribute__((noinline)) static long f{k}(long *own, long s) {{ "
                     f"{' '.join(self.access() for _ in range(3))} return s; }}"
                     for k in range(3)]
        begins = " ".join(f"pthread_create(&t[{k}], 0, t{k}, 0);" for k in range(count))
        main = (f"int main(void) {{ pthread_t t[4]; heap = calloc(8, 8); {begins} {OWN}\n    {self.block()}\n"
                f"    for (int k = 0; k < {count}; k++) pthread_join(t[k], 0);\n    return 0; }}\n")
        self.text = HEAD + "\n".join(functions + threads) + "\n" + main

    def fill(self, form):
        return form.format(self.draw.randrange(8), self.draw.randrange(8), self.draw.randrange(3))

    def access(self):
        return self.fill(self.draw.choice(ACCESSES))

    def statement(self, depth):
        chance = self.draw.random()
        if chance < 0.45 or depth > 2:
            return self.access()
        if chance < 0.65:
            rounds = self.draw.choice((2, 5, 30, 200) if depth < 2 else (2, 5))
            return f"for (int i{depth} = 0; i{depth} < {rounds}; i{depth}++) {{ {self.block(depth + 1)} }}"
        if chance < 0.8:
            return self.fill(LOCKED) % (self.access(), self.access())
        return self.fill(self.draw.choice(BLOCKS))

    def block(self, depth=0):
        return "\n    ".join(self.statement(depth) for _ in range(self.draw.randrange(1, 5)))


class DrawnPrograms(recorder.Case):
    def run_it(self, program, name, seed, slice, **more):
        """The turns of a run, and its places."""
        path = self.folder / f"{name}.rec"
        recorder.must(recorder.call(program, env=recorder.settings(path, seed, slice, **more)))
        trace = recorder.must(recorder.convert(path)).stdout
        return path.with_suffix(".turns").read_bytes()[HEADER:], recorder.places(trace)

    def compare(self, seed):
        """The places with all accesses."""
        draw, source, program = random.Random(seed), self.folder / "drawn.c", self.folder / "drawn"
        source.write_text(Program(seed).text)
        recorder.build(source, draw.choice(("-O0", "-O1", "-O2")), program)
        slice = draw.choice((recorder.OWN_SLICES, recorder.OWN_SLICES, 1, 5, 40, 300))
        held = self.run_it(program, "held", seed % 7 + 1, slice)
        whole = self.run_it(program, "whole", seed % 7 + 1, slice, SHB_CELLS="0",
                            SHB_REPLAY=str(self.folder / "held.turns"))
        self.assertEqual(held, whole, f"seed {seed}")
        return whole[1]

    def test_drawn_programs(self):
        self.assertGreater(sum(len(self.compare(seed)) for seed in SEEDS), 5)


if __name__ == "__main__":
    import tempfile
    import unittest
    recorder.SHB = recorder.SOURCES.parent / "bin" / "shb"
    with tempfile.TemporaryDirectory() as folder:
        recorder.build_recorder(pathlib.Path(folder))
        SEEDS = range(int(sys.argv[1]), int(sys.argv[2]))
        unittest.main(argv=sys.argv[:1])
