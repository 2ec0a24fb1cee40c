"""Each program in programs/ is built twice and recorded under several seeds and slices. Over all runs exactly
the lines marked RACE are places, and the filters lose none; the program ends as it does alone, with status
0."""

import re
import unittest

import recorder

SLICES = [200, 7, 50, 1, 20, recorder.OWN_SLICES]
CUT = {"many_threads.c"}  # the trace is a prefix, and a longer one with -a


class Program(recorder.Case):
    def __init__(self, source="", option=""):
        super().__init__("test_races")
        self.source, self.option = source, option

    def id(self):
        return f"test_programs.{self.source.name} {self.option}"

    def marked(self):
        lines = enumerate(self.source.read_text().splitlines(), 1)
        return {f"{self.source.name}:{number}" for number, line in lines if "RACE" in line}

    def record(self, seed):
        path = self.folder / "app.rec"
        ran = recorder.call(self.folder / "app", env=recorder.settings(path, seed + 1, SLICES[seed]))
        self.assertEqual((ran.returncode, ran.stderr), (0, b""))
        return path

    def test_races(self):
        recorder.build(self.source, self.option, self.folder / "app")
        found, most_events = set(), 0
        for seed in range(len(SLICES)):
            path = self.record(seed)
            right = recorder.part if self.source.name in CUT else recorder.must
            trace = right(recorder.convert(path)).stdout
            places = recorder.places(trace)
            if seed < 2 and self.source.name not in CUT:
                self.assertEqual(places, recorder.places(recorder.must(recorder.convert(path, "-a")).stdout))
                page = self.folder / "page.std"
                self.assertEqual(places, {pair for pair, _ in recorder.listed(path, page)})
                if places:
                    self.assertEqual(places, recorder.places(page.read_bytes()))
            found |= {line for pair in places for line in pair}
            most_events = max(most_events, trace.count(b"\n"))
        self.assertEqual(found, self.marked())
        limit = re.search(r"AT MOST (\d+) EVENTS", self.source.read_text())
        if limit:
            self.assertLessEqual(most_events, int(limit[1]))


def load_tests(loader, tests, pattern):
    sources = sorted(path for path in recorder.PROGRAMS.iterdir() if path.suffix in (".c", ".cc"))
    others = {"order.c", "deadlock.c", "long_run.c", "processes.c", "clones.c", "daemon.c", "plugin_host.c",
              "plugin.cc", "plugins.c", "plugin_one.c", "plugin_two.c", "openmp_taskloop.c",
              "openmp_unseen.c",
              "ways_out.c", "status.c", "loop.c", "copies.c", "long_race.c", "calls.c", "contexts.c",
              "both_orders.c",
              "calls_cxx.cc", "inlined.cc", "headers.cc", "filled.cc", "own_files.c", "own_limits.c",
              "versions.c", "news.cc", "no_proc.c", "gives_up.c", "once_in_child.c",
              "many_in_turn.c", "sigev_thread.c",
              "spin.c", "short_threads.c", "in_turn.c", "library_unchanged.c", "fibers.c", "thread_names.c",
              "members.c", "members.cc", "elements.c", "blocks.cc", "allocated.cc", "allocator.c",
              "replaced.cc", "pretended.c", "rights.c", "forms.cc", "locals.c", "waits.c", "starves.c",
              "unseen_threads.c", "crash.c", "private_memory.c", "rare.c", "asleep.c", "room.c",
              "woken_threads.c", "wanted_lock.c", "crowd.c", "among_many.c",
              "openmp_refused.c"}
    others |= {"container_uses.cc", "vector_bits.cc", "own_members.cc", "heap_objects.c", "used.c", "used.cc"}
    suite = unittest.TestSuite()
    for source in sources:
        if source.name not in others:
            suite.addTest(Program(source, "-O1" if source.suffix == ".cc" else "-O0"))
            suite.addTest(Program(source, "-O2"))
    return suite
