#!/usr/bin/env python3
"""Writes a trace in the STD text to standard output.

The trace is a run of a small made-up program: its first thread forks the others and joins them at the end
(or, with --alive, forks one where another has ended, so that no more of them run at once); each thread
works on variables of its own, on variables that a lock protects, and now and then on one that nothing
protects. With --recorded names are as a recorder gives them, of 20 to 60 bytes, memory is gone through in the
order of addresses, and a thread makes some steps before another does. The same arguments give the same bytes.

    generate.py --events 1000000 --threads 16 > trace.std
    generate.py --events 1000000 --threads 8 --variables 200000 --own 20000 --recorded > trace.std
"""

import argparse
import sys


def arguments():
    parser = argparse.ArgumentParser(description=__doc__.splitlines()[0])
    parser.add_argument("--events", type=int, default=10_000, help="how many events (about)")
    parser.add_argument("--threads", type=int, default=16)
    parser.add_argument("--locks", type=int, default=64)
    parser.add_argument("--variables", type=int, default=4096)
    parser.add_argument("--own", type=int, default=64, help="variables of each thread's own")
    parser.add_argument("--private", type=int, default=30, help="accesses of own variables, in 100")
    parser.add_argument("--section", type=int, default=6, help="accesses in a locked section")
    parser.add_argument("--reads", type=int, default=67, help="reads, in 100 accesses")
    parser.add_argument("--alive", type=int,
                        help="how many threads run at once (all of them where it is left out)")
    parser.add_argument("--races", type=int, default=0,
                        help="unprotected pairs of writes, in a million steps")
    parser.add_argument("--open", type=int, default=16, help="variables that nothing protects")
    parser.add_argument("--hot", action="store_true", help="one variable under one lock")
    parser.add_argument("--late", action="store_true",
                        help="one unprotected write by each of two threads at the very end")
    parser.add_argument("--recorded", action="store_true", help="long names, memory in order, runs of steps")
    parser.add_argument("--seed", type=int, default=1)
    return parser.parse_args()


class Numbers:
    """A linear congruential generator (Knuth's MMIX constants)."""

    def __init__(self, seed):
        self.state = seed

    def below(self, bound):
        self.state = (self.state * 6364136223846793005 + 1442695040888963407) % 2**64
        return (self.state >> 33) % bound


class ShortNames:
    def thread(self, thread):
        return f"T{thread}"

    def lock(self, lock):
        return f"lock{lock}"

    def shared(self, lock, number):
        return f"shared{lock}.{number}"

    def own(self, thread, number):
        return f"own{thread}.{number}"

    def unprotected(self, number):
        return f"open{number}"

    def location(self, line):
        return f"Worker.java:{line}"


class RecordedNames:
    """A piece of memory is named by the line that asked for it, which of its answers it is, and the
    place in it."""

    FILES = ("cache/table_entries.cc", "codec/block_compressor.cc", "io/buffered_writer.cc",
             "net/connection_state.cc")
    BLOCK = 512  # variables of 8 bytes

    def thread(self, thread):
        return f"worker-{thread}.run_until_stopped" if thread else "main"

    def memory(self, file, line, number):
        return f"src/{self.FILES[file % 4]}:{line}#{number // self.BLOCK}+{number % self.BLOCK * 8}"

    def lock(self, lock):
        return f"pthread_mutex@src/{self.FILES[lock % 4]}:{40 + lock}#0"

    def shared(self, lock, number):
        return self.memory(lock, 40 + lock, number)

    def own(self, thread, number):
        return self.memory(thread, 1000 + thread, number)

    def unprotected(self, number):
        return f"src/stats/unprotected_counters.cc:{12 + number}#0"

    def location(self, line):
        return f"{self.FILES[line % 4]}:{line}"


class Program:
    def __init__(self, options):
        self.options = options
        self.names = RecordedNames() if options.recorded else ShortNames()
        self.numbers = Numbers(options.seed)
        self.next = {}  # with --recorded: kind of memory and whose it is -> the variable of the next access
        self.steps = 0  # with --recorded: how many steps the scheduled thread still makes
        self.scheduled = 0
        self.lines = []
        self.written = 0
        self.holder = {}  # lock -> thread
        self.held = [None] * options.threads  # thread -> lock
        self.left = [0] * options.threads  # accesses left in the thread's locked section
        self.running = [0]  # threads, T0 first
        self.forked = 1

    def event(self, thread, operation):
        place = 100 + (len(operation) * 7 + self.numbers.below(400))
        self.lines.append(f"{self.names.thread(thread)}|{operation}|{self.names.location(place)}\n")
        self.written += 1
        if len(self.lines) == 65536:
            self.flush()

    def flush(self):
        sys.stdout.write("".join(self.lines))
        self.lines.clear()

    def access(self, thread, variable):
        kind = "r" if self.numbers.below(100) < self.options.reads else "w"
        self.event(thread, f"{kind}({variable})")

    def place(self, kind, whose, count):
        """The number of the variable that is accessed, of so many."""
        if not self.options.recorded:
            return self.numbers.below(count)
        number = self.next.get((kind, whose), 0)
        self.next[kind, whose] = (number + 1) % count
        return number

    def access_own(self, thread):
        self.access(thread, self.names.own(thread, self.place("own", thread, self.options.own)))

    def lock_and_variables(self):
        if self.options.hot:
            return 0, 1
        lock = self.numbers.below(self.options.locks)
        return lock, max(1, self.options.variables // self.options.locks)

    def begin_section(self, thread):
        lock, _ = self.lock_and_variables()
        if lock in self.holder:
            self.access_own(thread)
            return
        self.holder[lock] = thread
        self.held[thread] = lock
        self.left[thread] = self.options.section
        self.event(thread, f"acq({self.names.lock(lock)})")

    def go_on(self, thread):
        lock = self.held[thread]
        if self.left[thread] == 0:
            self.held[thread] = None
            del self.holder[lock]
            self.event(thread, f"rel({self.names.lock(lock)})")
            return
        self.left[thread] -= 1
        _, variables = self.lock_and_variables()
        self.access(thread, self.names.shared(lock, self.place("shared", lock, variables)))

    def unprotected_pair(self, thread):
        """Two threads write a variable right after one another."""
        variable = self.names.unprotected(self.numbers.below(self.options.open))
        other = self.running[(self.running.index(thread) + 1) % len(self.running)]
        self.event(thread, f"w({variable})")
        self.event(other, f"w({variable})")

    def schedule(self):
        """The thread that makes the next step."""
        if self.steps == 0 or self.scheduled not in self.running:
            self.scheduled = self.running[self.numbers.below(len(self.running))]
            self.steps = 1 + (self.numbers.below(200) if self.options.recorded else 0)
        self.steps -= 1
        return self.scheduled

    def step(self):
        thread = self.schedule()
        if self.held[thread] is not None:
            self.go_on(thread)
        elif self.numbers.below(1_000_000) < self.options.races:
            self.unprotected_pair(thread)
        elif not self.options.hot and self.numbers.below(100) < self.options.private:
            self.access_own(thread)
        else:
            self.begin_section(thread)

    def fork(self):
        self.event(0, f"fork({self.names.thread(self.forked)})")
        self.running.append(self.forked)
        self.forked += 1

    def join(self, thread):
        self.end_section(thread)
        self.running.remove(thread)
        self.event(0, f"join({self.names.thread(thread)})")

    def end_section(self, thread):
        while self.held[thread] is not None:
            self.go_on(thread)

    def run(self):
        threads = self.options.threads
        alive = min(self.options.alive or threads, threads)
        for _ in range(1, alive):
            self.fork()
        share = self.options.events // (threads - alive + 1)
        while self.written < self.options.events - threads:
            self.step()
            if self.forked < threads and self.written > share * (self.forked - alive + 1):
                self.join(self.running[1])
                self.fork()
        for thread in self.running:
            self.end_section(thread)
        if self.options.late:
            self.event(self.running[-2], "w(late)")
            self.event(self.running[-1], "w(late)")
        for thread in self.running[1:]:
            self.join(thread)
        self.flush()


if __name__ == "__main__":
    Program(arguments()).run()
