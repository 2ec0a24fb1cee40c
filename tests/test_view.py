"""python/shb-view: its text by hand, and what it counts and shows against plain definitions."""

import collections
import contextlib
import io
import json
import os
import pty
import pathlib
import random
import re
import subprocess
import sys
import tempfile
import types
import unittest.mock

import judge
import program
import shb
from viewing import EXAMPLES, MADE, PYTHON, QUIET, made, run, run_here, sections, settings, windows

from shb_common import standard
from shb_view import command, counting, groups, names, trace, view

FORK_JOIN = """\
fork-join.std: 1 place with races, in 1 group (7 events, 2 threads, 0 locks, 2 variables)

1. count: start.c:6 and worker.c:3 write without a lock (1 place)
   In this trace no lock is held at any access; 2 threads write, at start.c:6 and worker.c:3.
   Remedy: hold one lock at start.c:6 and worker.c:3.
   start.c:6: 1 write by main
     no lock held
     races with worker.c:3
   worker.c:3: 1 write by worker
     no lock held
     races with start.c:6
   start.c:8: 1 read by main
     no lock held
"""

FORK_JOIN_ALL = FORK_JOIN + """
   data race on count: worker.c:3 and start.c:6
     write by worker at worker.c:3 (event 4)
       no lock held
       thread started by main at start.c:5 (event 2)
     write by main at start.c:6 (event 5)
       no lock held
     In this trace no lock is held at any access; 2 threads write, at start.c:6 and worker.c:3.
     Remedy: hold one lock at start.c:6 and worker.c:3.
     `shb check` found the schedule of race 1 good: after its 3 events both accesses can execute next.
   Before the accesses:
     1  main    w(config)     start.c:4
     2  main    fork(worker)  start.c:5
     3  worker  r(config)     worker.c:2

Verified: every race on the page has a schedule that `shb check` accepts. Check again: `JUDGE`.
"""

# The lines of the second group race in both orders.
UNLOCKED_READ = """\
unlocked-read.std: 2 places with races, in 2 groups (18 events, 3 threads, 1 lock, 3 variables)

1. items: main.c:11 reads without lock (1 place)
   In this trace every access at queue.c:22 and queue.c:31 holds lock, and main.c:11 reads without it.
   Remedy: hold lock at main.c:11.
   main.c:11 read what queue.c:22 wrote. This racy read may hide other races: fix it and run again.
   queue.c:22: 1 write by producer
     holds lock
     races with main.c:11
   main.c:11: 1 read by main
     no lock held
     races with queue.c:22
   main.c:8: 1 write by main
     no lock held
   queue.c:31: 1 read by consumer
     holds lock

2. closed: main.c:12 writes, queue.c:29 reads without a lock (1 place)
   In this trace no lock is held at any access; one thread writes, at main.c:12.
   Remedy: hold one lock at main.c:12 and queue.c:29.
   queue.c:29 read what main.c:12 wrote. This racy read may hide other races: fix it and run again.
   main.c:12: 1 write by main
     no lock held
     races with queue.c:29
   queue.c:29: 3 reads by consumer
     no lock held
     races with main.c:12
"""

ACCOUNT = """\
account.std: 1 place with races, in 1 group (12 events, 2 threads, 1 lock, 1 variable)

1. balance: account.c:8 reads without door (1 place)
   In this trace every write holds door, and account.c:8 reads without it.
   Remedy: hold door at account.c:8.
   account.c:8 read what account.c:10 wrote. This racy read may hide other races: fix it and run again.
   account.c:10: 2 reads and 2 writes by T1.pay and main
     holds door
     races with account.c:8
   account.c:8: 2 reads by T1.pay and main
     no lock held
     races with account.c:10
"""

# Two locations that race in both orders are one place.
PLACES = """\
places.std: 2 places with races, in 1 group (4 events, 4 threads, 0 locks, 1 variable)

1. total: Counter.java:12 writes, Report.java:30 reads without a lock (2 places)
   In this trace no lock is held at any access; 3 threads write, at Counter.java:12.
   Remedy: hold one lock at Counter.java:12 and \
Report.java:30.
   Report.java:30 read what Counter.java:12 wrote. This racy read may hide other races: fix it and run again.
   Counter.java:12: 3 writes by T1, T2 and T4
     no lock held
     races with Counter.java:12 and Report.java:30
   Report.java:30: 1 read by T3
     no lock held
     races with Counter.java:12
"""


class Text(program.Case):
    def test_examples_by_hand(self):
        for name, said, options in (("fork-join", FORK_JOIN, []), ("fork-join", FORK_JOIN_ALL, ["--all"]),
                                    ("unlocked-read",
                                     UNLOCKED_READ, []), ("account", ACCOUNT, []), ("places", PLACES, [])):
            with self.subTest(name):
                trace = f"examples/{name}.std"
                path = EXAMPLES.parent / trace
                said = said.replace("JUDGE", f"shb places --variables {path} | shb check {path}")
                self.expect(run([*options, trace], cwd=EXAMPLES.parent), 0, said.encode())

    def test_no_races(self):
        self.expect(run([EXAMPLES / "hidden-by-lock.std"]), 0,
                    b"hidden-by-lock.std: 0 places with races (6 events, 2 threads, 1 lock, 1 variable)\n"
                    b"Any two conflicting accesses are ordered in this trace. A run with another "
                    b"interleaving may have races.\n")

    def test_no_events(self):
        with tempfile.NamedTemporaryFile(suffix=".std") as empty:
            name = pathlib.Path(empty.name).name
            self.expect(run([empty.name]), 0, f"{name}: 0 places with races (0 events, 0 threads, "
                                              "0 locks, 0 variables)\nThe trace has no events.\n".encode())

    def test_colours_on_a_terminal_alone(self):
        words = [EXAMPLES / "fork-join.std"]
        coloured = self.on_a_terminal(words, TERM="xterm", NO_COLOR="")
        self.assertIn(b"\x1b[1m", coloured)
        self.assertEqual(re.sub(rb"\x1b\[\d+m", b"", coloured).replace(b"\r\n", b"\n"), FORK_JOIN.encode())
        for terminal in ({"TERM": "xterm", "NO_COLOR": "1"}, {"TERM": "dumb", "NO_COLOR": ""}):
            self.assertNotIn(b"\x1b", self.on_a_terminal(words, **terminal))

    def on_a_terminal(self, words, **more):
        own, other = pty.openpty()
        with open(own, "rb", buffering=0) as shown:
            ran = run(words, stdout=other, env=settings(**more))
            os.close(other)
            self.assertEqual((ran.status, ran.err), (0, b""))
            out = b""
            with contextlib.suppress(OSError):  # a terminal that is closed on the other side ends so
                while True:
                    out += shown.read(65536)
        return out


def trace_of(*lines):
    """A trace of short lines, `A w x 1` for the event `A|w(x)|f.c:1`."""
    events = [line.split() for line in lines]
    return b"".join(f"{thread}|{word}({name})|f.c:{line}\n".encode() for thread, word, name, line in events)


class Facts(program.Case):
    """The sentence of a group, each made for one rule."""

    def said(self, *lines):
        text = self.file(trace_of(*lines))
        status, out, err = run_here([text])
        self.assertEqual((status, err), (0, ""))
        return [line[3:] for line in out.splitlines() if line.startswith("   In this trace")]

    def test_every_write_holds_a_lock(self):
        self.assertEqual(self.said("A acq l 1", "A w x 2", "A rel l 3", "B r x 4"),
                         ["In this trace every write holds l, and f.c:4 reads without it."])
        self.assertEqual(self.said("A acq l 1", "A w x 2", "A rel l 3", "B r x 4", "C r x 5"),
                         ["In this trace every write holds l, and f.c:4 and f.c:5 read without it."])

    def test_lines_are_in_the_order_of_their_numbers(self):
        self.assertEqual(self.said("A w x 10", "A w x 9", "A w x 100", "B r x 4"),
                         ["In this trace no lock is held at any access; one thread writes, at f.c:9, f.c:10 "
                          "and f.c:100."])

    def test_a_line_that_sometimes_lacks_the_lock(self):
        self.assertEqual(self.said("A acq l 1", "A w x 2", "A rel l 3", "B r x 4", "B acq l 5", "B r x 4"),
                         ["In this trace every write holds l, and f.c:4 reads without it at 1 of 2 "
                          "accesses."])

    def test_a_lock_at_some_lines_that_write(self):
        self.assertEqual(self.said("A acq l 1", "A w x 2", "A rel l 3", "B w x 4"),
                         ["In this trace every other access holds l, and f.c:4 writes without it."])
        self.assertEqual(self.said("A acq l 1", "A w x 2", "A rel l 3", "B w x 4", "B acq l 5", "B w x 4"),
                         ["In this trace every other access holds l, and f.c:4 writes without it at 1 of 2 "
                          "accesses."])

    def test_a_line_that_writes_and_sometimes_lacks_the_lock(self):
        """As in a helper that one caller calls without the lock; of several such lines each is said."""
        self.assertEqual(self.said("A acq l 1", "A w x 2", "A rel l 3", "B w x 2"),
                         ["In this trace l is held at 1 of 2 accesses at f.c:2."])
        self.assertEqual(self.said("A acq l 1", "A w x 2", "A w x 10", "A rel l 3", "B w x 2", "B w x 10"),
                         ["In this trace l is held at 1 of 2 accesses at f.c:2 and 1 of 2 accesses at "
                          "f.c:10."])

    def test_lines_that_hold_different_locks(self):
        """What tells most is that each holds a lock, not that one lacks the other's."""
        lines = ["A acq l 1", "A w x 2", "A rel l 3", "B acq m 4", "B w x 10", "B rel m 6"]
        self.assertEqual(self.said(*lines), ["In this trace f.c:2 holds l and f.c:10 holds m, and no lock is "
                                             "common to them."])
        out = run_here([self.file(trace_of(*lines))])[1]
        self.assertIn("\n1. x: f.c:2 and f.c:10 hold different locks (1 place)\n", out)
        self.assertNotIn("n't hold", out)

    def test_a_write_under_a_read_lock(self):
        """The recorder names what reader T of rw holds `rw@reader.T`; the writer holds `rw`."""
        self.assertEqual(self.said("A acq rw@reader.A 1", "A w x 2", "A rel rw@reader.A 3",
                                   "B acq rw@reader.B 1", "B w x 2"),
                         ["In this trace f.c:2 writes while holding rw for reading, as other threads can at "
                          "the same time."])

    def test_a_read_under_the_read_lock_is_no_mistake(self):
        lines = ["W acq rw 1", "W w x 2", "W rel rw 3", "A acq rw@reader.A 4", "A r x 5",
                 "A rel rw@reader.A 6", "B acq rw@reader.B 4",
                 "B r x 5", "B rel rw@reader.B 6", "C r x 7"]
        self.assertEqual(
            self.said(*lines), ["In this trace every write holds rw, and f.c:7 reads without it."])
        out = run_here([self.file(trace_of(*lines))])[1]
        self.assertIn("   f.c:5: 2 reads by A and B\n     holds rw for reading\n", out)
        self.assertEqual(re.findall(r"(.*) without rw \(", out), ["1. x: f.c:7 reads"])

    def test_an_atomic_and_a_plain_access(self):
        """As the recorder writes them: T's atomic write of n is `r(n)` and `w(n!T)` under a lock that the
        program doesn't have; a plain read is `r(n)` and `r(n!T)` of each such T."""
        lines = ["A acq n@0 1", "A r n 1", "A w n!A 1", "A rel n@0 1", "B acq n@0 2", "B r n 2", "B w n!B 2",
                 "B rel n@0 2",
                 "C r n 3", "C r n!A 3", "C r n!B 3"]
        self.assertEqual(self.said(*lines), ["In this trace f.c:1 and f.c:2 write atomically, and f.c:3 is "
                                             "not atomic."])
        out = run_here(["--all", self.file(trace_of(*lines))])[1]
        self.assertIn("\n1. n: f.c:3 is not atomic (2 places)\n", out)
        self.assertNotIn("2. ", out)
        for line in ("   f.c:1: 1 atomic write by A\n     no lock held\n", "   f.c:3: 1 read by C\n",
                     "     atomic write by B at f.c:2 (event 7)\n",
                     "   data race on n: f.c:2 and f.c:3\n"):
            self.assertIn(line, out)

    def test_an_atomic_write_reads_what_a_plain_one_wrote(self):
        lines = ["A w n 1", "B acq n@0 2", "B r n 2", "B w n!B 2", "B rel n@0 2", "C r n 3", "C r n!B 3"]
        out = run_here([self.file(trace_of(*lines))])[1]
        self.assertIn("   f.c:2: 1 atomic write by B\n", out)
        self.assertIn("   f.c:3: 1 read by C\n", out)

    def test_several_threads_write(self):
        self.assertEqual(self.said("A w x 1", "B w x 2"), [
            "In this trace no lock is held at any access; 2 threads write, at f.c:1 and f.c:2."])
        self.assertEqual(self.said("A w x 1", "B acq l 2", "B w x 3", "B rel l 4", "C w x 3", "D w x 5",
                                   "D acq l 2", "D r x 6"),
                         ["In this trace every read holds l, and f.c:3, f.c:1 and f.c:5 write without it at "
                          "3 of 4 accesses."])

    def test_one_thread_writes(self):
        self.assertEqual(self.said("A w x 1", "B acq l 2", "B r x 3"),
                         ["In this trace every read holds l, and f.c:1 writes without it."])

    def test_a_lock_that_readers_alone_hold_is_no_rule(self):
        """The writer never holds it; so nothing says that it belongs to the variable."""
        self.assertEqual(self.said("A w x 1", "B acq l 2", "B r x 3", "B rel l 4", "C r x 5"),
                         ["In this trace f.c:1 holds no lock, f.c:3 holds l and f.c:5 holds no lock, and no "
                          "lock is common to them."])

    def test_many_lines_are_not_all_named(self):
        reads = [f"R{line} r x {line}" for line in range(11, 16)]
        self.assertEqual(self.said("A acq l 1", "A w x 2", "A rel l 3", *reads),
                         ["In this trace every write holds l, and f.c:11, f.c:12, f.c:13 and 2 more read "
                          "without it."])

    def test_order_of_the_groups(self):
        """By the rule first; of one rule, most races first."""
        lines = ["A w one 1", "R r one 2", "S r one 3", "A w two 4", "B w two 5", "A acq l 6", "A w three 7",
                 "A rel l 8", "B r three 9",
                 "A acq l 10", "A w four 11", "A rel l 12", "B w four 13", "A w five 14", "R r five 15",
                 "S r five 16", "Q r five 17"]
        heads = re.findall(r"^\d+\. (\w+):", run_here([self.file(trace_of(*lines))])[1], re.M)
        self.assertEqual(heads, ["three", "four", "five", "one", "two"])

    def test_a_foreign_report_of_ordered_accesses(self):
        """No report of `shb` has such a pair, and the fact says why."""
        trace = trace_of("A acq l 1", "A w x 2", "A rel l 3", "B acq l 4", "B w x 5")
        report = (b"shb-report 2\nevents 5 threads 2 locks 1 variables 1\nraces 1\nplaces 1\nplace 1: 1\nat "
                  b"f.c:2\nand f.c:5\nrace 1: 2 5\nfirst A|w(x)|f.c:2\nsecond B|w(x)|f.c:5\nend\n")
        [section] = sections(trace, report, None)
        self.assertEqual(
            "".join(part if isinstance(part, str) else part.decode() for part in section.fact.sentences[0]),
                         "In this trace every access holds l: these are no races.")


class Sites(program.Case):
    """Every line that uses the variable."""

    def lines(self, *events):
        """What is said, but for reads of what the other access wrote."""
        said = run_here([self.file(trace_of(*events))])[1].splitlines()
        return [line for line in said if "hide other races" not in line]

    def test_locks_held_not_held_and_sometimes(self):
        said = self.lines("A acq l 1", "A acq m 1", "A w x 2", "A rel m 3", "A rel l 3", "B r x 4",
                          "B acq l 5", "B r x 4", "B acq n 6",
                          "B r x 7", "C acq n2 8", "C r x 9")
        self.assertEqual(said[5:15], [
            "   f.c:2: 1 write by A", "     holds l; holds m",
            "     races with f.c:4 and f.c:9",
            "   f.c:4: 2 reads by B", "     holds l at 1 of 2; no lock held at 1 of 2",
            "     races with f.c:2",
            "   f.c:9: 1 read by C", "     holds n2", "     races with f.c:2",
            "   f.c:7: 1 read by B"])
        self.assertEqual(said[15:], ["     holds l; holds n"])

    def test_eight_locks_are_named(self):
        locks = [f"A acq l{k} 1" for k in range(9)]
        said = self.lines(*locks, "A w x 2", "B w x 3")
        self.assertIn("     " + "; ".join(f"holds l{k}" for k in range(8)) + "; and 1 more", said)
        said = self.lines(*locks[:8], "A w x 2", "B w x 3")
        self.assertIn("     " + "; ".join(f"holds l{k}" for k in range(8)), said)

    def test_three_locks_that_are_held_at_some_accesses_are_named(self):
        events = [part for k in range(4) for part in (f"A acq l{k} 1", "A w x 2", f"A rel l{k} 3")]
        self.assertIn("     holds l0 at 1 of 4; holds l1 at 1 of 4; holds l2 at 1 of 4; and 1 more",
                      self.lines(*events, "B r x 4"))

    def test_more_locks_than_are_counted(self):
        locks = [f"A acq l{k} 1" for k in range(65)]
        said = self.lines(*locks, "A w x 2", "B w x 3")
        self.assertIn("     locks not counted at 1 of 1", said)
        self.assertIn("   In this trace the locks held at 1 access aren't counted.", said)
        self.assertIn("   In this trace every other access holds l0, and f.c:3 writes without it.",
                      self.lines(*locks[:64], "A w x 2", "B w x 3"))

    def test_no_fact_of_a_lock_where_some_locks_are_not_counted(self):
        """Both writes hold l0, and the first one too many others."""
        locks = [f"l{k}" for k in range(65)]
        said = self.lines(*(f"A acq {lock} 1" for lock in locks), "A w x 2",
                          *(f"A rel {lock} 3" for lock in locks),
                          "C acq l0 4", "C w x 5", "C rel l0 6", "B r x 7")
        self.assertEqual([line for line in said if "In this trace" in line],
                         ["   In this trace the locks held at 1 access aren't counted."])

    def test_nested_acquires_of_a_lock(self):
        said = self.lines("A acq l 1", "A acq l 1", "A rel l 1", "A w x 2", "A rel l 3", "B r x 4")
        self.assertIn("   In this trace every write holds l, and f.c:4 reads without it.", said)

    def test_a_released_lock_is_not_held(self):
        said = self.lines("A acq l 1", "A acq m 1", "A rel l 1", "A w x 2", "B r x 4")
        self.assertIn("   In this trace every write holds m, and f.c:4 reads without it.", said)

    def test_twenty_lines_are_shown(self):
        for many, more in ((20, []), (21, ["   and 1 more line"]), (23, ["   and 3 more lines"])):
            said = self.lines("A w x 100", *(f"R{line} r x {line}" for line in range(201, 200 + many)))
            self.assertEqual(len([line for line in said if line.startswith("   f.c:")]), 20)
            self.assertEqual(said[5 + 3 * 20:], more)

    def test_eight_partners_are_named(self):
        said = self.lines("A w x 10", *(f"R{line} r x {line}" for line in range(11, 20)))
        named = ", ".join(f"f.c:{line}" for line in range(11, 19))
        self.assertIn(f"     races with {named} and 1 more", said)

    def test_three_threads_are_named(self):
        for many, named in ((3, "R0, R1 and R2"), (4, "R0, R1, R2 and 1 more"), (5, "R0, R1, R2 and 2 more")):
            self.assertIn(f"   f.c:2: {many} reads by {named}",
                          self.lines("A w x 1", *(f"R{k} r x 2" for k in range(many))))

    def test_eight_variables_are_named(self):
        for many, more in ((8, " and x7"), (9, ", x7 and 1 more")):
            events = [f"{thread} w x{k} {line}" for k in range(many) for thread, line in (("A", 1), ("B", 2))]
            named = ", ".join(f"x{k}" for k in range(7))
            self.assertIn(f"   Variables: {named}{more}", self.lines(*events))

    def test_kinds_that_are_not_told_apart(self):
        """Where there are too many, the rest is counted without its lines and locks."""
        most, counting.MOST_KINDS = counting.MOST_KINDS, 2
        self.addCleanup(setattr, counting, "MOST_KINDS", most)
        said = self.lines("A w x 1", "B w x 2", "B r x 3", "A r x 1", "A w x 1")
        self.assertEqual(said[3:], [
            "   In this trace the locks held at 2 accesses aren't counted.",
            "   f.c:1: 2 writes by A", "     no lock held",
            "     races with f.c:2 and f.c:3",
            "   f.c:2: 1 write by B", "     no lock held", "     races with f.c:1",
            "   (further lines): 2 reads", "     locks not counted at 2 of 2"])

    def test_counts_and_locks_of_made_traces(self):
        """Against what the events say, one by one."""
        found = 0
        for _, text, events in made(MADE):
            lines = shb.read_trace(text)[1]
            for section in sections(text, shb.report(text, True)):
                wanted = collections.Counter()
                for e, (thread, word, name) in enumerate(events):
                    if word in (b"r", b"w") and name in section.group.variables:
                        locks = {events[acquire][2] for acquire in held(events, e)}
                        wanted[shb.location(lines[e]), word] += 1
                        wanted.update((shb.location(lines[e]), "lock", lock) for lock in locks)
                        wanted[shb.location(lines[e]), "bare"] += not locks
                        found += len(locks)
                got = collections.Counter()
                for site in section.sites:
                    got.update({(site.location, word): count for word, count in site.accesses.items()})
                    got.update({(site.location, "lock", lock): count for lock, count in site.locks.items()})
                    got[site.location, "bare"] += site.bare
                self.assertEqual(+got, +wanted)
        self.assertGreater(found, 50)


def held(events, e):
    """For each lock that the thread of e has acquired more often than released before e, the acquire since
    which it is so."""
    thread = events[e][0]

    def balance(lock, end):
        own = [event for event in events[:end] if event[0] == thread]
        return own.count((thread, b"acq", lock)) - own.count((thread, b"rel", lock))

    locks = {name for _, word, name in events if word == b"acq" and balance(name, e) > 0}
    return sorted(max(k for k in range(e) if events[k] == (thread, b"acq", lock) and balance(lock, k) == 0)
                  for lock in locks)


class Groups(program.Case):
    def names(self, *lines):
        heads = re.findall(r"^\d+\. (.*): .*$", run_here([self.file(trace_of(*lines))])[1], re.M)
        return sorted(heads)

    def test_pairs_that_share_a_variable_are_one_group(self):
        """Lines 1 and 2 race on x, lines 1 and 3 on x and y, lines 4 and 5 on z."""
        text = trace_of("A w x 1", "B r x 2", "B w y 3", "A r y 1", "A w z 4", "B w z 5", "C r x 3")
        found = sorted(sorted(pair.locations for pair in section.group.pairs)
                       for section in sections(text, shb.report(text, True)))
        self.assertEqual(found, [[(b"f.c:1", b"f.c:2"), (b"f.c:1", b"f.c:3")], [(b"f.c:4", b"f.c:5")]])

    def test_lines_that_race_on_two_variables_are_one_group(self):
        text = trace_of("A w x 1", "A w y 1", "B w x 2", "B w y 2")
        [section] = sections(text, shb.report(text, True))
        self.assertEqual((len(section.group.pairs), section.group.variables), (1, (b"x", b"y")))

    def test_fields_of_one_block_that_lack_one_order_are_one_group(self):
        """Blocks 1 and 2, and two objects with a name. Another lock, or other threads, are another thing
        that is missing."""
        self.assertEqual(self.names("A w a.c:9#1 1", "A w a.c:9#1+4 2", "B r a.c:9#1 3",
                                    "B r a.c:9#1+4 4"), ["a.c:9#1 (2 variables)"])
        self.assertEqual(self.names("A w a.c:9#1 1", "A w a.c:9#2 2", "B r a.c:9#1 3",
                                    "B r a.c:9#2 4"), ["a.c:9#1", "a.c:9#2"])
        self.assertEqual(self.names("A w s.x 1", "A w s.y[1] 2", "B r s.x 3",
                                    "B r s.y[1] 4"), ["s (2 variables)"])
        self.assertEqual(self.names("A w s 1", "A w s+4 2", "B r s 3", "C r s+4 4"), ["s", "s+4"])
        self.assertEqual(self.names("A acq l 9", "A w s 1", "A rel l 9", "A w s+4 2", "B r s 3",
                                    "B r s+4 4"), ["s", "s+4"])
        self.assertEqual(self.names("A w stack.A-8 1", "A w stack.A-16 2", "B r stack.A-8 3",
                                    "B r stack.A-16 4"),
                         ["stack.A-16", "stack.A-8"])

    def test_a_race_that_hides_others(self):
        """A read that took the value of the write it races with; of two writes it took the later one's."""
        lines = ["A w x 1", "B r x 2", "A w y 3", "C w y 5", "B r y 4"]
        out = run_here([self.file(trace_of(*lines))])[1]
        hides = ("   f.c:{} read what f.c:{} wrote. This racy read may hide other races: fix it and run "
                 "again.\n")
        self.assertIn(hides.format(2, 1), out)
        self.assertIn(hides.format(4, 5), out)
        self.assertEqual(out.count("hide other races"), 2)  # f.c:3 wrote before f.c:5 did

    def test_a_pair_has_no_order(self):
        text = trace_of("A w x 1", "B w x 2", "A w x 1")
        [section] = sections(text, shb.report(text, True))
        self.assertEqual(
            [(pair.locations, pair.places) for pair in section.group.pairs],
            [((b"f.c:1", b"f.c:2"), ((b"f.c:1", b"f.c:2"), (b"f.c:2", b"f.c:1")))])

    def test_the_closest_race_is_shown(self):
        text = trace_of("A w x 1", "B r y 9", "B w x 2", "B r y 9", "C w x 1")
        [section] = sections(text, shb.report(text, True))
        self.assertEqual(section.window.accesses, (1, 3))  # not 3 and 5, as near, and not 1 and 5
        text = trace_of("A w x 1", "B r y 9", "B r y 9", "B w x 2", "C w x 1")
        self.assertEqual(windows(text, shb.report(text, True))[0].accesses, (4, 5))

    def test_the_race_that_is_shown_is_at_the_line_that_is_named_first(self):
        text = trace_of("A w x 1", "B r y 9", "B w x 2", "C r x 3")
        [section] = sections(text, shb.report(text, True))
        self.assertEqual((section.fact.tag[0], section.window.accesses), (b"f.c:1", (1, 3)))  # not 3 and 4

    def test_what_several_variables_share(self):
        for variables, name in (
            ([b"x"], [b"x"]),
            ([b"cache.c:19#71+80", b"cache.c:19#43+80"], [b"cache.c:19+80", " (2 blocks)"]),
            ([b"slabs.c:615#134+1", b"slabs.c:615#134+22", b"slabs.c:615#134"],
             [b"slabs.c:615#134", " (3 variables)"]),
            ([b"slabs.c:615#134+1", b"slabs.c:615#9+2"], [b"slabs.c:615", " (2 variables)"]),
            ([b"stats", b"stats+8"], [b"stats", " (2 variables)"]),
            ([b"stats", b"settings+8"], [b"stats", " and ", b"settings+8"]),
            ([b"stats", b"settings+8", b"hits"], [b"stats", " and ", "2 others"]),
            ([b"stack.T1-0x20", b"stack.T1-0x28"], [b"stack.T1", " (2 variables)"]),
            ([b"stack.T1.run-0x20", b"stack.T1.run-0x28"], [b"stack.T1.run", " (2 variables)"]),
            ([b"lib.so.1:q.head", b"lib.so.1:q.at[1][20].x+2", b"lib.so.1:q"],
             [b"lib.so.1:q", " (3 variables)"]),
            ([b"count.0", b"count.1"], [b"count.0", " and ", b"count.1"]),
        ):
            self.assertEqual(groups.common_name(variables), name)

    def test_all_variables_whatever_the_number_of_races(self):
        """With n accesses to each variable by each thread there are 2n² races."""
        events = [f"{thread} w {variable} {line}" for thread, line in (("A", 1), ("B", 2))
                  for _ in range(230) for variable in "xy"]
        found = self.folder / "found.json"
        out = run_here(["--text", "--json", found, self.file(trace_of(*events))])[1]
        self.assertIn("\n\n1. x and y: f.c:1 and f.c:2 write without a lock (1 place)\n", out)
        [place] = json.loads(found.read_text())["places"]
        self.assertEqual(place["variables"], [{"name": name} for name in "xy"])

    def test_two_locations_are_one_place(self):
        """The program lists one for each order in which they race."""
        for name in ("unlocked-read", "places", "account"):
            listed = program.run(["places", "--list", EXAMPLES / f"{name}.std"]).out
            count = len({frozenset(both) for both in re.findall(rb"\nat (.*)\nand (.*)", listed)})
            found = self.folder / "found.json"
            status, out, _ = run_here(["--text", "--json", found, EXAMPLES / f"{name}.std"])
            document = json.loads(found.read_text())
            self.assertEqual((document["summary"]["places"], len(document["places"])), (count, count))
            self.assertRegex(out, rf": {count} places? with races, in ")

    def test_the_variable_of_nearly_all_races_is_named(self):
        """The list begins with the others, which the first race of each place has."""
        events = ["A w first 1", "B w first 2"] + [
            f"{thread} w served {line}" for thread, line in (("A", 1), ("B", 2)) for _ in range(330)]
        out = run_here([self.file(trace_of(*events))])[1]
        self.assertIn("   Variables: first and served\n", out)

    def test_two_hundred_groups_are_shown_whole(self):
        more = "201. x200: f.c:400 and f.c:401 write without a lock (1 place)\n" \
               "202. x201: f.c:402 and f.c:403 write without a lock (1 place)\n"
        for many, more in ((200, ""), (202, more)):
            events = [f"{thread} w x{k} {2 * k + (thread == 'B')}" for k in range(many) for thread in "AB"]
            out = run_here([self.file(trace_of(*events))])[1]
            self.assertEqual(len(re.findall(r"^\d+\. ", out, re.M)), many)
            self.assertTrue(out.startswith(f"t.std: {many} places with races, in {many} groups "))
            self.assertEqual(out.split("races with f.c:399\n")[-1][-len(more or "\n"):] if more
                             else "", more)
        with unittest.mock.patch.object(view, "MOST_GROUPS", 201):
            self.assertTrue(run_here([self.file(trace_of(*events))])[1].endswith(
                "lock (1 place)\n\nand 1 more group\n"))


class Issues(program.Case):
    """The text for an issue."""

    def test_locks_of_an_access(self):
        """Each with its acquire, the eight that were acquired last."""
        for many, more in (
                (2, []), (8, []), (9, ["       and 1 more lock"]), (11, ["       and 3 more locks"])):
            locks = [f"A acq l{k} {k}" for k in range(many)]
            lines = run_here(["--all", self.file(trace_of(*locks, "A w x 50", "B w x 60"))])[1].splitlines()
            at = lines.index(f"     write by A at f.c:50 (event {many + 1})") + 1
            held = [f"       holds l{k}, acquired at f.c:{k} (event {k + 1})"
                    for k in range(max(many - 8, 0), many)]
            self.assertEqual(lines[at:lines.index(f"     write by B at f.c:60 (event {many + 2})")],
                             held + more)


class Windows(program.Case):
    """What comes before two accesses."""

    def example(self, name):
        return [(EXAMPLES / f"{name}.{end}").read_bytes() for end in ("std", "report")]

    def test_shown_events_and_edges_by_hand(self):
        first, second = windows(*self.example("unlocked-read"))
        self.assertEqual(first.accesses, (12, 13))
        self.assertEqual((first.before, first.edges), ([1, 2, 3, 7, 8, 10, 11], [(2, 10), (8, 10), (7, 11)]))
        self.assertEqual(second.accesses, (15, 16))
        self.assertEqual(
            (second.before, second.edges), ([1, 2, 3, 4, 5, 6, 7, 8, 9, 12, 13], [(3, 4), (1, 6), (12, 13)]))

    def test_nothing_after_an_access_is_shown_before_it(self):
        """The second thread's acquire waits for a release that comes after the first access."""
        trace = b"A|acq(l)\nA|w(x)\nA|rel(l)\nB|acq(l)\nB|w(x)\n"
        report = (b"shb-report 2\nevents 5 threads 2 locks 1 variables 1\nraces 1\nplaces 1\nplace 1: 1\nat "
                  b"\nand \nrace 1: 2 5\nfirst A|w(x)\nsecond B|w(x)\nend\n")
        [window] = windows(trace, report, None)
        self.assertEqual((window.before, window.edges), ([1, 4], []))

    def test_the_fork_of_a_thread_whose_first_event_is_an_access(self):
        trace = b"main|fork(A)\nA|w(x)\nmain|w(x)\n"
        [window] = windows(trace, shb.report(trace, True))
        self.assertEqual((window.before, window.edges, window.forks), ([1], [(1, 2)], {2: 1, 3: 0}))

    def test_a_join_waits_for_the_last_event(self):
        trace = b"main|fork(A)\nA|w(y)\nA|r(z)\nmain|join(A)\nmain|w(x)\nB|w(x)\n"
        [window] = windows(trace, shb.report(trace, True))
        self.assertEqual((window.before, window.edges), ([1, 3, 4], [(3, 4)]))

    def test_an_acquire_long_before_the_access_is_shown(self):
        trace = b"A|acq(l)\n" + b"A|r(y)\n" * 20 + b"A|w(x)\nB|w(x)\n"
        [window] = windows(trace, shb.report(trace, True))
        self.assertEqual(window.before, [1, 16, 17, 18, 19, 20, 21])

    def test_eight_held_locks_are_shown(self):
        trace = b"".join(b"A|acq(%d)\n" % k for k in range(9)) + b"A|r(y)\n" * 6 + b"A|w(x)\nB|w(x)\n"
        [window] = windows(trace, shb.report(trace, True))
        self.assertEqual(
            (window.before, window.events[16].held), ([2, 3, 4, 5, 6, 7, 8, 9, 10, 11, 12, 13, 14, 15], 9))

    def test_schedules_decide_the_order(self):
        """A schedule of another tool may have the threads in another order. One that isn't known to be
        good decides nothing."""
        trace = b"A|r(a)|1\nB|r(b)|2\nA|w(x)|3\nB|w(x)|4\n"
        report = shb.report(trace, True).replace(b"schedule 2: 1 2", b"schedule 2: 2 1")
        self.assertEqual(judge.verdict(trace, report), b"ok 1\n")
        self.assertEqual([(w.before, w.schedule) for w in windows(trace, report)], [([2, 1], (2, [2, 1]))])
        for is_good in (False, None):
            self.assertEqual(
                [(w.before, w.schedule) for w in windows(trace, report, is_good)], [([1, 2], None)])

    def test_events_of_made_traces(self):
        """Edges, locks held and what comes before, against the definitions."""
        edges = locks = 0
        for _, text, events in made(MADE):
            schedules = {(i + 1, j + 1): [e + 1 for e in schedule]
                         for i, j, schedule in shb.races_and_schedules(events)}
            below, lines = shb.below_sets(events), shb.read_trace(text)[1]
            for window in windows(text, shb.report(text, True)):
                schedule = schedules[window.accesses]
                self.assertEqual(window.schedule, (len(schedule), schedule))
                self.assertEqual(window.before, [e for e in schedule if e in window.before])
                self.assertTrue(all(shb.is_edge(events, s - 1, e - 1) and events[s - 1][0] != events[e - 1][0]
                                    for s, e in window.edges))
                edges += len(window.edges)
                for access in window.accesses:
                    own = [e for e in schedule if events[e - 1][0] == events[access - 1][0]]
                    self.assertLessEqual(set(own[-counting.BEFORE:]), set(window.before))
                for number in (*window.before, *window.accesses):
                    shown = window.events[number]
                    self.assertEqual(shown.line, lines[number - 1])
                    self.assertEqual([acquire - 1 for _, acquire in shown.locks], held(events, number - 1))
                    self.assertEqual(shown.held, len(shown.locks))
                    locks += shown.held
                    own = [e + 1 for e in range(number - 1) if events[e][0] == events[number - 1][0]]
                    self.assertEqual(shown.previous, own[-1] if own else 0)
                for access in window.accesses:
                    own = [e for e in range(access - 1) if events[e][0] == events[access - 1][0]][
                        -counting.BEFORE:]
                    self.assertEqual([window.events[e + 1].source for e in own],
                                     [source(events, e) for e in own])
                    forks = [e + 1 for e, event in enumerate(events)
                             if event[1:] == (b"fork", events[access - 1][0])]
                    self.assertEqual(window.forks[access], forks[0] if forks else 0)
        self.assertGreater(min(edges, locks), 30)

    def test_a_trace_that_becomes_shorter(self):
        with tempfile.TemporaryFile() as file:
            file.write(b"a|w(x)|a.c:1\n\na|w(x)|a.c:3\r\na|w(x)|a.c:4\n")
            its = trace.Trace(file, QUIET)
            self.assertEqual(len(list(its.events("reading"))), 3)
            self.assertEqual(its.find([1, 3]), {1: (1, b"a|w(x)|a.c:1"), 3: (4, b"a|w(x)|a.c:4")})
            self.assertEqual(its.find([2]), {2: (3, b"a|w(x)|a.c:3")})
            file.truncate(20)
            self.assertRaises(IndexError, its.find, [3])


def source(events, e):
    """The last event of another thread that this one waits for or sees, counted from 1, or 0."""
    thread, word, name = events[e]
    wanted = {b"acq": (b"rel", name), b"r": (b"w", name)}.get(word)
    found = [k for k in range(e) if events[k][1:] == wanted or (word == b"join" and events[k][0] == name)]
    return found[-1] + 1 if found and events[found[-1]][0] != thread else 0


class Names(program.Case):
    def test_parts_of_names(self):
        for name, parts in (
                (b"stats.hits+8", (b"stats", b"", b".hits+8", b"")),
                (b"grid[2][13].sum of main", (b"grid", b"", b"[2][13].sum", b" of main")),
                (b"Node.next of a b.c:7#12", (b"Node", b"#12", b".next", b" of a b.c:7")),
                (b"a.c:7#12+40", (b"a.c:7", b"#12", b"+40", b"")), (b".x[]#", (b".x[]#", b"", b"", b"")),
                (b"stack.T1-0x10", (b"stack.T1", b"", b"-0x10", b"")), (b"", (b"",) * 4)):
            found = groups.name_parts(name)
            self.assertEqual(tuple(map(found.get, ("base", "block", "inside", "of"))), parts)

    def test_long_names_cost_what_their_length_is(self):
        """Some hundred thousand members, indices, blocks and places: squared they would take hours."""
        code = ("import resource, sys; resource.setrlimit(resource.RLIMIT_CPU, (60, 60))\n"
                "from shb_view.groups import name_parts\n"
                "for part in (b'.a', b'[1]', b' of a:1', b'+1', b'#1', b':1'):\n"
                "    name_parts(b'v' + part * 300_000 + b'#x')\n"
                "    name_parts(b'v' + part * 300_000 + b'#1')")
        ran = subprocess.run([sys.executable, "-c", code], env={**os.environ, "PYTHONPATH": str(PYTHON)})
        self.assertEqual(ran.returncode, 0)

    def test_shown(self):
        for name, said in ((b"plain", "plain"), (b"\xff\x00a", r"\xff\x00a"), ("größe".encode(), "größe"),
                           (b"\x1b[2J\t\n", r"\x1b[2J\x09\x0a"), (b"\\xff", r"\\xff"), (b"a\\b", r"a\\b"),
                           (b"\x9b", r"\x9b"), ("\u009b".encode(), r"\u009b"), (b"\x7f", r"\x7f"),
                           ("a\u202eb".encode(), r"a\u202eb"), ("a\u2066b\u00a0".encode(), r"a\u2066b\u00a0"),
                           ("x\u0301".encode(), "x\u0301"), ("\u0301x".encode(), r"\u0301x"),
                           (b"\xed\xa0\x80", r"\xed\xa0\x80"),
                           ("x".encode() + "\u0301".encode() * 5, "x" + "\u0301" * 3 + r"\u0301\u0301"),
                           ("\U000e0041".encode(), r"\U000e0041")):
            self.assertEqual(names.readable(name), said)

    def test_what_cannot_be_seen(self):
        for character in ("\u200b\u2060\u3164\u115f\u1160\u2800\uffa0\ufe0f\ufe00\u034f\u180b\u17b4\u00ad"
                          "\ufeff\u2028"):
            self.assertEqual(names.readable(f"a{character}b".encode()), f"a\\u{ord(character):04x}b")
        self.assertEqual(names.readable("a\U000e0100b".encode()), r"a\U000e0100b")

    def test_letters_that_look_the_same(self):
        """Of two ways to write an accented letter the shorter one is shown as it is."""
        self.assertEqual(names.readable("\u00e9".encode()), "\u00e9")
        self.assertEqual(names.readable("e\u0301".encode()), r"e\u0301")
        self.assertEqual(names.readable("\u212b".encode()), r"\u212b")

    def test_names_are_told_apart(self):
        pick, parts = (random.Random(7), [b"\xff", b"\\xff", b"\\", b"\x9b", "\u009b".encode(), b"x9b", b"a",
                                          "e\u0301".encode(),
                                         "\u00e9".encode(), "\u3164".encode(), b"u3164", b"\\u3164", b"\x1b"])
        found = {}
        for _ in range(2000):
            name = b"".join(pick.choices(parts, k=pick.randrange(1, 4)))
            self.assertEqual(found.setdefault(names.readable(name), name), name)

    def test_names_from_right_to_left_are_kept_apart(self):
        self.assertEqual(names.readable("\u05d0\u05d1".encode()), "\u2068\u05d0\u05d1\u2069")
        self.assertEqual(names.readable("x\u0627".encode()), "\u2068x\u0627\u2069")
        self.assertEqual(names.columns(names.readable("\u05d0\u05d1".encode())), 2)

    def test_short(self):
        for name, most, said in (
            (b"abcdefgh", 8, "abcdefgh"), (b"abcdefghi", 8, "abc…fghi"), (b"abcdefghi", 7, "abc…ghi"),
            ("x\u0301".encode() * 9, 8, "x\u0301" * 3 + "…" + "x\u0301" * 4),  # a letter keeps its mark
            ("漢".encode() * 9, 8, "漢…漢漢"),  # of two columns each
            ("Ａ".encode() * 9, 8, "Ａ…ＡＡ"),
            (b"\xff" * 9, 9, r"\xff…\xff"),  # escapes stay whole
            (b"a" * 4000, 9, "aaaa…aaaa"),
        ):
            self.assertEqual(names.short(name, most), said)

    def test_short_names_are_never_longer(self):
        pick = random.Random(4)
        for _ in range(300):
            name = "".join(pick.choices("ab漢x\u0301\u202e\u05d0\x00\udcff(", k=pick.randrange(60))).encode(
                "utf-8", "surrogateescape")
            most = pick.randrange(8, 40)
            said, whole = names.short(name, most), names.readable(name)
            self.assertLessEqual(names.columns(said), most)
            if names.columns(whole) <= most:
                self.assertEqual(said, whole)
            else:
                head, tail = said.strip("\u2068\u2069").split("…")
                self.assertTrue(whole.strip("\u2068").startswith(head)
                                and whole.strip("\u2069").endswith(tail))

    def test_long_names_are_cut_in_the_text(self):
        name = "v" * 200
        out = run_here([self.file(f"A|w({name})|{name}\nB|w({name})|b\n".encode())])[1]
        cut = "v" * 39 + "…" + "v" * 40
        self.assertIn(f"1. {cut}: b and {cut} write without a lock", out)
        self.assertIn(f"   {cut}: 1 write by A\n", out)
        self.assertNotIn("v" * 41, out)

    def test_code_keeps_its_backslashes(self):
        self.assertEqual(names.code_line(b'puts("a\\n\\x1b");\t\x1b\xff', 80),
                         'puts("a\\n\\x1b");        \\x1b\\xff')


class Waiting(program.Case):
    def terminal(self):
        class Terminal(io.StringIO):
            def isatty(self):
                return True

        return Terminal()

    def test_words_on_a_terminal_go_away_again(self):
        said = standard.Progress("shb-view", self.terminal())
        said.next = 0  # as after the first second
        said.step("reading", 1, 4)
        said.clear()
        self.assertEqual(said.out.getvalue(), "\r\x1b[Kshb-view: reading 25%\r\x1b[K")

    def test_words_go_away_before_a_refusal(self):
        fake = self.file(b'#!/bin/sh\n%b "$@" | sed "s/^events 4/events 5/"\n' % bytes(program.PATH), "shb")
        fake.chmod(0o755)
        wait, standard.WAIT = standard.WAIT, 0.0
        self.addCleanup(setattr, standard, "WAIT", wait)
        terminal = self.terminal()
        with contextlib.redirect_stderr(terminal):
            status = command.main(["--shb", str(fake), str(EXAMPLES / "places.std")])
        self.assertEqual(status, 2)
        self.assertRegex(terminal.getvalue(), r"\A\r\x1b\[Kshb-view: counting accesses \d+%.*\r\x1b\[K"
                                              r"shb-view: the trace isn't the one that `shb` read.*\n\Z")

    def test_words_go_away_before_the_text(self):
        wait, standard.WAIT = standard.WAIT, 0.0
        self.addCleanup(setattr, standard, "WAIT", wait)
        terminal, out = self.terminal(), io.TextIOWrapper(io.BytesIO(), "utf-8")
        with contextlib.redirect_stderr(terminal), contextlib.redirect_stdout(out):
            words = "--shb", str(program.PATH), str(EXAMPLES / "places.std")
            self.assertEqual(command.main(words), 0)
        self.assertRegex(terminal.getvalue(), r"\A\r\x1b\[Kshb-view: counting accesses \d+%.*\r\x1b\[K\Z")

    def test_nothing_is_said_in_the_first_second(self):
        self.addCleanup(setattr, standard, "time", standard.time)
        standard.time = types.SimpleNamespace(monotonic=lambda: now)
        now, terminal = 5.0, self.terminal()
        said = standard.Progress("shb-view", terminal)
        for now, shown in ((5.9, ""), (6.1, "\r\x1b[Kshb-view: reading 25%")):
            said.step("reading", 1, 4)
            self.assertEqual(terminal.getvalue(), shown)

    def test_nothing_is_said_elsewhere(self):
        said = standard.Progress("shb-view", io.StringIO())
        said.step("reading", 1, 4)
        said.clear()
        self.assertEqual(said.out.getvalue(), "")
