"""Remedies that the view tries on the trace of a recorded run's page."""

import array
import collections
import os
import re
import unittest.mock

import facts_reader
import program
from viewing import QUIET, asked, recorded_run

from shb_view import issue, result, trial
from shb_view.view import view_of_run

HANDED = ["main|fork(A)|f.c:1", "main|fork(B)|f.c:1", "A|w(x)|f.c:2", "B|r(x)|f.c:6"]
FLAG = ["use 4\tflag\tA\tf.c:3\tstore relaxed", "use 4\tflag\tB\tf.c:5\tload relaxed"]
# B reads x once more, without a load of the flag before. The lock orders its first read and A's second write.
AGAIN = [*HANDED, "B|acq(m)|f.c:7", "B|rel(m)|f.c:7", "A|acq(m)|f.c:4", "A|rel(m)|f.c:4", "A|w(x)|f.c:2",
         "A|w(y)|f.c:8", "B|r(x)|f.c:6"]
TRIED = ". Tried on this run: no race of it is left in the page's trace."
REMEDY = f"write flag with release at f.c:3 and read flag with acquire at f.c:5{TRIED}"
LATE = ["main|fork(A)|f.c:1", "main|w(x)|f.c:2", "A|r(x)|f.c:6"]
GIVEN = ["main|fork(A)|f.c:1", "A|acq(m)|f.c:2", "A|rel(m)|f.c:3", "A|w(x)|f.c:4", "B|acq(m)|f.c:6",
         "B|rel(m)|f.c:6", "B|r(x)|f.c:7"]
EARLY = ["main|fork(A)|f.c:1", "A|w(x)|f.c:6", "A|w(x)|f.c:6", "main|r(x)|f.c:2", "main|join(A)|f.c:3"]


class Trials(program.Case):
    def group(self, lines, beside=(), more=(), stacks=(), held=(), words={}):
        """The only group of a run with these lines, which are the page's trace too; and its remedy. By
        locations `held` has the lock that is held there, or sums, and `words` the words of uses that
        aren't r or w."""
        paths = {name: self.folder / f"page.{name}" for name in ("std", "stacks", "uses")}
        trace = "".join(f"{line}\n" for line in lines).encode()
        paths["std"].write_bytes(trace)
        numbers = array.array("I", stacks or [0] * len(lines))
        stacks = b"shb-stacks 1 %020d\n" % len(lines) + numbers.tobytes()
        stacks += "".join(f"{line}\n" for line in beside).encode()
        paths["stacks"].write_bytes(stacks)
        counts = collections.Counter(tuple(re.split(r"[|()]+", line)) for line in lines)
        locks = {at: lock if "\t" in lock else f"held\t{{0}}\t0\tunder\t{{0}}\t{lock}"
                 for at, lock in dict(held).items()}
        kinds = [f"use\t{words.get(at, word)}\t{name}\t\t{at}\tby\t{count}\t{thread}\t"
                 + locks.get(at, "bare\t{0}\t0").format(count)
                 for (thread, word, name, at), count in counts.items() if word in "rw"]
        events = [f"event\t{number}\t{number}" for number in range(1, len(lines) + 1)]
        whole = ["shb-uses 3", *kinds, *events, *more, f"events\t{len(lines)}"]
        paths["uses"].write_text("".join(f"{line}\n" for line in whole))
        run = recorded_run(*(paths[name] for name in ("std", "uses", "stacks")))
        self.view = view_of_run(run, asked()._replace(has_windows=False, sources=[self.folder]), QUIET)
        document = result.document(self.view)
        [group], [remedy] = document["groups"], {place["remedy"] for place in document["places"]}
        self.reader = facts_reader.Reader(trace, stacks, paths["uses"].read_bytes())
        self.assertEqual(self.faults(group), [])
        return group, remedy

    def faults(self, group, **more):
        return list(self.reader.faults([({**group, **more}, group["pairs"])]))

    def test_an_order_that_is_enough(self):
        group, remedy = self.group(HANDED, FLAG)
        self.assertEqual((group["form"], group["is_tried"], remedy), ("published", True, REMEDY))
        self.assertEqual(self.faults(group, form="no-lock", is_refuted=True, writes=["f.c:2"], writers=["A"]),
                         ["no-lock of ['x']: no remedy is refuted"])

    def test_a_race_that_it_leaves(self):
        """Without a remedy, and the facts of the accesses alone."""
        group, remedy = self.group(AGAIN, FLAG)
        self.assertEqual((group["form"], group["is_refuted"], remedy), ("no-lock", True, ""))
        use = {"location": "f.c:3", "thread": "A", "event": 4, "kind": "store", "order": "relaxed"}
        load = {**use, "location": "f.c:5", "thread": "B", "kind": "load"}
        by = {"atomic": "flag", "store": use, "load": load, "missing": ["release", "acquire"]}
        self.assertIn("published of ['x']: the remedy leaves a race",
                      self.faults(group, form="published", by=[{**by, "races": [[3, 4]]}], is_tried=True))

    def test_a_race_across_parts_is_none(self):
        group, remedy = self.group(AGAIN, FLAG, ["part\t11"])
        self.assertEqual((group["form"], remedy), ("published", REMEDY))
        group, remedy = self.group(AGAIN, FLAG, ["part\t9"])
        self.assertEqual((group["form"], remedy), ("no-lock", ""))

    def test_a_write_that_is_repeated_after_a_store(self):
        beat = ["use 3\tflag\tA\tf.c:3\tstore relaxed", *FLAG]
        self.assertEqual(self.group(HANDED, beat, ["repeated\t3"])[0]["form"], "no-lock")
        self.assertEqual(self.group(HANDED, beat)[1], REMEDY)
        beat = [f"{FLAG[0]} again", FLAG[1]]  # it stands for stores before the repeated write too
        self.assertEqual(self.group(HANDED, beat, ["repeated\t3"])[0]["form"], "no-lock")
        self.assertEqual(self.group(HANDED, beat)[1], REMEDY)
        self.assertEqual(self.group(HANDED, FLAG, ["repeated\t3"])[1], REMEDY)
        self.assertEqual(self.group(HANDED, beat, ["repeated\t4"])[1], REMEDY)

    def test_a_trace_that_is_too_long(self):
        with unittest.mock.patch.object(trial, "MOST_LINES", len(HANDED) - 1):
            group, remedy = self.group(HANDED, FLAG)
        self.assertEqual((group["form"], "is_tried" in group, remedy), ("published", False, ""))

    def test_a_write_that_comes_after_its_readers_creation(self):
        group, remedy = self.group(LATE)
        self.assertEqual(group["moved"], [(2, 1)])
        self.assertEqual(remedy, f"move f.c:2 before the thread's creation at f.c:1{TRIED}")
        self.assertEqual(self.faults(group, moved=[(2, 3)]), ["no-lock of ['x']: the move leaves a race"])

    def test_a_read_that_comes_before_a_join(self):
        group, remedy = self.group(EARLY)
        self.assertEqual(group["moved"], [(4, 6)])
        self.assertEqual(remedy, f"move f.c:2 after the join at f.c:3{TRIED}")
        self.assertEqual(self.faults(group, moved=[(4, 5)]), ["no-lock of ['x']: the move leaves a race"])

    def test_a_flag_that_is_tested_and_then_set(self):
        """By two threads: then atomic reads and writes leave the bug; what a library has can't be atomic."""
        begin, lock = [HANDED[0], HANDED[1]], "hold one lock at f.c:3 and f.c:2."
        both = [f"{thread}|{does}" for thread in "AB" for does in ("r(x)|f.c:2", "w(x)|f.c:3")]
        flag = f"make it atomic if it is a flag or a counter; else {lock}"
        for lines, remedy in ((both, f"test and set it in one step, as by an atomic exchange, or {lock}"),
                              ([*both[:2], "B|r(x)|f.c:2"], flag),
                              ([it.replace("(x)", "(x._M_finish)") for it in both], lock)):
            self.assertEqual(self.group([*begin, *lines])[1], remedy)

    def test_what_cannot_be_atomic(self):
        """What is accessed by more than eight bytes at once, or is of another type."""
        lines = [*HANDED[:2], "A|w(x)|f.c:2", "B|r(x)|f.c:6"]
        lock = "hold one lock at f.c:2 and f.c:6."
        flag = f"make it atomic if it is a flag or a counter; else {lock}"
        for words, remedy in (({}, flag), ({"f.c:2": "W"}, lock), ({"f.c:6": "R"}, lock)):
            self.assertEqual(self.group(lines, words=words)[1], remedy)
        for name, remedy in (("x", lock), ("y", flag)):
            self.assertEqual(self.group(lines, [f"type {name}\tother"])[1], remedy)

    def test_no_mutex_where_an_atomic_is_updated(self):
        """As by a spin lock of the program's own, which isn't seen."""
        lines = [*HANDED[:2], "A|w(x)|f.c:2", "B|r(x)|f.c:6"]
        for beside, word in (((), "lock"), (["use 4\tdoor\tA\tf.c:3\tupdate both"], "mutex"),
                             (["use 4\tdoor\tA\tf.c:3\tstore release"], "lock")):
            self.group(lines, beside)
            [section] = self.view.sections
            self.assertEqual(section.fact.tag[-1], f" without a {word}")
            said = issue.flat(section.fact.sentences[0])
            self.assertIn(f"In this run no {word} is held at any access; one thread writes, at f.c:2.", said)

    def test_a_plain_write_beside_an_atomic_read(self):
        lines = [*HANDED[:2], "A|w(x)|f.c:2", "B|r(x)|f.c:6"]
        once = "access it atomically at f.c:2 too, or initialize it before creating threads."
        for word, remedy in (("w", once),
                             ("W", "access its members one by one, atomically, at f.c:2, or hold one lock at "
                                   "f.c:2 and f.c:6.")):
            group, said = self.group(lines, words={"f.c:6": "l", "f.c:2": word})
            self.assertEqual((group["form"], group["atomic"], group["plain"], said),
                             ("plain", ["f.c:6"], ["f.c:2"], remedy))
            kinds = self.view.gathered
            self.assertEqual([kinds.of(3, b"w", b"x"), kinds.of(4, b"r", b"x")], [b"w", b"l"])

    def test_a_lock_that_is_no_rule(self):
        """Of some block, for a global variable; or none of the locks that a line holds most of the time."""
        def lines(lock, *counts):
            begin = [f"main|fork({thread})|f.c:1" for thread in "AB"]
            held = [f"A|acq({lock})|f.c:2", "A|w(x)|f.c:3", f"A|rel({lock})|f.c:4"]
            return [*begin, *held * counts[0], *["A|w(x)|f.c:3"] * counts[1], "B|r(x)|f.c:6"]

        def form(lock, *counts):
            some = "\t".join(["held", str(counts[0]), "0", "under", str(counts[0]), lock,
                              *["bare", str(counts[1]), "0"] * bool(counts[1])])
            return self.group(lines(lock, *counts), held={"f.c:3": some})[0]["form"]

        self.assertEqual([form("m", 1, 0), form("pool.c:1#2+8", 1, 0)], ["without", "apart"])
        self.assertEqual([form("m", 1, 1), form("m", 1, 9)], ["sometimes", "sometimes"])
        of_three = "held\t3\t0\tunder\t1\tm\tunder\t1\tk\tunder\t1\tl\tbare\t1\t0"
        self.assertEqual(self.group(lines("m", 1, 3), held={"f.c:3": of_three})[0]["form"], "apart")

    def test_a_check_before_an_act(self):
        """A line that branches on what it reads, before one of its function that has the lock: it is held
        over both. Not in a loop, which may wait, nor if the other is of another function, or before it."""
        its = [f"{thread}|{does}|f.c:{at}" for thread in "AB"
               for does, at in (("r(x)", 3), ("acq(m)", 4), ("w(x)", 5), ("rel(m)", 6), ("r(x)", 7))]
        both = [it for it in its if not it.endswith("7")]
        late = [it for it in its if not it.endswith("3")]
        for branch, lines, function, check in (
                ("if", both, "take", ["f.c:3", "f.c:5"]), ("if", both, "act", None),
                ("if", late, "take", None), ("while", both, "take", None)):
            code = ["a();", "b();", f"{branch} (x > 0) {{", "lock();", "x--;", "unlock();", "if (x) z = x;"]
            os.utime(self.file("\n".join(code).encode(), "f.c"), (1000, 1000))
            beside = ["frame take\tf.c:3", "frame take\tf.c:7", f"frame {function}\tf.c:5"]
            group, remedy = self.group([*HANDED[:2], *lines], beside, held={"f.c:5": "m"})
            self.assertEqual((group["form"], group.get("check")), ("without", check))
            self.assertEqual(remedy.startswith("hold m from f.c:3 to f.c:5: "), bool(check))
            if check:
                self.assertEqual(self.faults(group, check=check[::-1]),
                                 ["without of ['x']: no read before an act"])

    def test_a_function_that_is_called(self):
        """What it does isn't moved out of it."""
        beside = ["frame main\tf.c:1", "frame set\tf.c:2", "stack 1 0 1", "stack 2 1 2"]
        self.assertNotIn("moved", self.group(LATE, beside, stacks=[1, 2, 2])[0])
        self.assertIn("moved", self.group(LATE, beside, stacks=[1, 1, 2])[0])

    def test_a_use_after_a_release(self):
        """Each behind its own, of a lock or of an atomic for each other thread; or as one, that is recorded
        twice."""
        remedy = f"move f.c:4 before the release of m at f.c:3{TRIED}"
        for lines, beside, moved, more in (
                (GIVEN, (), [(4, 3)], []), (GIVEN, (), [(4, 3)], ["repeated\t4"]),
                ([line.replace("(m)", "(m@1>B)") for line in GIVEN], FLAG, [(4, 2)], []),
                ([*GIVEN[:3], "A|acq(m@1>C)|f.c:3", "A|rel(m@1>C)|f.c:3", *GIVEN[3:]], (), [(6, 3)], []),
                ([*GIVEN[:4], *GIVEN[3:]], (), [(4, 3), (5, 3)], [])):
            group, found = self.group(lines, beside, more)
            self.assertEqual((group["moved"], found), (moved, remedy))
        self.assertEqual(self.faults(group, moved=[(5, 6)]), ["no-lock of ['x']: the move leaves a race"])

    def test_memory_that_came_again(self):
        """A use that nothing orders behind the allocation is of what was freed; else it is one race more."""
        block, handed = "f.c:9#2", ["main|acq(m)|f.c:3", "main|rel(m)|f.c:3"]
        begin, end = ["main|fork(A)|f.c:1"], [f"main|w({block})|f.c:5", f"A|r({block})|f.c:7"]
        beside = ["again 2\t2\tmain\tf.c:2"]
        group, remedy = self.group([*begin, *end], beside)
        self.assertEqual((group["form"], group["frees"], group["after"]), ("freed", ["f.c:2"], ["f.c:7"]))
        self.assertTrue(remedy.startswith("don't use it at f.c:7 once it may be freed at f.c:2"))
        for wrong in ({"after": ["f.c:5"]}, {"frees": ["f.c:5"]}):
            self.assertNotEqual(self.faults(group, **wrong), [])
        taken = [line.replace("main", "A") for line in handed]
        ordered = [*begin, *handed, end[0], *taken, end[1]]
        self.assertEqual(self.group(ordered, beside)[0]["form"], "no-lock")
        self.assertEqual(self.group([*begin, *end])[0]["form"], "no-lock")

    def test_what_no_rule_is_taken_of(self):
        """A line that fills new blocks under a lock, and one that holds one of several alike each time."""
        filled = ["main|acq(m)|f.c:2", "main|w({})|f.c:3", "main|rel(m)|f.c:4", "main|fork(A)|f.c:4",
                  "main|w({})|f.c:5", "A|r({})|f.c:7"]
        for name, form in (("x", "without"), ("f.c:9#2", "apart")):
            group, _ = self.group([line.format(name) for line in filled], held={"f.c:3": "m"})
            self.assertEqual(group["form"], form)
        lines = ["main|fork(A)|f.c:1", "main|w(x)|f.c:3", "A|w(x)|f.c:7", "A|w(x)|f.c:7"]
        for other, form in (("m[2]", "apart"), ("k", "without")):
            both = f"held\t2\t0\tunder\t1\tm[1]\tunder\t1\t{other}"
            self.assertEqual(self.group(lines, held={"f.c:3": "m[1]", "f.c:7": both})[0]["form"], form)

    def test_a_use_that_a_release_before_tells_nothing_of(self):
        """Two behind one; one that stands for several; the lock that a thread takes of another; a barrier."""
        for lines, beside, more in (([*GIVEN[:4], "A|r(y)|f.c:5", *GIVEN[3:]], (), []),
                                    (GIVEN, (), ["repeated\t4\tonce"]),
                                    ([line.replace("(m)", "(m@1>A)") for line in GIVEN], (), []),
                                    ([line.replace("(m)", "(m@1)") for line in GIVEN], (), [])):
            self.assertNotIn("moved", self.group(lines, beside, more)[0])

    def test_a_lock_that_one_thread_alone_uses(self):
        lock = "stack.A-0x10"
        lines = ["main|fork(A)|f.c:1", f"A|acq({lock})|f.c:2", "A|w(x)|f.c:3", f"A|rel({lock})|f.c:4",
                 "main|r(x)|f.c:6"]
        group, remedy = self.group(lines, held=[("f.c:3", lock)])
        self.assertEqual((group["form"], remedy), ("apart", ""))
        said = {"form": "without", "lines": ["f.c:6"], "sometimes": [], "holding": ["f.c:3"],
                "scope": "writes"}
        self.assertEqual(self.faults(group, **said, locks={"x": lock}, name=lock, instead={}),
                         ["without of ['x']: the lock is no rule"])

    def test_a_local_that_is_gone(self):
        lines = ["main|fork(A)|f.c:1", "main|w(stack.main-0x10)|f.c:4", "A|r(stack.main-0x10)|f.c:2"]
        beside = ["system-frame a::sleep<b>(int)\tf.c:4", "frame handle\tf.c:2", "stack 1 0 1", "stack 2 0 2",
                  "local 2\tstack.main-0x10\tts of sleep<b>"]
        group, remedy = self.group(lines, beside, stacks=[0, 1, 2])
        self.assertEqual((group["form"], group["gone"], remedy), ("no-lock", ["f.c:2"], ""))
        self.assertEqual(self.faults(group, gone=[]),
                         ["no-lock of ['stack.main-0x10']: other lines use what is gone"])
        self.assertNotIn("gone", self.group(lines, beside, stacks=[0, 2, 2])[0])
        self.assertNotIn("gone", self.group(lines, beside, stacks=[0, 1, 1])[0])
        buffer = [*beside[:-1], "local 2\tstack.main-0x10\tbuffer of main"]  # which a system's function fills
        self.assertNotIn("gone", self.group(lines, buffer, stacks=[0, 1, 2])[0])

    def test_what_is_not_moved(self):
        """A flag that is read again, or set again; a result that is waited for, or has no join; what may lie
        between two parts."""
        for lines, more in (([*LATE, LATE[2]], []), ([*LATE, LATE[1]], []), (LATE, ["repeated\t3"]),
                            (LATE, ["repeated\t2"]), (EARLY, ["repeated\t4"]), (EARLY[:-1], []),
                            (LATE, ["part\t3"]), (EARLY, ["part\t4"])):
            self.assertNotIn("moved", self.group(lines, (), more)[0])
