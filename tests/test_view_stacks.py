"""python/shb-view --stacks: the call stacks of racing lines, of threads and of blocks."""

import os
import re
import struct

import program
from test_view_page import Page, said
from viewing import run_here

TRACE = b"""\
main|fork(T1)|a.c:30
T1|w(a.c:9#2+8)|a.c:5
main|w(a.c:9#2+8)|a.c:5
main|w(a.c:9#2+8)|a.c:5
main|r(a.c:9#2+8)|a.c:7
"""
TABLES = b"""\
frame main()\ta.c:30
frame add<int>(int)\ta.c:5
system-frame std::each(f)\teach.h:8
frame run\ta.c:20
frame main()\ta.c:31
frame get\ta.c:7
frame make\ta.c:9
system-frame \tlibc.so.6+0x10
frame sorter\t
stack 1 0 1
stack 2 3 2
stack 3 4 3
stack 4 0 4
stack 5 6 2
stack 6 0 5
stack 7 8 6
stack 8 6 8 9
stack 9 6 7
thread T1\t1
block 2 9
"""
NODES = [1, 2, 5, 5, 7]


def stacks(nodes=NODES, tables=TABLES, events=None):
    return (b"shb-stacks 1 %020d\n" % (len(nodes) if events is None else events)
            + struct.pack(f"<{len(nodes)}I", *nodes) + tables)


class Stacks(program.Case):
    def shown(self, content, *words, trace=TRACE):
        path = self.folder / "app.stacks"
        path.write_bytes(content)
        return run_here(["--stacks", path, *words, self.file(trace)])

    def test_the_text(self):
        status, out, err = self.shown(stacks())
        self.assertEqual((status, err), (0, ""))
        self.assertIn("     in add<> (2 of 3 accesses by main)\n       from main a.c:31\n"
                      "     in add<> (1 of 3 accesses by T1)\n       from std::each each.h:8\n"
                      "       from run a.c:20\n", out)
        self.assertIn("     in get\n       from libc.so.6+0x10\n"
                      "       from sorter (no line is known: it called code without -fsanitize=thread)\n     "
                      "  from main a.c:31\n", out)
        self.assertIn("   thread T1 was created in main a.c:30\n", out)
        self.assertIn("\nCounts are those of the trace. The recorder omits repeats: a loop may count as two "
                      "accesses.\n", out)
        self.assertIn("   block a.c:9#2 was allocated in make a.c:9, from main a.c:31\n", out)

    def test_threads_that_were_created_by_the_same_calls(self):
        trace = (b"".join(b"main|fork(T%d)|a.c:30\n" % k for k in range(5))
                 + b"".join(b"T%d|w(x)|a.c:5\n" % k for k in range(5)))
        tables = TABLES.replace(b"thread T1\t1\n",
                                b"".join(b"thread T%d\t%d\n" % (k, 6 if k == 4 else 1) for k in range(5)))
        out = self.shown(stacks([1] * 10, tables), trace=trace)[1]
        self.assertIn("   threads T0, T1, T2 and 1 more were created in main a.c:30\n   thread T4 was "
                      "created in main a.c:31\n", out)

    def test_functions_of_the_system(self):
        """The innermost and the outermost are left out, several between others are one line, and the
        page has all."""
        tables = TABLES
        for old, new in ((b"stack 8 6 8 9", b"stack 8 6 8 3 9 3 8"), (b"stack 6 0 5", b"stack 6 0 5 8 3"),
                         (b"stack 7 8 6", b"stack 7 8 3 6")):
            tables = tables.replace(old, new)
        self.assertIn("     in get\n       from (2 functions of the system's headers or libraries)\n"
                      "       from sorter (no line is known: it called code without -fsanitize=thread)\n"
                      "       from (2 functions of the system's headers or libraries)\n       from main "
                      "a.c:31\n   thread",
                      self.shown(stacks(tables=tables))[1])
        self.shown(stacks(tables=tables), "--html", self.folder / "page.html")
        self.assertIn("std::each each.h:8get a.c:7libc.so.6+0x10std::each each.h:8sorter (no line is known: "
                      "it called code without -fsanitize=thread)std::each each.h:8libc.so.6+0x10main "
                      "a.c:31libc.so.6+0x10std::each each.h:8",
                      Page((self.folder / "page.html").read_text()).stacks())

    def test_a_stack_of_functions_of_the_system_alone(self):
        """As of a thread that a header of the standard library starts: the innermost stands for them, so
        nothing is blank."""
        for stack, said in ((b"stack 1 0 3 8 3", "in std::each each.h:8, from (2 more functions of the "
                                                 "system's headers or libraries)\n"),
                            (b"stack 1 0 8", "in libc.so.6+0x10\n")):
            out = self.shown(stacks(tables=TABLES.replace(b"stack 1 0 1", stack)))[1]
            self.assertIn(f"   thread T1 was created {said}", out)
            self.assertNotIn(" in \n", out)

    def test_what_is_told_alike_is_told_once(self):
        """Threads, and blocks, whose stacks differ in what isn't shown."""
        trace = b"main|fork(T1)|a.c:30\nmain|fork(T2)|a.c:30\n" + b"".join(
            b"%b|w(a.c:9#%d)|a.c:5\n" % (thread, block) for block in (2, 3) for thread in (b"T1", b"T2"))
        tables = TABLES + b"stack 10 0 1 8\nstack 11 6 8 7\nthread T2\t10\nblock 3 11\n"
        out = self.shown(stacks([1, 1, 2, 2, 2, 2], tables), trace=trace)[1]
        self.assertIn("   threads T1 and T2 were created in main a.c:30\n", out)
        self.assertIn("   blocks a.c:9#2 and a.c:9#3 were allocated in make a.c:9, from main a.c:31\n", out)

    def test_groups_behind_known_races_are_told(self):
        trace = b"A|w(x)|a.c:1\nB|w(x)|a.c:2\nA|w(y)|a.c:3\nB|w(y)|a.c:4\n"
        out = run_here([self.file(trace)], behind={(b"a.c:3", b"a.c:4"): {b"y"}})[1]
        said = "   Seen only with the known races left out: real if those are harmless.\n"
        self.assertEqual((out.count(said), out.index("2. y: ") < out.index(said)), (1, True), out)

    def test_where_a_fiber_was_made(self):
        tables, path = TABLES.replace(b"sorter", b"__tsan_create_fiber"), self.folder / "page.html"
        _, out, err = self.shown(stacks(tables=tables), "--html", path)
        self.assertEqual(err, "")
        self.assertIn("get a.c:7libc.so.6+0x10__tsan_create_fiber (which made the fiber)main a.c:31",
                      Page(path.read_text()).stacks())
        self.assertIn("       from __tsan_create_fiber (which made the fiber)\n       from main a.c:31\n",
                      self.shown(stacks(tables=tables))[1])

    def test_stacks_that_differ_in_what_is_not_shown_are_one(self):
        """One of the two ways to a line goes through a system header, which the text leaves out."""
        tables = (TABLES + b"system-frame std::less(f)\tless.h:9\nstack 10 3 2 10\nstack 11 4 10 2\nstack 12 "
                           b"4 2\n")
        _, out, err = self.shown(stacks([1, 12, 11, 11, 7], tables=tables))
        self.assertEqual(err, "")
        self.assertIn("     races with a.c:5 and a.c:7\n     in add<>\n       from run "
                      "a.c:20\n   a.c:7: ", out)

    def test_the_page(self):
        path = self.folder / "page.html"
        status, _, err = self.shown(stacks(), "--html", path)
        self.assertEqual((status, err), (0, ""))
        page = Page(path.read_text())
        lists = page.stacks()
        self.assertIn("add<> a.c:5std::each each.h:8run a.c:20", lists)
        self.assertIn("make a.c:9main a.c:31", lists)

    def test_where_a_lock_was_taken(self):
        """The one that is held at the shown race: in the text, on the page, and in the text for an issue."""
        trace = b"main|fork(T1)|a.c:1\nT1|acq(m)|a.c:4\nT1|w(x)|a.c:5\nT1|rel(m)|a.c:6\nmain|w(x)|a.c:7\n"
        content, path = stacks([1, 9, 5, 7, 5]), self.folder / "page.html"
        _, out, err = self.shown(content, "--all", trace=trace)
        self.assertEqual(err, "")
        self.assertIn("   lock m, held at a.c:5, was taken in make a.c:9, from main a.c:31\n", out)
        self.assertIn("       holds m, acquired at a.c:4 (event 2)\n         #0 make a.c:9\n         #1 main "
                      "a.c:31\n", out)
        self.shown(content, "--html", path, trace=trace)
        page = Page(path.read_text())
        self.assertIn(
            "lock m, held at a.c:5, was taken", [said(parts) for parts, _ in page.group()["origins"]])
        self.assertIn("make a.c:9main a.c:31", page.stacks())

    def test_the_function_of_a_code_box(self):
        """It is called by its first line; where that is another one's, as of a class, by its name
        in the stack."""
        page = self.folder / "page.html"
        for head, words in ((b"class Sum {", "add<>"), (b"int add(int n) {", "int add(int n)"), (b"", "")):
            code = self.file(head + b"\n" * 4 + b"  n++;\n" * 5, "code")
            self.shown(stacks(tables=TABLES + b"source a.c\t%b\n" % bytes(code)), "--recorded-source",
                       "--html", page)
            self.assertEqual([side["head"] for side in Page(page.read_text()).group()["sides"]], [words] * 2)

    def test_a_lock_that_both_accesses_hold_for_reading_was_taken_once(self):
        trace = (b"main|fork(T1)|a.c:1\nT1|acq(m@reader.T1)|a.c:4\nT1|w(x)|a.c:5\n"
                 b"main|acq(m@reader.main)|a.c:4\nmain|w(x)|a.c:5\n")
        out = self.shown(stacks([1, 9, 5, 9, 5]), "--all", trace=trace)[1]
        self.assertEqual(out.count("   lock m for reading, held at a.c:5, was taken in make a.c:9, from main "
                                   "a.c:31\n"), 1)

    def test_locals(self):
        """A variable on a stack has the name of a local that it is at all its racing accesses."""
        trace = (b"main|fork(T1)|a.c:1\nT1|w(stack.main-0x40)|a.c:5\nmain|w(stack.main-0x40)|a.c:7\n"
                 b"T1|w(stack.main-0x38)|a.c:6\nmain|w(stack.main-0x38)|a.c:8\n")
        tables = (TABLES + b"local 2\tstack.main-0x40\tx.head of main\n"
                           b"local 4\tstack.main-0x38\tx.size of main\n")
        page = self.folder / "page.html"
        for more, names in ((b"", ["1. x of main (2 variables): "]),
                            (b"local 3\tstack.main-0x40\t\n", ["1. stack.main-0x40: ", "x.size of main: "]),
                            (b"local 5\tstack.main-0x38\ty of f\n",
                             ["x.head of main: ", "stack.main-0x38: "]),
                            (b"local 9\tstack.main-0x38\ty of f\n", ["1. x of main (2 variables): "])):
            _, out, err = self.shown(stacks([1] * 5, tables + more), "--all", trace=trace)
            self.assertEqual(err, "")
            for name in names:
                self.assertIn(name, out)
        self.assertIn("Variables: x.head of main and x.size of main", out)
        self.assertIn("data race on x.head of main: a.c:5 and a.c:7\n", out)
        self.shown(stacks(tables=tables), "--html", page, trace=trace)
        self.assertTrue(
            any("x of main (2 variables)" in text for _, text in Page(page.read_text()).all("summary")))
        _, out, _ = self.shown(stacks(tables=tables.replace(b"x.head", b"<b>\x1b[31m")), trace=trace)
        self.assertIn(r"<b>\x1b[31m of main: ", out)
        status, _, err = self.shown(stacks(tables=TABLES + b"local 2\tx\n"), trace=trace)
        self.assertEqual(status, 4)
        self.assertRegex(err, r"is damaged in line \d+: `local 2")

    def test_a_local_has_the_accesses_of_its_life(self):
        """What other functions did at its address before and after isn't counted, not even by the
        lines that race."""
        before, line, after = (b"main|w(stack.main-0x40)|a.c:3\n", b"main|w(stack.main-0x40)|a.c:7\n",
                               b"main|join(T1)|a.c:9\n")
        trace = (before + line + b"main|fork(T1)|a.c:1\nT1|w(stack.main-0x40)|a.c:5\n" + line + after + before
                 + line)
        tables = (b"local 1\tstack.main-0x40\ty of f\nlocal 4\tstack.main-0x40\tx of main\nlocal "
                  b"7\tstack.main-0x40\t\n")
        for more, counts in ((tables, {"a.c:5": "1 write by T1", "a.c:7": "1 write by main"}),
                             (b"", {"a.c:5": "1 write by T1", "a.c:7": "3 writes by main",
                                    "a.c:3": "2 writes by main"})):
            _, out, err = self.shown(stacks([0] * 8, TABLES + more), trace=trace)
            self.assertEqual(err, "")
            self.assertEqual(dict(re.findall(r"(?m)^   (a\.c:\d): (.*)$", out)), counts)

    def test_members_of_blocks(self):
        """A variable and a lock have one name in headline, facts, events and lines; a block is named where
        two have the type."""
        trace = (b"main|fork(T1)|a.c:1\nT1|acq(a.c:9#2)|a.c:4\nT1|w(a.c:9#2+40)|a.c:5\n"
                 b"T1|rel(a.c:9#2)|a.c:6\nmain|w(a.c:9#2+40)|a.c:7\n")
        page, json = self.folder / "page.html", self.folder / "places.json"
        for block in ("", " of a.c:9#2"):
            member, lock = f"Account.balance{block}", f"Account.lock{block}"
            tables = TABLES + f"local 0\ta.c:9#2+40\t{member}\nlocal 0\ta.c:9#2\t{lock}\n".encode()
            _, out, err = self.shown(stacks([1, 9, 5, 7, 5], tables), "--all", trace=trace)
            self.assertEqual(err, "")
            self.assertIn(f"1. {member}: a.c:7 writes without {lock} (", out)
            self.assertRegex(out, rf"(?m)^     2  T1 +acq\({re.escape(lock)}\) +a\.c:4$")
            self.assertIn("   block a.c:9#2 was allocated in make a.c:9, from main a.c:31\n", out)
            self.assertNotIn("#2+40", out)
            self.shown(stacks([1, 9, 5, 7, 5], tables), "--html", page, "--json", json, trace=trace)
            events = Page(page.read_text()).group()["picture"]["events"]
            self.assertIn(f"line 3: T1|w({member})|a.c:5", [event[6].splitlines()[0] for event in events])
            self.assertIn(f"1  writes {member}", [event[4] for event in events])
            self.assertIn('"name": "Account.balance"', json.read_text())

    def test_members_of_two_blocks(self):
        """Two blocks of one line are counted; their locks are two."""
        trace = b"main|fork(T1)|a.c:1\n" + b"".join(
            b"T1|acq(a.c:9#%d)|a.c:4\nT1|w(a.c:9#%d+40)|a.c:5\nT1|rel(a.c:9#%d)|a.c:6\n"
            b"main|w(a.c:9#%d+40)|a.c:7\n" % ((k,) * 4) for k in (2, 3))
        tables = TABLES + b"".join(b"local 0\ta.c:9#%d+40\tAccount.balance of a.c:9#%d\n"
                                   b"local 0\ta.c:9#%d\tAccount.lock of a.c:9#%d\n"
                                   % ((k,) * 4) for k in (2, 3))
        _, out, err = self.shown(stacks([0] * 9, tables), trace=trace)
        self.assertEqual(err, "")
        self.assertIn("1. Account.balance (2 blocks): ", out)
        self.assertIn("     holds its own lock Account.lock\n", out)

    def test_locks_and_atomics_on_stacks(self):
        """They have the name of the local that they are, where that is the same one in the whole trace, also
        of a lock for reading."""
        for lock, more, name in ((b"stack.main-0x40", b"", "q.m of main"),
                                 (b"stack.main-0x40@reader.T1", b"", "q.m of main for reading"),
                                 (b"stack.main-0x40", b"local 5\tstack.main-0x40\ty of f\n",
                                  "stack.main-0x40")):
            trace = (
                b"main|fork(T1)|a.c:1\nT1|acq(%b)|a.c:4\nT1|w(x)|a.c:5\nT1|rel(%b)|a.c:6\nmain|w(x)|a.c:7\n"
                % (lock, lock))
            tables = TABLES + b"local 4\tstack.main-0x40\tq.m of main\n" + more
            _, out, err = self.shown(stacks([1, 9, 5, 7, 5], tables), "--all", trace=trace)
            self.assertEqual(err, "")
            self.assertIn(f"     holds {name}\n", out)
            self.assertIn(f"   lock {name}, held at a.c:5, was taken in make a.c:9", out)
            self.shown(stacks([1, 9, 5, 7, 5], tables), "--html", self.folder / "page.html", trace=trace)
            self.assertIn(f"lock {name}, held at a.c:5, was taken",
                          [said(parts)
                           for parts, _ in Page((self.folder / "page.html").read_text()).group()["origins"]])
        trace = b"main|fork(T1)|a.c:1\nmain|w(a.c:9#2)|a.c:5\nT1|r(a.c:9#2)|a.c:7\n"
        tables = (b"use 3\tstack.main-0x20\tmain\ta.c:6\tstore relaxed\nuse "
                  b"3\tstack.main-0x20\tT1\ta.c:4\tload acquire\nlocal 3\tstack.main-0x20\tq.tail of main\n")
        _, out, _ = self.shown(stacks(tables=TABLES + tables), trace=trace)
        self.assertIn(": a.c:6 writes q.tail of main without release (", out)
        self.assertIn("   main and T1 hand this on by the atomic q.tail of main: a.c:6 writes it relaxed "
                      "after the first access, ", out)

    def test_a_free(self):
        """One call frees a block of two variables that another thread uses: it is one free, and no write."""
        trace = (b"main|fork(T1)|a.c:1\nT1|r(a.c:9#2)|a.c:5\nT1|r(a.c:9#2+8)|a.c:6\n"
                 b"main|w(a.c:9#2)|a.c:7\nmain|w(a.c:9#2+8)|a.c:7\n")
        _, out, err = self.shown(stacks(tables=TABLES + b"free 4 5\n"), "--all", trace=trace)
        self.assertEqual(err, "")
        self.assertIn("1. a.c:9#2 (2 variables): freed at a.c:7 while in use (2 places)\n   In this "
                      "trace main frees the block at a.c:7, and nothing orders the free and the use at a.c:5 "
                      "and a.c:6.\n", out)
        self.assertIn("   a.c:7: 1 free by main\n", out)
        self.assertIn("     free by main at a.c:7 (event 4)\n", out)

    def test_two_frees(self):
        """Two threads free one block at one line."""
        trace = b"main|fork(T1)|a.c:1\nT1|w(a.c:9#2)|a.c:7\nmain|w(a.c:9#2)|a.c:7\n"
        _, out, _ = self.shown(stacks(tables=TABLES + b"free 2 2\nfree 3 3\n"), trace=trace)
        self.assertIn("1. a.c:9#2: freed twice at a.c:7 (1 place)\n   In this trace T1 and main free "
                      "the block at a.c:7, and nothing orders the free and another free of it.\n", out)

    def test_a_use_after_a_free(self):
        """In the order of the trace; it comes before all other groups."""
        lines = (b"main|fork(T1)|a.c:1", b"T1|w(a.c:9#2)|a.c:5", b"main|w(a.c:9#2)|a.c:7",
                 b"T1|w(a.c:9#2)|a.c:6")
        before = ("In this trace main frees the block at a.c:7, and nothing orders the free and the use at "
                  "a.c:5")
        for order, event, headline, fact in (
                ((0, 1, 2), 3, "freed at a.c:7 while in use", f"{before}."),
                ((0, 2, 1), 2, "used at a.c:5 after it was freed at a.c:7",
                 f"{before}. The use at a.c:5 came after the free here: a use after free."),
                ((0, 1, 2, 3), 3, "used at a.c:6 after it was freed at a.c:7",
                 f"{before} and a.c:6. The use at a.c:6 came after the free here: a use after free.")):
            with self.subTest(order):
                trace = b"".join(lines[k] + b"\n" for k in order) + b"T1|w(z)|b.c:1\nmain|w(z)|b.c:2\n" * 2
                _, out, _ = self.shown(stacks([0] * 8, TABLES + b"free %d %d\n" % (event, event)),
                                       trace=trace)
                self.assertIn(f"1. a.c:9#2: {headline} (", out)
                self.assertIn(f"   {fact}\n", out)

    def test_a_use_after_a_free_under_a_lock(self):
        """The rule of the lock is told, and that the use did come after the free."""
        lines = ["main|fork(T1)|a.c:1", *(f"main|{does}|a.c:{at}" for at in (8, 7)
                                          for does in ("acq(m)", "w(a.c:9#2)", "rel(m)"))]
        for use, is_after in ((4, False), (7, True)):
            trace = "".join(f"{it}\n" for it in [*lines[:use], "T1|w(a.c:9#2)|a.c:5", *lines[use:]]).encode()
            free = 7 - is_after
            _, out, _ = self.shown(stacks([0] * 8, TABLES + b"free %d %d\n" % (free, free)), trace=trace)
            self.assertIn("1. a.c:9#2: a.c:5 writes without m (", out)
            self.assertIn("   a.c:7 frees the block under it: use what was found there in the same ", out)
            said = "   The use at a.c:5 came after the free here: a use after free.\n"
            self.assertEqual(said in out, is_after)

    def test_a_read_of_what_was_freed(self):
        """In the trace a free is a write, and orders what follows such a read; but it wrote nothing."""
        trace = b"main|fork(T1)|a.c:1\nmain|w(a.c:9#2)|a.c:7\nT1|r(a.c:9#2)|a.c:5\n"
        _, out, _ = self.shown(stacks(tables=TABLES + b"free 2 2\n"), trace=trace)
        self.assertIn("   a.c:5 read what a.c:7 freed. This racy read may hide other races: fix it and run "
                      "again.\n", out)

    def test_atomics_are_drawn_as_atomics(self):
        """What stands for an order of one is no lock; of a queue or the like it is what it was."""
        trace = (b"main|fork(T1)|a.c:30\nmain|w(a.c:9#2)|a.c:5\nmain|acq(slot@1)|a.c:6\n"
                 b"main|rel(slot@1)|a.c:6\nT1|acq(slot@1)|a.c:4\nT1|rel(slot@1)|a.c:4\nT1|w(z)|a.c:8\n"
                 b"main|w(z)|a.c:7\n")
        page = self.folder / "page.html"
        for use, words in ((b"", ["releases slot", "acquires slot"]),
                           (b"use 3\tslot\tmain\ta.c:6\tstore release\n", ["stores atomic slot",
                                                                          "loads atomic slot"])):
            self.shown(stacks([1] * 8, TABLES + use), "--html", page, trace=trace)
            events = [event[4] for event in Page(page.read_text()).group()["picture"]["events"]]
            self.assertEqual([event for event in events if "slot" in event], words)

    def test_an_atomic_that_hands_on_without_order(self):
        """Between the two accesses one thread stores it and the other loads that store; the trace need
        not have it."""
        says = ("   main and T1 hand this on by the atomic slot: a.c:6 writes it {} after the first access, "
                "and a.c:4 reads it {} before the second. Without {} that orders nothing.\n")
        both = "relaxed", "relaxed", "release and acquire"
        for uses, words, headline in (
                (("main store relaxed", "T1 load acquire"), ("relaxed", "with acquire", "release"),
                 "a.c:6 writes slot without release"),
                (("main store release", "T1 load relaxed"), ("with release", "relaxed", "acquire"),
                 "a.c:4 reads slot without acquire"),
                (("main store relaxed", "T1 load relaxed"), both,
                 "a.c:6 writes slot without release, and a.c:4 reads it without acquire"),
                (("main store relaxed", "T1 load relaxed", "T1 fence acquire"),
                 ("relaxed", "with acquire", "release"), "a.c:6 writes slot without release"),
                (("main store relaxed", "T1 fence acquire", "T1 load relaxed"), both,
                 "a.c:6 writes slot without release, and a.c:4 reads it without acquire"),
                (("main store relaxed", "T2 update relaxed", "T1 load relaxed"), both,
                 "a.c:6 writes slot without release, and a.c:4 reads it without acquire"),
                (("main store release", "T1 load acquire"), None, None),
            (("T1 load relaxed", "main store relaxed"), None, None),
                (("main store relaxed", "T2 store relaxed", "T1 load relaxed"), None, None),
            (("T1 store relaxed", "T1 load relaxed"), None, None),
                (("main update relaxed", "T1 update relaxed"), None, None),
                (("main exchange relaxed", "T2 exchange relaxed", "T1 load relaxed"), None, None),
                (("main exchange relaxed", "T1 update relaxed"), None, None)):
            with self.subTest(uses):
                out = self.with_uses(3, uses)
                self.assertEqual("hand this on" in out, words is not None)
                lock = "mutex" if re.search("update|exchange", " ".join(uses)) else "lock"
                self.assertIn(says.format(*words) if words else f"   In this trace no {lock} is held", out)
                headline = headline or f"a.c:5 writes, a.c:7 reads without a {lock}"
                self.assertIn(f"1. a.c:9#2: {headline} (1 place)\n", out)
        for event in (2, 4):   # before the first access, and after the second
            self.assertNotIn("hand this on", self.with_uses(event, ("main store relaxed", "T1 load relaxed")))

    def test_an_exchange_hands_on(self):
        """Also to another one, as a counter's update doesn't, and what an update left."""
        for kind in "exchange", "update":
            with self.subTest(kind):
                out = self.with_uses(3, (f"main {kind} relaxed", "T1 exchange acquire"))
                self.assertIn(f"   main and T1 hand this on by the atomic slot: a.c:8 {kind}s it relaxed "
                              "after the first access, and a.c:8 exchanges it with acquire before the "
                              "second. Without release that orders nothing.\n", out)

    def with_uses(self, event, uses):
        """What is said of a race of main's write with T1's read, where an atomic is used before an event."""
        lines = {"store": "a.c:6", "load": "a.c:4", "update": "a.c:8", "exchange": "a.c:8", "fence": "a.c:3"}
        trace = (b"main|fork(T1)|a.c:1\nmain|w(a.c:9#2)|a.c:5\nT1|r(a.c:9#2)|a.c:7\n"
                 b"main|join(T1)|a.c:8\nmain|fork(T2)|a.c:9\n")
        tables = ""
        for thread, kind, order in map(str.split, uses):
            tables += f"use {event}\t{'slot' * (kind != 'fence')}\t{thread}\t{lines[kind]}\t{kind} {order}\n"
        status, out, err = self.shown(stacks(tables=TABLES + tables.encode()), trace=trace)
        self.assertEqual((status, err), (0, ""))
        return out

    def test_its_lines_are_marked_in_the_code(self):
        """Those that the first sentence names, where they are near an access."""
        (self.folder / "a.c").write_text("".join(f"line {number}\n" for number in range(1, 20)))
        os.utime(self.folder / "a.c", (1000, 1000))
        trace = (b"main|fork(T1)|a.c:1\nmain|w(a.c:9#2)|a.c:5\nT1|r(a.c:9#2)|a.c:7\n"
                 b"main|join(T1)|a.c:8\nmain|fork(T2)|a.c:9\n")
        tables = b"use 3\tslot\tmain\ta.c:6\tstore relaxed\nuse 3\tslot\tT1\ta.c:15\tload acquire\n"
        page = self.folder / "page.html"
        self.shown(stacks(tables=TABLES + tables), "--source", self.folder, "--html", page, trace=trace)
        self.assertEqual([side["atomics"] for side in Page(page.read_text()).group()["sides"]], [[6]] * 2)
        self.assertIn('class="group rank0"', page.read_text())     # in the first colour

    def test_the_callers_that_hold_no_lock(self):
        """Of a line that holds one at other accesses: add, as `main` calls it here. Where all accesses hold
        none, nothing more is said."""
        trace = (b"main|fork(T1)|a.c:30\nT1|acq(l)|a.c:20\nT1|w(a.c:9#2+8)|a.c:5\nT1|rel(l)|a.c:20\n"
                 b"main|w(a.c:9#2+8)|a.c:5\n")
        page = self.folder / "page.html"
        out = self.shown(stacks([1, 2, 2, 2, 5]), "--text", "--html", page, trace=trace)[1]
        self.assertIn("In this trace l is held at 1 of 2 accesses at a.c:5.", out)
        self.assertIn("     in add<> (1 of 2 accesses by T1)\n       from std::each each.h:8\n", out)
        self.assertIn("     in add<> (1 of 2 accesses by main, no lock held)\n       from main a.c:31\n", out)
        self.assertEqual([said(side["locks"]) for side in Page(page.read_text()).group()["sides"]],
                         ["holding l", "no lock held"])
        self.assertNotIn("accesses, no lock held", self.shown(stacks())[1])

    def test_sources_that_were_recorded(self):
        """Only where that is asked for, for a file may name any path."""
        code = self.file(b"int x;\n" * 4 + b"  x = 1;\n", "code")
        tables = TABLES + b"source a.c\t%b\n" % bytes(code)
        self.assertIn("     | x = 1;\n", self.shown(stacks(tables=tables), "--recorded-source")[1])
        self.assertNotIn("x = 1;", self.shown(stacks(tables=tables))[1])
        self.assertNotIn("x = 1;", self.shown(stacks(), "--recorded-source")[1])

    def test_without_stacks(self):
        _, out, _ = run_here([self.file(TRACE)])
        self.assertNotRegex(out, "(?m)^     (in|from) ")

    def test_other_files_are_refused(self):
        for content in (b"", b"shb-stacks 2 %020d\n" % 5, stacks()[:30], stacks()[:53], stacks(NODES[:4]),
                        TRACE):
            with self.subTest(content=content[:60]):
                status, out, err = self.shown(content)
                self.assertEqual((status, out), (4, ""))
                self.assertRegex(err, r"\Ashb-view: \S*app.stacks doesn't have the stacks of this trace\n\Z")

    def test_damaged_tables_are_refused_or_shown(self):
        for line in (b"frame x", b"stack x", b"stack 1", b"stack 1 1 99", b"thread T1", b"block 1",
                     b"block a b", b"free 1", b"free a b", b"source a", b"use 1\ta\tb\tc",
                     b"use 1\ta\tb\tc\tload", b"use 1\ta\tb\tc\tload strong", b"use a\tb\tc\td\tload relaxed",
                     b"stack 1 0 0", b"stack 1 0 -1", b"free 99999999999999999999999 1", b"local 1\tx",
                     b"block 1 -1", b"thread a\tx"):
            with self.subTest(line=line):
                status, _, err = self.shown(stacks(tables=TABLES + line + b"\n"))
                self.assertEqual(status, 4)
                self.assertRegex(err, rf"app.stacks is damaged in line {2 + TABLES.count(10)}: `")
        for content in (stacks(tables=TABLES + b"frame x\ty"), b"shb-stacks 1 " + b"9" * 20 + b"\n"):
            self.assertEqual(self.shown(content)[0], 4)
        odd = (([9] * 5, b"stack 9 9\n"), ([7] * 5, b""), ([2**32 - 1] * 5, TABLES),
               (NODES, TABLES + b"new kind\n"))
        for nodes, tables in odd:
            with self.subTest(tables=tables):
                self.assertEqual(self.shown(stacks(nodes, tables))[0], 0)

    def test_names_stay_names(self):
        hostile = TABLES.replace(b"add<int>(int)", b"<script>\xff'\"&\\")
        path = self.folder / "page.html"
        self.assertEqual(self.shown(stacks(tables=hostile), "--html", path)[0], 0)
        self.assertEqual(len(Page(path.read_text()).all("script")), 2)
        self.assertTrue(re.search(r"\\xff", self.shown(stacks(tables=hostile))[1]))
