"""The lines of code that python/shb-view shows: which file of which folder, and what is said where
there is none."""

import os

import program
from test_view_page import Page, said
from viewing import run_here

from shb_common import sources
from shb_view import names
from shb_view.source import Source, excerpt

CODE = b"""\
#include <stdio.h>

static int total;

void *run(void *unused) {
    for (int k = 0; k < 3; k++) {
\tlock(&door);
        total++;
again:
        unlock(&door);
    }
    return unused;
}
"""


class Found(program.Case):
    def put(self, path, text=b"one\ntwo\nthree\n", time=1000):
        path = self.folder / path
        path.parent.mkdir(parents=True, exist_ok=True)
        path.write_bytes(text)
        os.utime(path, (time, time))
        return path

    def place(self, location, *folders):
        return Source([self.folder / folder for folder in folders or ["src"]], 2000, {}).place(location)

    def test_by_base_name(self):
        self.put("src/deep/a.c")
        place = self.place(b"a.c:2")
        self.assertEqual((place.path, place.line(), place.fault), (b"deep/a.c", b"two", ""))
        self.assertEqual(self.place(b"a.c:2:17").line(), b"two")
        self.assertEqual(self.place(b"other/folder/a.c:3").line(), b"three")

    def test_no_line_of_a_file(self):
        self.put("src/a.c")
        for location in (b"", b"a.c", b"a.c:", b":3", b"a.c:x", b"b.c:1", b"a.c:1 ", b"a.c:1\n"):
            self.assertIsNone(self.place(location))

    def test_a_location_is_never_a_path(self):
        secret = self.put("secret.c")
        self.put("src/a.c")
        for location in (b"../secret.c:1", bytes(secret) + b":1", b"./../secret.c:1", b"a.c/../../secret.c:1",
                         b"..:1", b".:1"):
            self.assertIsNone(self.place(location))

    def test_the_longest_common_end_decides(self):
        self.put("src/one/util.c", b"1\n")
        self.put("src/two/util.c", b"2\n")
        self.assertEqual(self.place(b"/build/two/util.c:1").line(), b"2")
        self.assertEqual(self.place(b"one/util.c:1").line(), b"1")
        for location in (b"util.c:1", b"three/util.c:1"):
            place = self.place(location)
            self.assertEqual((place.line(), place.fault),
                             (None, "2 files are named util.c; --source can name the folder of one of them"))

    def test_the_first_folder_counts(self):
        self.put("new/util.c", b"new\n")
        self.put("src/util.c", b"old\n")
        self.assertEqual(self.place(b"util.c:1", "new", "src").line(), b"new")
        self.assertEqual(self.place(b"util.c:1", "src", "new").line(), b"old")

    def test_a_long_line_is_not_looked_at_in_the_middle(self):
        """Its ends are what is shown of it: 240 columns take at most 16 bytes each."""
        seen = []
        kept, names.characters = names.characters, lambda text: seen.append(len(text)) or kept(text)
        self.addCleanup(setattr, names, "characters", kept)
        line = b"int a;" + b"x" * 4_000_000 + b"int z;"
        self.assertEqual(names.code_line(line, 240), f"int a;{'x' * 113}…{'x' * 114}int z;")
        self.assertEqual(seen, [2 * 16 * 240])

    def test_tabs_in_the_middle_of_a_long_line_are_not_looked_at(self):
        class Whole(bytes):
            def expandtabs(self, tabsize=8):
                raise AssertionError("the whole line was looked at")

        line = Whole(b"\tint a;" + b"\t" * 4_000_000 + b"int z;")
        self.assertEqual(names.code_line(line, 40), f"        int a;{' ' * 5}…{' ' * 14}int z;")

    def test_a_line_beyond_the_end(self):
        self.put("src/a.c")
        for location in (b"a.c:4", b"a.c:0"):
            place = self.place(location)
            self.assertEqual((place.line(), place.fault), (None, "the file has 3 lines"))

    def test_lines_end_with_line_feeds_alone(self):
        self.put("src/a.c", b"one\r\ntwo\rstill two\r\nthree")
        self.assertEqual([self.place(b"a.c:%d" % number).line() for number in (2, 3, 4)],
                         [b"two\rstill two\r", b"three", None])
        self.put("src/b.c", b"")
        self.assertEqual(self.place(b"b.c:1").fault, "the file has 0 lines")

    def test_a_newer_file(self):
        self.put("src/a.c", time=2001)
        place = self.place(b"a.c:1")
        self.assertEqual((place.line(), place.fault),
                         (b"one", "the file is newer than the trace; its lines may have moved"))

    def test_links_and_hidden_folders_are_passed_over(self):
        target = self.put("target.c")
        self.put("src/.git/hidden.c")
        (self.folder / "src" / "a.c").symlink_to(target)
        (self.folder / "src" / "loop").symlink_to(self.folder)
        os.mkfifo(self.folder / "src" / "pipe.c")
        for location in (b"a.c:1", b"hidden.c:1", b"target.c:1", b"pipe.c:1"):
            self.assertIsNone(self.place(location))

    def test_a_long_file(self):
        self.put("src/a.c", b"x\n" * 2_000_001)
        self.assertEqual(self.place(b"a.c:1")[2:4], ([], "the file is longer than 4,000,000 bytes"))
        self.put("src/b.c", b"x\n" * 2_000_000)
        self.assertEqual(self.place(b"b.c:1").line(), b"x")

    def test_a_file_that_cannot_be_read(self):
        path = self.put("src/a.c")
        source = Source([self.folder / "src"], 2000, {})
        path.unlink()
        path.symlink_to("/etc/passwd")
        self.assertEqual(source.place(b"a.c:1")[2:4],
                         ([], "the file can't be read (Too many levels of symbolic links)"))

    def test_what_is_found(self):
        self.put("src/a.c", time=2001)
        self.put("src/b.c")
        source = Source([self.folder / "src"], 2000, {})
        said = f"Source lines of {self.folder}/src: "
        self.assertEqual(list(source.missing([b"a.c:1", b"a.c:2", b"b.c:1", b"c.c:1", b"?"])),
                         [said + "2 of 3 files found, 1 newer than the trace."])
        self.assertEqual(list(source.missing([b"b.c:1", b"c.c:1"])),
                         [said + "1 of 2 files found, none newer than the trace."])
        kept, sources.MOST_FILES = sources.MOST_FILES, 2
        self.addCleanup(setattr, sources, "MOST_FILES", kept)
        self.put("src/c.c")
        source = Source([self.folder / "src"], 2000, {})
        self.assertEqual(source.index.count, 2)
        self.assertTrue(list(source.missing([b"b.c:1"]))[0].endswith(" Only 2 files were looked at."))
        sources.MOST_FILES = kept
        self.assertEqual(list(Source([self.folder / "src"], 2000, {}).missing([b"b.c:1"])), [])


class Excerpts(program.Case):
    def excerpt(self, location, acquire=None, code=CODE):
        self.file(code, "a.c")
        source = Source([self.folder], 1e12, {})
        head, *lines = excerpt(source.place(location), source.place(acquire) if acquire else None)
        return (head, *map(list, lines))

    def test_three_lines_before_and_two_after(self):
        self.assertEqual(self.excerpt(b"a.c:8"), (b"void *run(void *unused) {", [5, 6, 7, 8, 9, 10], []))

    def test_at_the_ends_of_the_file(self):
        self.assertEqual(self.excerpt(b"a.c:1"), (b"", [1, 2, 3], []))
        self.assertEqual(self.excerpt(b"a.c:13")[1], [10, 11, 12, 13])

    def test_a_label_is_no_head(self):
        self.assertEqual(self.excerpt(b"a.c:10")[0], b"void *run(void *unused) {")

    def test_the_bar_from_the_acquire(self):
        self.assertEqual(self.excerpt(b"a.c:10", b"a.c:7")[2], [7, 8, 9, 10])

    def test_no_bar_from_another_function_or_from_after_the_access(self):
        for acquire in (b"a.c:3", b"a.c:11", b"b.c:7", b"a.c:99"):
            self.assertEqual(self.excerpt(b"a.c:8", acquire)[2], [])

    def test_a_near_acquire_is_shown_and_a_far_one_not(self):
        for lines, first in ((12, 2), (13, 12)):
            code = b"void f(void) {\nlock();\n" + b" x;\n" * 30
            found = self.excerpt(b"a.c:%d" % (2 + lines), b"a.c:2", code)
            self.assertEqual((found[1][0], found[2][0]), (first, 2))


class Shown(program.Case):
    TRACE = b"A|acq(door)|a.c:7\nA|w(total)|a.c:8\nA|rel(door)|a.c:10\nB|r(total)|a.c:3\n"

    def shown(self, *words):
        self.file(CODE, "a.c")
        os.utime(self.folder / "a.c", (1000, 1000))
        status, out, err = run_here([*words, "--source", self.folder, self.file(self.TRACE)])
        self.assertEqual((status, err), (0, ""))
        return out

    def test_text_by_hand(self):
        self.assertEqual(self.shown().splitlines()[1:], [
            "", "1. total: a.c:3 reads without door (1 place)",
            "   In this trace every write holds door, and a.c:3 reads without it.",
            "   Remedy: hold door at a.c:3.",
            "   a.c:3 read what a.c:8 wrote. This racy read may hide other races: fix it and run again.",
            "   a.c:8: 1 write by A", "     | total++;", "     holds door", "     races with a.c:3",
            "   a.c:3: 1 read by B", "     | static int total;", "     no lock held",
            "     races with a.c:8"])

    def test_a_result_that_all_threads_share(self):
        """Of a library's function that has another form, with a result for each caller."""
        self.file(b"one();\nputs(ctime(&now));\n", "b.c")
        os.utime(self.folder / "b.c", (1000, 1000))
        for name, at, remedy in (("libc.so.6:result", 2, "call ctime_r at b.c:2."),
                                 ("libc.so.6:result", 1, "hold one lock at b.c:1."),
                                 ("result", 2, "hold one lock at b.c:2.")):
            trace = self.file("".join(f"{it}|w({name})|b.c:{at}\n" for it in "AB").encode())
            out = run_here(["--source", self.folder, trace])[1]
            self.assertIn(f"   Remedy: {remedy}\n", out)

    def test_page_by_hand(self):
        path = self.folder / "page.html"
        self.shown("--html", path)
        page = Page(path.read_text(encoding="utf-8"))
        one, other = page.group()["sides"]
        self.assertEqual(
            [(said(side["at"]), side["verb"], said(side["locks"]), side["head"]) for side in (one, other)],
                         [("a.c:8", "writes", "holding door",
                           "void *run(void *unused)"), ("a.c:3", "reads", "no lock held", "")])
        self.assertEqual((one["first"], one["hit"], one["held"]), (5, 8, [7, 8]))
        self.assertEqual(one["lines"], ["void *run(void *unused) {", "    for (int k = 0; k < 3; k++) {",
                                        "        lock(&door);",
                                        "        total++;", "again:", "        unlock(&door);"])
        self.assertEqual((other["hit"], other["lines"][3 - other["first"]],
                          other["held"]), (3, "static int total;", []))
        self.assertEqual([site[1] for site in page.group()["sites"]], ["total++;", "static int total;"])

    def test_names_and_code_stay_text(self):
        code = b"void <u>f(void) {\n  lock(<u>);\n  </td><u>x;\n}\n"
        os.utime(self.file(code, "<u>&.c"), (1000, 1000))
        trace = self.file(b"A|acq(<u>)|<u>&.c:2\nA|w(<u>)|<u>&.c:3\nB|w(<u>)|<u>&.c:9\n")
        path = self.folder / "page.html"
        self.assertEqual(run_here(["--html", path, "--source", self.folder, trace])[0], 0)
        page = Page(path.read_text(encoding="utf-8"))
        self.assertEqual(page.all("u"), [])
        one, other = page.group()["sides"]
        self.assertEqual((said(one["at"]), said(one["locks"]), one["head"],
                          one["lines"][2]), ("<u>&.c:3", "holding <u>", "void <u>f(void)", "  </td><u>x;"))
        self.assertEqual((said(other["at"]), other["fault"], "lines" in other),
                         ("<u>&.c:9", "the file has 4 lines", False))

    def test_a_fault_is_said_beside_the_code(self):
        self.shown()
        os.utime(self.folder / "a.c")
        os.utime(self.folder / "t.std", (1000, 1000))
        out = run_here(["--source", self.folder, self.folder / "t.std"])[1]
        self.assertIn(
            "     | total++;\n     | (the file is newer than the trace; its lines may have moved)\n", out)
