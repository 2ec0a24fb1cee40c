"""The file of known places."""

import side_by_side
from shb_common import known
from shb_common.known import (BadLine, Known, Side, lasting, line_of_fields, lines_of, matches, pieces_of,
                              words_of_stale, written)
from shb_common.programs import Names

FILE = b"""\
# A comment, and an empty line

b.c:2\ta.c:1\tx
# stands for any text
lib.c:*\tmain.c:3\t*
pool.c:*\t*\t*
a[0].c:?\tz\t*
a[0].c:*\ty.\t*
"""


def side_of(location, functions=()):
    """A location and its functions, as the file has them."""
    return Side((written(location),), tuple((written(function),) for function in sorted(functions)))


def sides(*pair, functions=None):
    return tuple(side_of(location, (functions or {}).get(location, ())) for location in pair)



def line_of(pair, variable):
    """The line that makes this variable known at these two locations, and nothing else."""
    return line_of_fields(*(side_of(one).field() for one in pair), written(variable).replace(b"*", b"\\*"))


class KnownPlaces(side_by_side.Case):
    def setUp(self):
        super().setUp()
        self.known = Known(FILE)

    def expect(self, wanted, *places, variable=b"x"):
        for pair in places:
            self.assertEqual(self.known.has(sides(*pair), variable), wanted, pair)

    def test_both_orders(self):
        self.expect(True, (b"a.c:1", b"b.c:2"), (b"b.c:2", b"a.c:1"))
        self.expect(False, (b"a.c:1", b"a.c:1"), (b"a.c:1", b"b.c:3"), (b"b.c:2", b""), (b"xb.c:2", b"a.c:1"))

    def test_one_variable_is_no_other(self):
        """A race of a second variable at the same place isn't known."""
        self.expect(False, (b"a.c:1", b"b.c:2"), variable=b"balance")
        place = sides(b"a.c:1", b"b.c:2")
        self.assertTrue(self.known.has_all(place, [b"x"]))
        for variables, has_more in (([b"x", b"balance"], False), ([b"x"], True), ([], False)):
            self.assertFalse(self.known.has_all(place, variables, has_more))
        # by a star
        self.assertTrue(self.known.has_all(sides(b"lib.c:1", b"main.c:3"), [b"x", b"y"], True))

    def test_two_fields_are_of_every_variable(self):
        """So earlier versions wrote them."""
        path, said = self.folder / "known.places", []
        path.write_bytes(b"a.c:1\tb.c:2\n# x\nb.c:3\tb.c:4\ty\nc\td\n")
        self.assertTrue(known.given(path, said.append).has_all(sides(b"a.c:1", b"b.c:2"), [b"x", b"y"], True))
        self.assertEqual(said, [f"{path}, line 1 and 1 more: no variable is named, so every variable there "
                                "is known; a third field names one"])
        path.write_bytes(b"a\tb\t*\n")
        known.given(path, said.append)
        self.assertEqual(len(said), 1)
        path.write_bytes(b"*\ta\t*\n*\t*\t*\n")
        known.given(path, said.append)
        self.assertEqual(said[1:], [f"{path}, line 2: it makes every race known"])

    def test_lines_that_matched_nothing(self):
        stale = lambda: [line.number for line in self.known.stale()]
        self.assertEqual(stale(), [3, 5, 6, 7, 8])
        self.known.has(sides(b"a.c:1", b"b.c:2"), b"y")
        self.assertEqual(stale(), [3, 5, 6, 7, 8])
        self.known.has(sides(b"a.c:1", b"b.c:2"), b"x")
        self.known.has(sides(b"pool.c:1", b"z"), b"x")
        self.assertEqual(stale(), [5, 7, 8])
        self.assertEqual(list(words_of_stale(self.known.stale()[:1], Names())),
                         ["line 5: no race matched `lib.c:*\\tmain.c:3\\t*`"])

    def test_a_name_of_several_files_is_said(self):
        names = Names()
        for path in (b"/x/one/w.c", b"/x/two/w.c"):
            names.add(path)
        [words] = words_of_stale(Known(b"w.c:f()\tw.c:f()\tx\n").stale(), names)
        self.assertEqual(words, "line 1: no race matched `w.c:f()\\tw.c:f()\\tx`; w.c is the end of 2 source "
                                "files' paths: one/w.c, two/w.c")

    def test_patterns(self):
        self.expect(True, (b"lib.c:77", b"main.c:3"), (b"main.c:3", b"lib.c:"), (b"pool.c:1", b"z"),
                    (b"pool.c:1", b"pool.c:2"), (b"", b"pool.c:9"))
        self.expect(False, (b"lib.c:77", b"main.c:33"), (b"lib.c", b"main.c:3"), (b"xpool.c:1", b"z"))

    def test_functions(self):
        """Either side may be named by its function, whatever line of it that is."""
        functions = {b"a.c:5": {b"a.c:add<>()"}, b"a.c:7": {b"a.c:get()"}, b"b.c:5": {b"b.c:add<>()"},
                     b"c.c:1": {b"c.c:one()", b"c.c:two()"}}
        for line, wanted in ((b"a.c:add<>()\ta.c:get()", [(5, 7)]), (b"a.c:get()\ta.c:add<>()", [(5, 7)]),
                             (b"a.c:5\ta.c:get()", [(5, 7)]),
                             (b"a.c:add<>()\ta.c:add<>()", [(5, 5)]), (b"*:get()\t*:add*()", [(5, 7)]),
                             (b"b.c:add<>()\ta.c:get()", []),
                             (b"a.c:add<>()\ta.c:8", [])):
            known_, places = Known(line + b"\tx"), [(5, 5), (5, 7), (7, 7), (7, 8), (8, 8)]
            pairs = [(b"a.c:%d" % one, b"a.c:%d" % other) for one, other in places]
            self.assertEqual([place for place, pair in zip(places, pairs)
                              if known_.has(sides(*pair, functions=functions), b"x")], wanted, line)
            self.assertFalse(any(known_.has(sides(*pair), b"x") for pair in pairs), line)
        for name in (b"c.c:one()", b"c.c:two()"):
            self.assertTrue(
                Known(name + b"\tb.c:add<>()\tx").has(sides(b"b.c:5", b"c.c:1", functions=functions), b"x"))

    def test_a_location_that_looks_like_a_function(self):
        """What is written of it makes it known, and not the function; and a function makes no
        such location known."""
        function = sides(b"u.c:20", b"u.c:20", functions={b"u.c:20": {b"u.c:brand_new()"}})
        for location in (b"u.c:brand_new()", b"u.c:brand_new\\()", b"()", b"\\()"):
            place = sides(location, location)
            text = b"".join(lines_of([(place, [b"q"], False)]))
            self.assertTrue(Known(text).has(place, b"q"), text)
            self.assertFalse(Known(text).has(function, b"q"), text)
            self.assertFalse(Known(text).has(sides(location[:-2], location[:-2]), b"q"), text)
        self.assertFalse(Known(b"u.c:brand_new()\tu.c:brand_new()\tq").has(
            sides(b"u.c:brand_new()", b"u.c:brand_new()"), b"q"))

    def test_lines_by_functions(self):
        """What is written by functions has the locations above, and is known again when lines have moved;
        where a function isn't known, or one of several, it is two locations."""
        before = {b"a.c:5": {b"a.c:add()"}, b"a.c:6": {b"a.c:add()"}, b"a.c:9": {b"a.c:operator*()"},
                  b"b.c:1": {b"b.c:f()", b"b.c:g()"}}
        pairs = [(b"a.c:5", b"a.c:9"), (b"a.c:6", b"a.c:9"), (b"a.c:6", b"b.c:1"), (b"a.c:9", b"z.c:1")]
        text = b"".join(lines_of((sides(*pair, functions=before), [b"x"], False) for pair in pairs))
        self.assertEqual(text, b"# a.c:5\ta.c:9\n# a.c:6\ta.c:9\na.c:add()\ta.c:operator\\*()\tx\n"
                               b"a.c:6\tb.c:1\tx\na.c:9\tz.c:1\tx\n")
        self.assertEqual(
            [Known(text).has(sides(*pair, functions=before), b"x") for pair in pairs], [True] * 4)
        after = {b"a.c:15": {b"a.c:add()"}, b"a.c:19": {b"a.c:operator*()"}}
        self.assertEqual([Known(text).has(sides(*pair, functions=after), b"x")
                          for pair in ((b"a.c:15", b"a.c:19"), (b"a.c:15", b"a.c:15"))], [True, False])

    def test_more_variables_than_are_listed_stay_unknown(self):
        """No star is written by itself: the line with it is a comment."""
        place = sides(b"a.c:1", b"a.c:2")
        text = b"".join(lines_of([(place, [b"x"], True)]))
        self.assertIn(b"\n# a.c:1\ta.c:2\t*\n", text)
        self.assertFalse(Known(text).has_all(place, [b"x"], True))
        self.assertTrue(Known(text.replace(b"# a.c", b"a.c")).has_all(place, [b"x"], True))

    def test_names_of_variables_that_last(self):
        """What differs from run to run is a star."""
        for name, wanted in ((b"hits", b"hits"), (b"heap.cpp:13#7+40", b"heap.cpp:*#*+40"),
                             (b"heap.cpp:13#7", b"heap.cpp:*#*"),
                             (b"stack.T1.work-0x20", b"stack.*"), (b"0x55c58caa8f68", b"0x*"),
                             (b"0x7f00+8", b"0x*"), (b"0xg", b"0xg"), (b"grid[3][40].x", b"grid[*][*].x"),
                             (b"x~4a10.next", b"x~*.next"), (b"lib.so:x+8", b"lib.so:x+8"),
                             (b"queue.head of main", b"queue.head of main"), (b"a*b", b"a\\*b"),
                             (b"fd5.data", b"fd5.data")):
            self.assertEqual(lasting(name), wanted)
            self.assertTrue(Known(b"a\tb\t" + wanted).has(sides(b"a", b"b"), name))
        many = [b"a.c:1#2+%d" % offset for offset in range(0, 80, 8)]
        self.assertEqual(known.lasting_names([*many, b"y+1", b"y+2"]), [b"a.c:*#**", b"y+1", b"y+2"])
        self.assertFalse(Known(b"a\tb\theap.cpp:*#*+40").has(sides(b"a", b"b"), b"heap.cpp:13#7+48"))

    def test_other_signs_stand_for_themselves(self):
        self.expect(True, (b"a[0].c:?", b"z"), (b"a[0].c:7", b"y."))
        self.expect(False, (b"a0.c:7", b"y."), (b"a[0].c:7", b"y+"), (b"a0.c:?", b"z"), (b"a[0].c:1", b"z"),
                    (b"a[0]xc:?", b"z"))

    def test_comments_are_no_places(self):
        self.expect(False, (b"# A comment, and an empty line", b""), (b"", b""))

    def test_lines_that_are_none(self):
        for text, number, line in ((b"a\n", 1, "a"), (b"# x\n\na\tb\tc\td\n", 3, r"a\tb\tc\td"),
                                   (b"a\tb\na:1\x07\n", 2, r"a:1\x07")):
            with self.assertRaises(BadLine) as refused:
                Known(text)
            form = "a place is two locations or functions and a variable, with tabs between them"
            self.assertEqual(str(refused.exception), f"line {number}: {form}; this is `{line}`")

    def test_suppressions_of_thread_sanitizer(self):
        """What is told to be written instead is right: a function, and a file."""
        with self.assertRaises(BadLine) as refused:
            Known(b"race:pay\n")
        self.assertTrue(str(refused.exception).endswith(
            "; this is `race:pay`: ThreadSanitizer's `race:NAME` is written `*:NAME()`, `*`, `*` if NAME is "
            "a function, and `*NAME:*`, `*`, `*` if it is a file"), refused.exception)
        for line, wanted in ((b"*:pay()\t*\t*\n", True), (b"*account.c:*\t*\t*\n", True),
                             (b"*:fee()\t*\t*\n", False), (b"*bank.c:*\t*\t*\n", False)):
            place = sides(b"src/account.c:8", b"log.c:3",
                          functions={b"src/account.c:8": [b"src/account.c:pay()"]})
            self.assertEqual(Known(line).has(place, b"balance"), wanted, line)

    def test_files_that_are_something_else(self):
        for text, said in (("a\tb\tx\n".encode("utf-16"), "the file is UTF-16: save it as UTF-8"),
                           (b"\x1f\x8b\x08", "the file is packed by gzip: unpack it first")):
            with self.assertRaises(BadLine) as refused:
                Known(text)
            self.assertEqual(str(refused.exception), f"line 1: {said}")

    def test_ends_of_lines(self):
        for text in (b"a\tb\tx", b"a\tb\tx\n", b"a\tb\tx\r\n", b"\xef\xbb\xbfa\tb\tx\r\n",
                     b"\r\n# c\r\nb\ta\tx"):
            self.assertTrue(Known(text).has(sides(b"a", b"b"), b"x"), text)
        self.assertFalse(Known(b"a\tb\rc\tx\n").has(sides(b"a", b"b"), b"x"))

    def test_what_is_written_is_known_and_nothing_else(self):
        """A line that was made of a place has this place and variable alone, whatever signs are in it."""
        names = [b"", b"#a.c:1", b"\\#a.c:1", b"\\\\#a", b"a#", b"op*", b"op\\*", b"opAny", b"*", b"\\",
                 b"\\*", b"**", b"a*b*", b"axbx", b"a\tb", b"a\nb", b"a\rb",
                 b"a()", b"a\\()", b"()"]
        pairs = {tuple(sorted(map(written, (a, b)))) for a in names for b in names if a or b}
        for pair in pairs:
            one = Known(line_of(pair, b"x"))
            self.assertEqual([other for other in pairs if one.has(sides(*other), b"x")], [pair])
        for name in names:
            one = Known(line_of((b"a", b"b"), name))
            self.assertEqual([other for other in names if one.has(sides(b"a", b"b"), other)], [name])

    def test_stars_and_signs(self):
        one = Known(b"op\\*\t*\t*\n\\#x*\tz\t*\n*ab*ab*\tq\t*\n")
        pairs = lambda *names: [one.has(sides(name, other), b"x") for name, other in names]
        self.assertEqual(pairs((b"op*", b"any"), (b"any", b"op*"), (b"#x1", b"z"), (b"abab", b"q"),
                               (b"1ab2ab3", b"q")), [True] * 5)
        self.assertEqual(
            pairs((b"opAny", b"any"), (b"\\#x1", b"z"), (b"aab", b"q"), (b"abb", b"q")), [False] * 4)

    def test_pieces_that_overlap(self):
        for pattern, name, wanted in ((b"aba*ba", b"aba", False), (b"aba*ba", b"ababa", True),
                                      (b"a*a", b"a", False), (b"a*b*c", b"acbc", True),
                                      (b"a*bc*c", b"abc", False), (b"*", b"", True), (b"**", b"x", True),
                                      (b"a*", b"ba", False)):
            self.assertEqual(Known(pattern + b"\tz\tx").has(sides(name, b"z"), b"x"), wanted, (pattern, name))

    def test_many_stars_search_no_part_twice(self):
        """Steps are counted, as far as Python is asked: a search that goes back would ask 10 ** 15 times."""
        asked = 0

        class Counted(bytes):
            def find(self, *words):
                nonlocal asked
                asked += 1
                return super().find(*words)
        self.assertFalse(matches(pieces_of(b"*1" * 10 + b"*x"), Counted(b"1" * 200 + b"y")))
        self.assertFalse(matches(pieces_of(b"*1" * 10 + b"*x*y"), Counted(b"1" * 200 + b"y")))
        self.assertLessEqual(asked, 11)
