"""Whose a location is."""

import side_by_side
from shb_common.programs import Location, Names, Origin, pair_of
from shb_common.stacks import Stacks


def origin(sources, program=b"", functions=()):
    tables = Stacks()
    tables.sources, tables.functions = dict(sources), dict(functions)
    return Origin(tables, program)


class Locations(side_by_side.Case):
    def test_a_file_by_its_whole_path(self):
        one = origin({b"w.c": b"/x/one/./w.c", b"a/u.c": b"/x/a/u.c", b"odd.c": b"/x/other.c"},
                     b"/x/prog", {b"w.c:5": {b"f"}})
        for text, wanted in ((b"w.c:5", (b"/x/one/w.c", b":5", {b"f"})),
                             (b"w.c:6:2", (b"/x/one/w.c", b":6:2", ())),
                             (b"a/u.c:1", (b"/x/a/u.c", b":1", ())),
                             (b"odd.c:1", (b"/x/prog/odd.c", b":1", ())),
                             (b"lib.so+0x12", (b"/x/prog/lib.so", b"+0x12", ())),
                             (b"", (b"/x/prog", b"", ()))):
            self.assertEqual(one.location(text), Location(wanted[0], wanted[1], frozenset(wanted[2])))
        one.add_modules([b"/usr/lib/lib.so"])
        self.assertEqual(one.location(b"lib.so+0x12").path, b"/usr/lib/lib.so")

    def test_without_a_program_a_location_is_its_text(self):
        for text in (b"", b"12", b"a.c:5", b"a:b:5", b"dir/../a.c:5", b"\n:1", b"a+0xff", b"\xff",
                     b"/usr/include/a.h:3", b"/"):
            one, names = Origin(Stacks()), Names()
            location = one.location(text)
            names.add_all(one)
            self.assertEqual((location.path + location.rest, names.name(location)), (text, text))

    def test_names_that_no_other_file_has(self):
        names = Names()
        for path in (b"/x/one/w.c", b"/x/two/w.c", b"/y/u.c", b"w.c"):
            names.add(path)
        self.assertEqual([names.names(path)[0] for path in (b"/x/one/w.c", b"/x/two/w.c", b"/y/u.c", b"w.c")],
                         [b"one/w.c", b"two/w.c", b"u.c", b"w.c"])
        side = names.side(Location(b"/x/one/w.c", b":5", frozenset([b"f", b"g"])))
        self.assertEqual(side.names, (b"one/w.c:5", b"x/one/w.c:5", b"/x/one/w.c:5"))
        self.assertEqual([function[0] for function in side.functions], [b"one/w.c:f()", b"one/w.c:g()"])
        self.assertEqual(names.several(b"w.c"), (b"w.c", [b"one/w.c", b"two/w.c", b"w.c"]))
        self.assertIsNone(names.several(b"u.c"))

    def test_files_of_the_program_that_do_not_race_count_too(self):
        """Else a name would depend on what races."""
        names, one = (Names(),
                      origin({b"a/u.c": b"/x/a/u.c", b"b/u.c": b"/x/b/u.c", b"src/w.c": b"/x/src/w.c"}))
        names.add_all(one)
        self.assertEqual(names.name(one.location(b"a/u.c:1")), b"a/u.c:1")
        # as the trace calls it
        self.assertEqual(names.names(b"/x/src/w.c"), [b"src/w.c", b"w.c", b"x/src/w.c", b"/x/src/w.c"])

    def test_two_builds_of_a_file_are_two(self):
        """Where a line lies in another function it is another place, also at the same path."""
        old, new = (origin({b"u.c": b"/x/u.c"}, functions={b"u.c:20": {name}}).location(b"u.c:20")
                    for name in (b"f", b"g"))
        self.assertNotEqual(old, new)
        self.assertEqual(pair_of((old, new)), pair_of((new, old)))

    def test_two_texts_of_a_line_are_two(self):
        """At the same path, in the same function. Where the text isn't known it is another one."""
        found = []
        for sum in (b"0" * 16, b"0" * 15 + b"1", None):
            one = origin({b"u.c": b"/x/u.c"}, functions={b"u.c:20": {b"f"}})
            one.tables.sums = {b"u.c:20": sum} if sum else {}
            found.append(one.location(b"u.c:20"))
        self.assertEqual(len({*found, *found[:1]}), 3)
        self.assertEqual(pair_of(found[:2]), pair_of(found[1::-1]))
