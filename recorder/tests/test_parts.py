"""A page's trace of several parts: what a page shows of one has nothing of another."""

import io
import re

import recorder
from shb_common.uses import Uses
from shb_common.standard import Progress
from shb_common.report import Report
from shb_common.stacks import Stacks
from shb_view.command import COLOUR
from shb_view.result import document
from shb_view.text import text_lines
from shb_view.view import Asked, RecordedRun, view_of_run
from test_open import planted
from test_record import ATOMIC, HEADER, LOCK, RELAXED, entry

SPANS = "enum { BEFORE = 500, BEHIND = 16, SHORT_RUN = 20000, FAR_APART = 20000 };"
X, Y, Z, OTHER_LOCK = 0x5000, 0x6000, 0x7000, LOCK + 0x100


def write(thread, address, place):
    return entry(thread, "WRITE", address, place, 4)


def read(thread, address, place):
    return entry(thread, "READ", address, place, 4)


def under(thread, lock, place, *inside):
    return b"".join((entry(thread, "LOCK", lock, place), *inside, entry(thread, "UNLOCK", lock, place + 1)))


BEGIN = entry(0, "FORK", 1, 0x101) + entry(0, "FORK", 2, 0x102)
BETWEEN = b"".join(under(1 + number % 2, OTHER_LOCK, 0x300 + 2 * (number % 2)) for number in range(20))
READ_ALONE = (  # thread 2 reads X before thread 1 writes it, and later what it wrote itself
    BEGIN, read(2, X, 0x201), write(1, X, 0x202), under(1, LOCK, 0x203), under(2, LOCK, 0x205),
              write(2, X, 0x207), BETWEEN,
    read(2, X, 0x201), write(1, Y, 0x208), write(2, Y, 0x209))
LONG = b"".join(entry(2, "LOCK", OTHER_LOCK, 0x300) + write(2, 0x8000, 0x302)
                + entry(2, "UNLOCK", OTHER_LOCK, 0x303) for _ in range(60))
FAR_APART = (  # the race of Z is from the first part to the second
    BEGIN, write(1, X, 0x201), write(2, X, 0x202), write(1, Z, 0x203), LONG,
             under(1, OTHER_LOCK, 0x304, read(1, 0x8000, 0x306)), write(2, Z, 0x204),
    write(1, Y, 0x205), write(2, Y, 0x206))
HANDED_ON = (BEGIN, write(1, Z, 0x203), entry(1, "ATOMIC_STORE", ATOMIC, 0x210, 4 | RELAXED), LONG,
             under(1, OTHER_LOCK, 0x304, read(1, 0x8000, 0x306)),
             entry(2, "ATOMIC_LOAD", ATOMIC, 0x211, 4 | RELAXED), write(2, Z, 0x204))
HELD = [LOCK + 0x200 + 16 * k for k in range(9)]
IN_LOCKS = (  # thread 1 holds nine locks before the page begins
    BEGIN, *(under(2, lock, 0x210) for lock in HELD), *(entry(1, "LOCK", lock, 0x220) for lock in HELD),
            *(under(2, OTHER_LOCK, 0x300) for _ in range(60)),
    under(1, OTHER_LOCK, 0x302), write(1, X, 0x201), write(2, X, 0x202),
            *(entry(1, "UNLOCK", lock, 0x222) for lock in HELD))


class Parts(recorder.Case):
    def setUp(self):
        super().setUp()
        self.converter = planted(self.folder / "converter", "page.c", SPANS,
                                 "enum { BEFORE = 2, BEHIND = 2, SHORT_RUN = 4, FAR_APART = 20 };")

    def page_of(self, entries, *options):
        """The page's trace of a record, with spans of a few events; the list of places is beside it."""
        record, page, listed = (self.folder / name for name in ("app.rec", "page.std", "page.places"))
        record.write_bytes(HEADER + b"".join(entries))
        whole = recorder.must(recorder.call(self.converter, "--list", record)).stdout
        listed.write_bytes(
            recorder.must(recorder.call(recorder.SHB, "places", "--list", "--variables", input=whole)).stdout)
        races = re.findall(rb"^race \d+: (\d+) (\d+)\nfirst .*?\|[rw]\((.*?)\)", listed.read_bytes(), re.M)
        uses, self.stacks = self.folder / "page.uses", self.folder / "page.stacks"
        page.write_bytes(
            recorder.must(recorder.call(self.converter, "--only", "/dev/stdin", "--uses", uses, "--stacks",
                                        self.stacks, *options, record,
                                                     input=b"".join(
                                                         b"%b %b %b\n" % race for race in races))).stdout)
        self.uses, self.races = (Uses(uses),
                                 {name.decode(): (int(first), int(second)) for first, second, name in races})
        return page

    def explained(self, entries, *options):
        """The view's document and text of such a page."""
        page = self.page_of(entries, *options)
        with open(page.with_suffix(".places"), "rb") as listed:
            report = Report(listed)
            run = RecordedRun(page, report.counts, list(report.races()), self.uses,
                              Stacks(self.stacks, self.uses.count))
        view = view_of_run(run, Asked(recorder.SHB, True, [], False, None),
                           Progress("shb-view", io.StringIO()))
        text = re.sub(COLOUR, "", "".join(f"{line}\n" for line in text_lines(view, True)))
        return document(view), re.split(r"(?m)^(?=\d+\. )", text)

    def test_nothing_of_another_part_is_shown(self):
        _, sections = self.explained(READ_ALONE)
        self.assertEqual(sorted(self.races), ["0x5000", "0x6000"])
        [of_x], [of_y] = ([section for section in sections if re.match(rf"\d+\. {name}: ", section)]
                          for name in self.races)
        self.assertNotIn("read what", of_x)
        self.assertNotIn("0x202", of_y[of_y.index("Before the accesses:"):])

    def test_a_race_from_one_part_to_another(self):
        """The page has both accesses, without what lies between, and no schedule of them."""
        document, sections = self.explained(FAR_APART)
        pairs = {name: self.uses.pair(*race) for name, race in self.races.items()}
        self.assertEqual({name: self.uses.are_apart(*pair) for name, pair in pairs.items()},
                         {"0x5000": False, "0x6000": False, "0x7000": True})
        self.assertLess(self.uses.count, 40)
        self.assertEqual({group["group"][0]: "schedule" in group for group in document["groups"]},
                         {"0x5000": True, "0x6000": True, "0x7000": False})
        self.assertTrue(
            all(any(re.match(rf"\d+\. {name}: ", section) for section in sections) for name in pairs))

    def test_what_may_lie_between_is_not_told(self):
        """Between the two accesses an atomic is stored by one thread, and loaded by the other: that it is the
        same value isn't known there."""
        [group] = self.explained(HANDED_ON)[0]["groups"]
        self.assertEqual(group["form"], "no-lock")
        self.converter = recorder.BUILT / "shb-std"  # it has a longer span
        [group] = self.explained(HANDED_ON)[0]["groups"]
        self.assertEqual(group["form"], "published")

    def test_a_race_that_does_not_fit(self):
        document, _ = self.explained(FAR_APART, "-n", "9")
        self.assertEqual({name: bool(self.uses.pair(*race)) for name, race in self.races.items()},
                         {"0x5000": True, "0x6000": False, "0x7000": False})
        self.assertEqual(
            {variable["name"] for place in document["places"] for variable in place["variables"]}, {"0x5000"})

    def test_a_page_ends_at_its_limit(self):
        """Also among the locks that are held where it begins; what comes up to there is what a
        longer page has."""
        whole = self.page_of(IN_LOCKS).read_bytes().splitlines()
        self.assertEqual(sum(b"|acq(" in line for line in whole[:13]), 9)
        for most in range(1, len(whole)):
            self.assertEqual(self.page_of(IN_LOCKS, "-n", str(most)).read_bytes().splitlines(), whole[:most])
