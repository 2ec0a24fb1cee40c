"""Traces that are longer than a report with schedules may be of."""

import farm
from farm import BAD, RACE
from shb_farm.passes import key_of

MANY = 4_194_304        # events that a report with schedules may be of
END = b"A|end\n"
# two races at two places, far apart
FAR = b"T3|w(y)|k.c:1\nT4|r(z)|k.c:2\n" + END * MANY + b"T4|r(y)|k.c:2\nT3|w(z)|k.c:1\n"
THREADS = b"".join(b"T%d|w(x)|q.c:1\n" % number for number in range(1025))


class LongTraces(farm.Case):
    def setUp(self):
        super().setUp()
        self.run_alone()

    def test_races_that_are_far_apart(self):
        self.trace("long.std", FAR)
        self.trace("race.std", RACE)
        answer = self.farm()
        self.assertEqual((answer.status, self.ends()["long.std"]),
                         (1, ("report", f"events {MANY + 4} threads 3 locks 0 variables 2")))
        kept = f"reports/{key_of('long.std')}.report"
        self.assertEqual(self.table("places.tsv"), [["1", "unknown", "a.c:1", "b.c:2", "race.std",
                                                     f"reports/{key_of('race.std')}.report", "x"],
                                                    ["1", "unknown", "k.c:1", "k.c:2", "long.std", kept,
                                                     "y, z"]])
        self.assertEqual((self.out / kept).read_bytes(), b"""shb-report 2
events 4194308 threads 3 locks 0 variables 2
races 2
places 2
place 1: 1
at k.c:1
and k.c:2
place 2: 1
at k.c:2
and k.c:1
race 1: 1 4194307
first T3|w(y)|k.c:1
second T4|r(y)|k.c:2
race 2: 2 4194308
first T4|r(z)|k.c:2
second T3|w(z)|k.c:1
end
""")
        self.assertEqual(list((self.out / "tmp").iterdir()), [])

    def test_a_known_place_of_a_long_trace(self):
        self.trace("threads.std", THREADS)
        self.assertEqual(self.farm("--known", self.known(b"q.c:1\tq.c:1\tx\n")).status, 0)
        self.assertEqual(self.farm("--known", self.known(b"q.c:1\tq.c:1\ty\n")).status, 1)

    def test_a_long_trace_that_is_refused_late(self):
        self.trace("long.std", THREADS + BAD)
        self.assertEqual(self.farm().status, 5)
        self.assertEqual(self.ends()["long.std"][0], "refused")
        self.assertRegex(self.ends()["long.std"][1], r"^line 1026: the line has no operation field")
