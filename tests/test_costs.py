"""The step that counts instructions and memory (costs.py) complains where a trace is dearer than its bound,
where twice the events take too much more, and where it has no bound."""

import unittest

import costs

COST = costs.Cost("a trace", costs.PLACES, lambda n: [], 10)


class Complaints(unittest.TestCase):
    def test_within_its_bound(self):
        self.assertEqual([*costs.complaints(COST, 50_000, 110_000, 50)], [])
        self.assertEqual([*costs.complaints(COST, 50_000, None, 50)], [])

    def test_dearer_than_its_bound(self):
        self.assertEqual(len([*costs.complaints(COST, 50_001, 100_000, 50)]), 1)

    def test_takes_more_memory_than_its_bound(self):
        memory = COST._replace(unit=costs.MEMORY)
        self.assertEqual([*costs.complaints(memory, 50, 110, 50)], [])
        self.assertEqual(len([*costs.complaints(memory, 51, 110, 50)]), 1)

    def test_grows_too_fast(self):
        self.assertEqual(len([*costs.complaints(COST, 50_000, 120_000, 50)]), 1)
        still = COST._replace(unit=costs.MEMORY, growth=costs.SAME)
        self.assertEqual([*costs.complaints(still, 40, 46, 50)], [])
        self.assertEqual(len([*costs.complaints(still, 40, 47, 50)]), 1)

    def test_has_no_bound(self):
        self.assertEqual(len([*costs.complaints(COST, 50_000, 100_000, None)]), 1)

    def test_each_has_a_bound_of_its_own(self):
        names = [costs.key(cost) for cost in costs.costs()]
        self.assertEqual(sorted(names), sorted(costs.bounds()))
        self.assertEqual(len(names), len(set(names)))
