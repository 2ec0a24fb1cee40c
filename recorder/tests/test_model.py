"""The model of the turn: it holds, and each planted bug is found."""

import unittest

import model


class Model(unittest.TestCase):
    def test_all_interleavings_of_two_and_three_threads(self):
        states = sum(model.search(program.split()) for program in model.PROGRAMS)
        self.assertGreater(states, 250_000)

    def test_all_interleavings_of_replays(self):
        for program, turns in model.REPLAYS:
            self.assertGreater(model.search(program.split(), turns=turns), 1_000, program)

    def test_each_planted_bug_is_found(self):
        for bug, worst in model.BUGS.items():
            with self.subTest(bug):
                self.assertTrue(any(found.startswith(worst) for found in model.faults(bug)))
