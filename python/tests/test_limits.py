"""What `shb` takes stands twice, in Python and in C."""

import pathlib
import re
import unittest

from shb_common import limits

HEADER = pathlib.Path(__file__).resolve().parents[2] / "recorder/converter/converter.h"


class Limits(unittest.TestCase):
    def test_the_recorder_has_the_same(self):
        written = dict(re.findall(r"(SHB_[A-Z]+) = ([0-9< ]+)", HEADER.read_text()))
        found = {name: int(first) << int(shift or 0) for name, text in written.items()
                 for first, _, shift in [text.partition(" << ")]}
        self.assertEqual(found, {"SHB_EVENTS": limits.MOST_EVENTS, "SHB_THREADS": limits.MOST_THREADS,
                                 "SHB_LINE": limits.MOST_LINE,
                                 "SHB_BYTES": limits.MOST_TEXT})
