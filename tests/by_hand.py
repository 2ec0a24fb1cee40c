"""A list of more than 2^32 races: some 300 GB, a quarter of an hour.

    run.py crates/shb/out/shb by_hand
"""

import test_long_lists


class LongestList(test_long_lists.WholeList):
    rounds = 65_537
    seconds = 4 * 3_600
