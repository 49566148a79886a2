"""Tests of optimistic_replay against the steps that `expand` prints, on random optimistic runs."""
import unittest

import test_boosted_replay
from for_tests import needs_program
from optimistic_replay import rejected_step


@needs_program
class AgainstExpand(test_boosted_replay.AgainstExpand):
    style = "optimistic"
    rejected_step = staticmethod(rejected_step)


if __name__ == "__main__":
    unittest.main()
