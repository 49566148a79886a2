"""Tests of the check of opacity: its two forms on random runs, and the examples that it is about."""
import collections
import pathlib
import unittest

from definition import verdict
from definition_input import STYLES
from opacity import opacity, zombie_at_apps, zombie_at_prefixes
from opaque import crowded
from test_random_runs import made

ROOT = pathlib.Path(__file__).resolve().parent.parent
RUNS = 30


def example(name):
    return opacity((ROOT / "examples" / name).read_bytes())[0]


class Opacity(unittest.TestCase):
    def check(self, data):
        """Both forms print the same, and what `certify` prints of a run that is not accepted. Returns the first word."""
        first, second = (opacity(data, first_zombie=form) for form in (zombie_at_apps, zombie_at_prefixes))
        self.assertEqual(first, second)
        report = verdict(data)
        if report[1]:
            self.assertEqual(first, report)
        return first[0].partition(" ")[0]

    def test_random_runs(self):
        for style in STYLES:
            for number in range(RUNS):
                with self.subTest(style=style, number=number):
                    self.check(made(style, f"{style} opacity {number}"))

    def test_crowded_runs(self):
        for style in STYLES:
            with self.subTest(style):
                found = collections.Counter(self.check(crowded(style, f"{style} crowded {number}")) for number in range(RUNS))
                self.assertGreater(found["opaque"], 0, found)
                self.assertEqual(found["zombie"] > 0, style != "boosted", found)

    def test_zombies(self):
        self.assertEqual(example("zombie_read.jsonl"),
                         "zombie step 10 line 8\nview t1 ops 2 from 0 to 1\nop 1 x.read(0)=0\nop 4 y.read(0)=1\n")
        self.assertEqual(example("dependent_forward.jsonl"), "zombie step 8 line 7\nview t2 ops 1 from 0 to 0\nop 2 m.read(0)=5\n")
        self.assertEqual(example("taken_back.jsonl"), "zombie step 6 line 7\nview t2 ops 1 from 0 to 0\nop 2 m.read(0)=7\n")

    def test_others(self):
        self.assertEqual(example("boosted.jsonl"), "opaque steps 21 committed 3\n")
        self.assertEqual(example("started.jsonl"), "opaque steps 5 committed 2\n")


if __name__ == "__main__":
    unittest.main()
