"""Tests of the random runs and of the comparison of two programs on them."""
import os
import pathlib
import subprocess
import sys
import tempfile
import unittest

from compare import verdict_named
from definition import verdict
from definition_input import STYLES
from random_lines import text_of
from random_runs import Run

BENCH = pathlib.Path(__file__).resolve().parent
PROGRAM = os.environ.get("POZHIQAS")
RUNS = 200


def made(style, seed, most_lines=40, faults=.05):
    run = Run(style, seed, most_lines)
    return text_of(run.lines, run.chance, faults)


def script(name, *arguments, **environment):
    return subprocess.run([sys.executable, str(BENCH / name), *map(str, arguments)], capture_output=True, text=True, check=False,
                          env={**os.environ, **environment})


class RandomRuns(unittest.TestCase):
    def test_half_is_accepted(self):
        for style in STYLES:
            with self.subTest(style):
                statuses = [verdict(made(style, f"{style} test {number}"))[1] for number in range(RUNS)]
                self.assertTrue(.35 < statuses.count(0) / RUNS < .7, statuses.count(0))
                self.assertTrue(0 < statuses.count(3) / RUNS < .15, statuses.count(3))

    def test_careful_runs_are_accepted(self):
        for style in STYLES:
            runs = [Run(style, f"{style} careful {number}", 40) for number in range(RUNS)]
            careful = [run for run in runs if run.wanted is None and not run.mistakes and not run.hasty]
            self.assertTrue(any("start" in run.lines[0] for run in careful))
            for run in careful:
                with self.subTest(style, lines=run.lines):
                    self.assertEqual(verdict(text_of(run.lines, run.chance, 0))[1], 0)

    def test_seeds(self):
        with tempfile.TemporaryDirectory() as folder:
            for hashes in ("1", "2"):
                script("random_runs.py", "--style", "dependent", "--count", 30, f"{folder}/{hashes}", PYTHONHASHSEED=hashes)
            first, second = ([file.read_bytes() for file in sorted(pathlib.Path(folder, hashes).iterdir())] for hashes in "12")
            self.assertEqual(len(first), 30)
            self.assertEqual(first, second)

    def test_lines(self):
        self.assertTrue(all(made("rules", f"{number}", 8, 0).count(b'{"step"') <= 8 for number in range(RUNS)))


class Compare(unittest.TestCase):
    def setUp(self):
        self.folder = tempfile.TemporaryDirectory()
        self.addCleanup(self.folder.cleanup)
        script("random_runs.py", "--style", "boosted", "--count", 20, self.folder.name)

    def test_agreement(self):
        command = f"{sys.executable} {BENCH / 'definition.py'} /dev/stdin"
        ran = script("compare.py", command, "definition", self.folder.name)
        self.assertEqual((ran.returncode, ran.stdout.splitlines()[-1]), (0, "20 files: 20 agree, 0 differ"), ran.stderr)
        self.assertRegex(ran.stdout, r"(?m)^accepted +\d+$")

    @unittest.skipIf(PROGRAM is None, "no built program: name one by the variable POZHIQAS")
    def test_program(self):
        for style in STYLES:
            script("random_runs.py", "--style", style, "--count", RUNS, "--seed", 2, "--faults", .2, self.folder.name)
        ran = script("compare.py", f"{PROGRAM} certify", "definition", self.folder.name)
        self.assertEqual(ran.returncode, 0, ran.stdout + ran.stderr)

    def test_difference(self):
        ran = script("compare.py", "cat", "definition", self.folder.name)
        self.assertEqual((ran.returncode, ran.stdout.splitlines()[-1]), (1, "20 files: 0 agree, 20 differ"), ran.stderr)
        self.assertIn("boosted_1_00000.jsonl differs:\n--- cat: status 0\n", ran.stdout)

    def test_names(self):
        for output, name in (("accepted steps 1 committed 0\n", "accepted"), ("rejected step 1 line 2 APP 4\nentry 1\n", "APP 4"),
                             ("fault line 2 Missing(tx)\n", "fault Missing(tx)"), ("quick rejected line 3\n", "quick rejected"), ("", "nothing")):
            self.assertEqual(verdict_named(output), name)


if __name__ == "__main__":
    unittest.main()
