"""Tests of boosted_replay against the steps that `expand` prints, on random boosted runs."""
import json
import random
import unittest

from boosted_replay import rejected_step
from case import first_calls
from for_tests import PROGRAM, example, example_names, needs_program
from random_runs import random_run
from recorded_run import read_run
from replay import expanded_steps, logs_before
from verified_program import ask, read_report

SEEDS = 200


def random_text(seed, style):
    return "\n".join(map(json.dumps, random_run(random.Random(seed), style))).encode()


@needs_program
class AgainstExpand(unittest.TestCase):
    style = "boosted"
    rejected_step = staticmethod(rejected_step)

    def check(self, data):
        """Checks the step and the logs of a rejected run. Returns its rule and its criterion, or None."""
        report = read_report(ask(PROGRAM, ["judge"], data))
        if report.verdict != "rejected" or report.step == 0:
            return None
        run = read_run(data)
        step, logs = self.rejected_step(run, report)
        *before, expected = expanded_steps(ask(PROGRAM, ["expand"], data).text.splitlines())
        expected_logs = logs_before(run, first_calls(run), before)
        self.assertEqual({name: step[name] for name in expected}, expected)
        self.assertEqual(list(logs.shared.items()), list(expected_logs.shared.items()))
        self.assertEqual(logs.committed, expected_logs.committed)
        local, expected_local = (found.local.get(step["tx"], {}) for found in (logs, expected_logs))
        self.assertEqual(list(local.items()), list(expected_local.items()))
        return report.rule, report.criterion

    def test_random_runs(self):
        reached = set()
        for seed in range(SEEDS):
            with self.subTest(seed):
                reached.add(self.check(random_text(seed, self.style)))
        self.assertGreater(len(reached), 10)

    def test_examples(self):
        for name in example_names("rejected*.jsonl"):
            data = example(name)
            if read_run(data).style == self.style:
                with self.subTest(name):
                    self.assertIsNotNone(self.check(data))


if __name__ == "__main__":
    unittest.main()
