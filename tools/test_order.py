"""Tests of order: the order that it finds is certified by the program, and a cycle is named with its values."""
import json
import random
import unittest

from dependencies import Dependencies
from for_tests import PROGRAM, example, needs_program, run_bytes, start
from order import NotTaken, order, search
from random_runs import snapshot_run
from recorded_run import read_run
from sequential import Objects

# Two transactions read what the other one writes. In the first run only one of them does.
SKEW = ["begin t1 p1", "begin t2 p2", "op t1 1 m.read(0)=0", "op t2 2 m.write(0,7)=none", "commit t2",
        "op t1 3 m.write(1,5)=none", "commit t1"]
CYCLE = ["begin t1 p1", "begin t2 p2", "op t1 1 m.read(0)=0", "op t2 2 m.read(1)=0", "op t1 3 m.write(1,5)=none",
         "op t2 4 m.write(0,7)=none", "commit t1", "commit t2"]
# The same for a map and for a set.
MAP_SKEW = ["begin t1 p1", "begin t2 p2", "op t1 1 m.get(0)=none", "op t2 2 m.put(0,7)=none", "commit t2",
            "op t1 3 m.put(1,5)=none", "commit t1"]
SET_SKEW = ["begin t1 p1", "begin t2 p2", "op t1 1 m.contains(0)=false", "op t2 2 m.add(0)=true", "commit t2",
            "op t1 3 m.add(1)=true", "commit t1"]
# The reader finds the key absent, as it was at first and after the second transaction: only the first will do.
CHOICE = ["begin t1 p1", "begin t2 p2", "begin t3 p3", "op t2 1 m.add(0)=true", "commit t2", "op t3 2 m.remove(0)=true",
          "op t3 3 m.add(1)=true", "commit t3", "op t1 4 m.contains(0)=false", "op t1 5 m.contains(1)=false", "commit t1"]


def is_serial(transactions):
    """Whether the objects return every result if these transactions run one after another."""
    objects = Objects()
    return all(objects.perform(call) == call.result for transaction in transactions for call in transaction.calls)


class Searches(unittest.TestCase):
    def found(self, records, kind="mem", style="optimistic"):
        return search(Dependencies(read_run(run_bytes(style, f"m:{kind}", records))))

    def names(self, found):
        return [transaction.name for transaction in found.order]

    def test_skew(self):
        for kind, records in (("mem", SKEW), ("map", MAP_SKEW), ("set", SET_SKEW)):
            found = self.found(records, kind)
            self.assertEqual(self.names(found), ["t1", "t2"])
            self.assertEqual(found.lines, ["t2, which committed on line 6, comes after t1, which committed on line 8"])

    def test_cycle(self):
        found = self.found(CYCLE)
        self.assertIsNone(found.order)
        self.assertEqual(found.lines, [
            "a cycle of 2 transactions:",
            "  t1 before t2: t1 saw m.read(0)=0 (line 4), and t2 overwrote that by m.write(0,7)=none (line 7)",
            "  t2 before t1: t2 saw m.read(1)=0 (line 5), and t1 overwrote that by m.write(1,5)=none (line 6)"])

    def test_lost_update(self):
        found = self.found(["begin t1 p1", "begin t2 p2", "op t1 1 m.read(0)=0", "op t2 2 m.read(0)=0",
                            "op t1 3 m.write(0,1)=none", "op t2 4 m.write(0,2)=none", "commit t1", "commit t2"])
        self.assertEqual([edge.kind for edge in found.cycle], ["wrote before", "overwrote"])

    def test_other_choice_of_an_equal_value(self):
        found = self.found(CHOICE, "set")
        self.assertTrue(is_serial(found.order), self.names(found))
        self.assertEqual(self.names(found)[0], "t1")

    def test_choices_that_all_fail(self):
        records = CHOICE[:-1] + ["op t1 6 m.contains(1)=true", "commit t1"]
        found = self.found(records, "set")
        self.assertEqual(found.lines[0], "no version fits what t1 found: m.contains(1)=false (line 11), m.contains(1)=true "
                         "(line 12)")

    def test_value_that_nobody_left(self):
        found = self.found(["begin t1 p1", "op t1 1 m.read(0)=9", "commit t1"])
        self.assertEqual(found.lines, ["no version fits what t1 found: m.read(0)=9 (line 3)"])

    def test_read_against_real_time(self):
        found = self.found(["begin t1 p1", "op t1 1 m.write(0,7)=none", "commit t1", "begin t2 p1", "op t2 2 m.read(0)=0",
                            "commit t2"])
        self.assertEqual(self.names(found), ["t2", "t1"])
        self.assertIn("1 of 2 transactions come before one that had ended before they began", found.lines)

    def test_long_chain_in_seconds(self):
        records = []
        for number in range(5_000):
            records += [f"begin t{number} p", f"op t{number} {2 * number} m.read(0)={number}",
                        f"op t{number} {2 * number + 1} m.write(0,{number + 1})=none", f"commit t{number}"]
        self.assertEqual(len(self.found(records).order), 5_000)

    def test_equal_values_in_seconds(self):
        records = []
        for number in range(5_000):
            call, result = ("m.remove(0)", "true") if number % 2 else ("m.add(0)", "true")
            records += [f"begin t{number} p", f"op t{number} {number} {call}={result}", f"commit t{number}"]
        self.assertEqual(len(self.found(records, "set").order), 5_000)


@needs_program
class Certified(unittest.TestCase):
    def test_skew_is_certified(self):
        for kind, records in (("mem", SKEW), ("map", MAP_SKEW), ("set", SET_SKEW), ("set", CHOICE)):
            found = order(PROGRAM, run_bytes("optimistic", f"m:{kind}", records))
            self.assertEqual((found.recorded.verdict, found.reordered.verdict), ("rejected", "accepted"))

    def test_boosted(self):
        found = order(PROGRAM, example("rejected_boosted_lock.jsonl"))
        self.assertEqual(found.reordered.verdict_line, "accepted steps 14 committed 2")

    def test_start_and_body_are_kept(self):
        body = {"step": "begin", "tx": "t1", "thread": "p1", "body": {"on": "m", "call": "read", "args": [0]}}
        records = [body, "op t1 1 m.read(0)=3", "commit t1"]
        found = order(PROGRAM, run_bytes("optimistic", "m:mem", records, **start("t0", "9 m.write(0,3)=none")))
        self.assertIn(b'"body"', found.text)
        self.assertEqual(found.reordered.verdict_line, "accepted steps 5 committed 2")

    def test_own_read_is_for_the_program_to_judge(self):
        records = ["begin t1 p1", "op t1 1 m.write(0,3)=none", "op t1 2 m.read(0)=0", "commit t1"]
        found = order(PROGRAM, run_bytes("optimistic", "m:mem", records))
        self.assertEqual(found.reordered.verdict, "rejected")
        self.assertIn("entry 2 gives 3", found.lines())

    def test_every_style(self):
        for name in ("taken_back.jsonl", "boosted_set.jsonl", "optimistic_memory.jsonl", "hardware_fallback.jsonl",
                     "dependent_cascade.jsonl"):
            self.assertEqual(order(PROGRAM, example(name)).reordered.verdict, "accepted")

    def test_commit_without_begin(self):
        found = order(PROGRAM, run_bytes("optimistic", "m:mem", ["op t1 1 m.read(0)=0", "commit t1"]))
        self.assertEqual(found.reordered.verdict, "accepted")

    def test_other_kinds_are_not_taken(self):
        with self.assertRaisesRegex(NotTaken, "line 4 calls a counter"):
            order(PROGRAM, example("accepted.jsonl"))

    def test_fault(self):
        found = order(PROGRAM, example("certificate.jsonl"))
        self.assertEqual((found.lines(), found.found), (["as recorded:", "fault line 1 Missing(run)"], None))

    def test_more_steps_than_certify_takes(self):
        records = []
        for number in range(700):
            records += [f"begin t{number} p", f"op t{number} {number} m.write(0,{number})=none", f"commit t{number}"]
        found = order(PROGRAM, run_bytes("hardware", "m:mem", records))
        self.assertEqual(found.recorded.verdict_line, "accepted steps 247450 committed 700")
        self.assertEqual(found.reordered.verdict_line, "accepted steps 247450 committed 700")

    def test_random_snapshots(self):
        """What is found is a serial run: by the program, and by running the transactions in this order."""
        counts = {"accepted": 0, None: 0}
        for seed in range(80):
            data = "\n".join(map(json.dumps, snapshot_run(random.Random(seed)))).encode()
            found = order(PROGRAM, data)
            if found.found.order is not None:
                self.assertTrue(is_serial(found.found.order), data.decode())
            verdict = found.reordered.verdict if found.reordered else None
            counts[verdict] += 1
        self.assertTrue(all(counts.values()), counts)


if __name__ == "__main__":
    unittest.main()
