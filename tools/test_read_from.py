"""Tests of read_from: on random runs its sources are those of the local logs that the program's steps make."""
import json
import random
import unittest

from case import first_calls
from for_tests import PROGRAM, needs_program, run_bytes
from random_runs import random_run
from read_from import sources_of
from recorded_run import STYLES, read_run
from replay import Logs, expanded_steps
from sequential import PUTS, new_place
from verified_program import ask, read_report

RUNS_OF_A_STYLE = 30


def exact_sources(run, steps):
    """The source of each call that the steps make, from the local log before it. It is None if the call finds nothing."""
    logs, exact = Logs(run, first_calls(run)), {}
    for step in steps:
        if step["step"] == "app":
            call = logs.calls[step["id"]]
            place = new_place(call.kind)
            for before in logs.local_calls(step["tx"]):
                if before.place == call.place:
                    place.perform(before)
            exact[call] = None if finds_nothing(call) else found_at(place, call)
        logs.take(step)
    return exact


def finds_nothing(call):
    return call.name in ("write", PUTS.get(call.kind)) or (call.kind == "counter" and call.name == "add")


def found_at(place, call):
    if call.kind in PUTS:
        return place.next_item[1] if place.next_item else None
    return place.left_by


def lines_of(data):
    """The lines of the calls of a run, each with the line of its source."""
    return {call.line: source.line for call, source in sources_of(read_run(data)).items()}


class Sources(unittest.TestCase):
    @needs_program
    def test_random_runs(self):
        for style in STYLES:
            for seed in range(RUNS_OF_A_STYLE):
                with self.subTest(style=style, seed=seed):
                    records = random_run(random.Random(seed), style)
                    self.check("".join(json.dumps(record) + "\n" for record in records).encode())

    def check(self, data):
        report = read_report(ask(PROGRAM, ["certify"], data))
        if report.verdict == "fault" or report.step == 0:
            return
        run = read_run(data)
        steps = expanded_steps(ask(PROGRAM, ["expand"], data).text.splitlines())
        sources = sources_of(run)
        for call, exact in exact_sources(run, steps[:-1] if report.verdict == "rejected" else steps).items():
            found = sources.get(call)
            # of equal values in a queue, a stack or a priority queue it may be unclear which one a call found
            if found is not None or call.kind not in PUTS:
                self.assertIs(found, exact, f"line {call.line}")

    def test_equal_items_are_unclear(self):
        one = ["begin t1 p1", "op t1 1 q.enq(5)=none", "op t1 2 q.deq()=5"]
        two = ["begin t1 p1", "op t1 1 q.enq(5)=none", "op t1 2 q.enq(5)=none", "op t1 3 q.deq()=5", "op t1 4 q.deq()=5"]
        self.assertEqual(lines_of(run_bytes("boosted", "q:queue", one)), {4: 3})
        self.assertEqual(lines_of(run_bytes("boosted", "q:queue", two)), {6: 4})

    def test_one_value_again_and_again(self):
        calls = [f"op t1 {number} s.{'pop()=5' if number % 2 else 'push(5)=none'}" for number in range(400)]
        found = lines_of(run_bytes("boosted", "s:stack", ["begin t1 p1", *calls]))
        self.assertEqual(found, {line: line - 1 for line in range(4, 403, 2)})

    def test_value_of_nobody_has_no_source(self):
        run = ["begin t1 p1", "op t1 1 m.write(0,5)=none", "op t1 2 m.read(0)=6", "op t1 3 m.read(1)=0"]
        self.assertEqual(lines_of(run_bytes("boosted", "m:mem", run)), {})


if __name__ == "__main__":
    unittest.main()
