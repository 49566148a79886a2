"""Tests of the check by the definition: the reports on the pages, the tables of movers, the limits and the faults."""
import itertools
import json
import pathlib
import re
import unittest

from definition import verdict
from definition_input import NO_LIMITS, Limits
from definition_objects import CALLS, KEYED, START, Operation, context, perform, same, swaps

ROOT = pathlib.Path(__file__).resolve().parent.parent
PAGES = (ROOT / "README.md", *sorted((ROOT / "docs").glob("*.md")))
SHOWN = re.compile(r"^ {4}\$ \./pp_cli certify < examples/(\w+\.jsonl)\n((?: {4}.+\n)*)", re.MULTILINE)
CERTIFICATES = ("certificate.jsonl", "refused_certificate.jsonl")
COUNTER = {"run": 1, "style": "rules", "objects": [{"name": "c", "kind": "counter"}]}
BEGIN = {"step": "begin", "tx": "t1", "thread": "p1"}


def shown_reports():
    """The reports on the pages, each with the name of its example."""
    for page in PAGES:
        for name, block in SHOWN.findall(page.read_text(encoding="utf-8")):
            yield name, re.sub("^ {4}", "", block, flags=re.MULTILINE)


def lines(*records):
    return "".join(json.dumps(record) + "\n" for record in records).encode()


def first_line(data, limits=Limits()):
    return verdict(data, limits)[0].partition("\n")[0]


def is_allowed(operations):
    """Whether each operation returns its recorded result, from the empty state of their place on."""
    there = START[operations[0].kind]
    for operation in operations:
        there, result = perform(there, operation)
        if not same(result, operation.result):
            return False
    return True


def operations_of(kind, numbers, results):
    """All operations at one place with these numbers."""
    key = (5,) if kind in KEYED else ()
    for call, (count, form, _) in CALLS[kind].items():
        returned = {"null": (None,), "truth": (False, True), "number": results, "number or null": (None, *results)}[form]
        for args in itertools.product(numbers, repeat=count - len(key)):
            for result in returned:
                yield Operation("o", kind, call, key + args, result)


def reachable(kind, operations):
    """What is at the place after at most three operations with any results."""
    states = {START[kind]}
    for _ in range(3):
        states |= {perform(there, operation)[0] for there in states for operation in operations}
    return states


def swaps_by_definition(a, b, states):
    """Whether b, a is right and leaves the same, wherever a, b is right. Two states are equal if no operations tell them apart."""
    for there in states:
        between, first = perform(there, a)
        end, second = perform(between, b)
        if same(first, a.result) and same(second, b.result):
            between, second = perform(there, b)
            other_end, first = perform(between, a)
            if not (same(first, a.result) and same(second, b.result) and end == other_end):
                return False
    return True


class Pages(unittest.TestCase):
    def test_examples(self):
        reports = list(shown_reports())
        named = {name for name, _ in reports}
        self.assertEqual(named, {file.name for file in (ROOT / "examples").glob("*.jsonl")} - set(CERTIFICATES))
        for name, report in reports:
            with self.subTest(name):
                self.assertEqual(verdict((ROOT / "examples" / name).read_bytes())[0], report)


class Movers(unittest.TestCase):
    def check(self, kind, numbers, results):
        operations = list(operations_of(kind, numbers, results))
        states = reachable(kind, operations)
        for a, b in itertools.product(operations, repeat=2):
            self.assertEqual(swaps(a, b), swaps_by_definition(a, b, states), f"{a} {b}")
            if not swaps(a, b):
                before, after = context(a, b)
                self.assertTrue(is_allowed([*before, a, b, *after]), f"{a} {b}")
                self.assertFalse(is_allowed([*before, b, a, *after]), f"{a} {b}")

    def test_kinds(self):
        for kind in ("mem", "set", "map", "queue", "stack", "prio"):
            with self.subTest(kind):
                self.check(kind, (0, 1, 2), (0, 1, 2))

    def test_counters(self):
        self.check("counter", (-1, 0, 1), range(-2, 3))

    def test_far_counters(self):
        far = 10**18
        self.check("counter", (-far, far), (far, -far))
        a, b = Operation("c", "counter", "add", (-far,), None), Operation("c", "counter", "get", (), far)
        self.assertEqual([str(one) for one in context(a, b)[0]], [f"c.add({far})=none", f"c.add({far})=none"])

    def test_places(self):
        write, read = Operation("m", "mem", "write", (0, 1), None), Operation("m", "mem", "read", (0,), 1)
        self.assertFalse(swaps(write, read))
        self.assertTrue(swaps(write, read._replace(args=(1,))))
        self.assertTrue(swaps(write, read._replace(on="n")))


class Input(unittest.TestCase):
    def test_blank(self):
        self.assertEqual(first_line(b""), "fault line 1 NoHeader")
        self.assertEqual(first_line(b"\n \t\r\n\r"), "fault line 4 NoHeader")
        self.assertEqual(first_line(200_001 * b"\n"), "fault line 200002 NoHeader")
        self.assertEqual(first_line(200_002 * b"\n"), "fault line 200002 TooManyLines")

    def test_lines(self):
        data = lines(COUNTER, BEGIN).replace(b"\n", b"\r\n\n")
        self.assertEqual(first_line(data), "accepted steps 1 committed 0")
        self.assertEqual(first_line(data.rstrip()), "accepted steps 1 committed 0")

    def test_limits(self):
        run = lines(COUNTER, BEGIN, {"step": "note", "tx": "t1"}, {**BEGIN, "tx": "t2", "thread": "p2"})
        longest = max(map(len, run.split(b"\n")))
        for limits, wanted in (
                (Limits(input=len(run)), "accepted steps 3 committed 0"),
                (Limits(input=len(run) - 1), "fault line 4 TooLong"),
                (Limits(lines=3), "fault line 4 TooManyLines"),
                (Limits(lines=3, input=run.rindex(b'{"step"')), "fault line 4 TooLong"),
                (Limits(line=longest), "accepted steps 3 committed 0"),
                (Limits(line=longest - 1), "fault line 1 LineTooLong"),
                (Limits(transactions=1), "fault line 4 TooManyTransactions"),
                (Limits(steps=2), "fault line 4 TooManySteps"),
                (NO_LIMITS, "accepted steps 3 committed 0")):
            with self.subTest(limits):
                self.assertEqual(first_line(run, limits), wanted)

    def test_steps_after_a_rejection(self):
        run = lines(COUNTER, {"step": "cmt", "tx": "t1"}, BEGIN, BEGIN)
        self.assertEqual(first_line(run, Limits(steps=1)), "rejected step 1 line 2 CMT 1")
        self.assertEqual(first_line(run, Limits(transactions=1)), "fault line 4 TooManyTransactions")
        self.assertEqual(first_line(run + b"{"), "fault line 5 NotJson")

    def test_json(self):
        for text in (b"{} {}", b"\xff", b"1e999", b"9" * 400, b"NaN", b"[" * 128 + b"]" * 128, b"[" * 9999, b'{"a":"\n"}', b"01",
                     rb'"\ud800"', rb'"\ud800\u0041"'):
            self.assertEqual(first_line(text), "fault line 1 NotJson", text[:9])
        for text in (b"[]", b"7", b" null\t", b"[" * 127 + b"]" * 127, rb'"\ud83d\ude00"', rb'"\\ud800"'):
            self.assertEqual(first_line(text), "fault line 1 NotObject", text[:9])

    def test_numbers(self):
        for text, wanted in (("-0", "WrongType"), ("1.0", "WrongType"), ("1e0", "WrongType"), ("18446744073709551616", "WrongType"),
                             ("18446744073709551615", "OutOfRange"), ("-1", "OutOfRange"), ("true", "WrongType")):
            self.assertEqual(first_line(f'{{"run":{text}}}'.encode()), f"fault line 1 {wanted}(run)")

    def test_bodies(self):
        call = {"on": "c", "call": "add", "args": [None]}
        deep = call
        for _ in range(16):
            deep = {"star": deep}
        for body, wanted in (
                (deep["star"], "accepted steps 1 committed 0"), (deep, "fault line 2 BodyTooLarge"), (None, "accepted steps 1 committed 0"),
                ({"seq": [call] * 63}, "accepted steps 1 committed 0"), ({"seq": [call] * 64}, "fault line 2 BodyTooLarge"),
                ({"alt": []}, "fault line 2 BodyBad"), ({"skip": True, "star": None}, "fault line 2 BodyBad"),
                ({"seq": [7]}, "fault line 2 BodyBad"), ({**call, "args": [10**19]}, "fault line 2 BodyBad")):
            self.assertEqual(first_line(lines(COUNTER, {**BEGIN, "body": body})), wanted)


if __name__ == "__main__":
    unittest.main()
