"""Tests of recorded_run: the classes that it builds, and what it says of a text that is no run."""
import json
import random
import time
import unittest

from for_tests import example, example_names, run_bytes, start
from random_runs import random_run
from recorded_run import COMMITTED, OPEN, STYLES, UNDONE, UnreadableRun, read_run


def calls_of(run, name):
    return [(call.text, call.line, call.published_line, call.taken_back_line)
            for attempt in run.transactions[name].attempts for call in attempt.calls]


class Classes(unittest.TestCase):
    def test_boosted(self):
        run = read_run(example("boosted_set.jsonl"))
        self.assertEqual((run.style, run.objects, run.start), ("boosted", {"s": "set"}, None))
        first = run.transactions["t1"].attempts[0]
        self.assertEqual((first.thread, first.begin_line, first.end, first.end_step), ("p1", 2, UNDONE, "abort"))
        self.assertEqual(calls_of(run, "t2")[0][1:], (5, 5, None))

    def test_optimistic_publishes_at_the_commit(self):
        run = read_run(example("optimistic_memory.jsonl"))
        self.assertEqual(calls_of(run, "t1")[0], ("m.read(1)=100", 4, 8, None))

    def test_retry_ends_an_attempt_and_begins_the_next(self):
        attempts = read_run(example("optimistic_memory.jsonl")).transactions["t2"].attempts
        found = [(one.number, one.begin_line, one.end, one.end_step, one.end_line) for one in attempts]
        self.assertEqual(found, [(1, 3, UNDONE, "retry", 9), (2, 9, COMMITTED, "commit", 12)])

    def test_start(self):
        run = read_run(example("hardware_fallback.jsonl"))
        attempt = run.start.attempts[0]
        self.assertEqual((run.start.name, attempt.thread, attempt.end, attempt.end_line), ("t0", None, COMMITTED, 1))
        self.assertEqual([call.text for call in attempt.calls], ["m.write(0,10)=none"])

    def test_version_1_ignores_the_start(self):
        header = {**start("t0", "1 m.write(0,5)=none"), "run": 1}
        self.assertIsNone(read_run(run_bytes("rules", "m:mem", [], **header)).start)

    def test_rules_marks(self):
        run = read_run(run_bytes("rules", "m:mem", [
            "begin t p", "app t 1 m.write(0,1)=none", "push t 1", "app t 2 m.read(0)=1", "unapp t 2", "unpush t 1"]))
        self.assertEqual(calls_of(run, "t"), [("m.write(0,1)=none", 3, None, None), ("m.read(0)=1", 5, None, 6)])
        self.assertEqual(run.transactions["t"].attempts[0].end, OPEN)

    def test_hardware_sections(self):
        run = read_run(run_bytes("hardware", "m:mem c:counter", [
            "begin t p", "op t 1 m.read(0)=0", "xbegin t", "op t 2 m.write(0,1)=none", "op t 3 c.add(1)=none", "xend t",
            "xbegin t", "op t 4 m.read(0)=1", "xabort t", "commit t"]))
        found = [(line, published, back) for _, line, published, back in calls_of(run, "t")]
        self.assertEqual(found, [(3, 3, None), (5, 7, None), (6, 6, None), (9, None, 10)])

    def test_dependent_publish(self):
        run = read_run(example("dependent_forward.jsonl"))
        self.assertEqual(calls_of(run, "t1")[0][2], 4)

    def test_record_of_a_transaction_that_is_not_open(self):
        run = read_run(run_bytes("boosted", "c:counter", ["op t 1 c.add(1)=none", "commit t"]))
        attempt = run.transactions["t"].attempts[0]
        self.assertEqual((attempt.begin_line, attempt.end, attempt.end_line), (None, COMMITTED, 3))

    def test_texts(self):
        run = read_run(run_bytes("boosted", "m:mem", ["begin t p", "op t 1 m.cas(0,-1,2)=false"]))
        call = run.calls[0]
        self.assertEqual((call.text, call.place, call.transaction), ("m.cas(0,-1,2)=false", ("m", 0), "t"))

    def test_every_example_is_read(self):
        for name in example_names("*.jsonl"):
            if "certificate" not in name and name != "fault.jsonl":
                with self.subTest(name):
                    run = read_run(example(name))
                    self.assertEqual(len(run.records), len(example(name).splitlines()) - 1)

    def test_random_runs_are_read(self):
        for seed in range(200):
            lines = random_run(random.Random(seed), STYLES[seed % len(STYLES)])
            run = read_run("\n".join(map(json.dumps, lines)))
            self.assertEqual(len(run.records), len(lines) - 1)


class Texts(unittest.TestCase):
    def test_blank_lines_and_returns(self):
        run = read_run(b'\n \t\r\n{"run":1,"style":"rules","objects":[]}\r\n\n{"step":"begin","tx":"t","thread":"p"}')
        self.assertEqual((run.header_line, run.records[0].line), (3, 5))

    def test_last_of_two_members_counts(self):
        run = read_run(b'{"run":1,"style":"rules","style":"boosted","objects":[]}')
        self.assertEqual(run.style, "boosted")

    def test_long_integer_in_a_member_that_nobody_needs(self):
        read_run(b'{"run":1,"style":"rules","objects":[],"more":' + b"1" * 5000 + b"}")

    def test_unreadable(self):
        header = b'{"run":1,"style":"boosted","objects":[{"name":"m","kind":"mem"}]}\n'
        rows = [
            (b"", "line 1: the input has no header"),
            (b"\n\n", "line 1: the input has no header"),
            (b"{", "line 1: not one JSON value"),
            (b"[" * 100000, "line 1: not one JSON value"),
            (b"[]", "line 1: not a JSON object"),
            (b"\xff", "line 1: not UTF-8"),
            (header + b"\n\xc3(", "line 3: not UTF-8"),
            (b"{}", "line 1: the header has no member \"run\" that is 1 or 2"),
            (b'{"run":1,"style":[],"objects":[]}', "line 1: the header's style"),
            (b'{"run":1,"style":"rules","objects":[{"name":"m","kind":[]}]}', "line 1: the object m is of no known kind"),
            (header + b'{"step":"app"}', "line 2: the member \"step\""),
            (header + b'{"step":["op"],"tx":"t"}', "line 2: the member \"step\""),
            (header + b'{"step":"op","tx":{}}', "line 2: the member \"tx\""),
            (header + b'{"step":"op","tx":"t","id":true}', "line 2: the member \"id\""),
            (header + b'{"step":"op","tx":"t","id":1,"on":"x"}', "line 2: the member \"on\""),
            (header + b'{"step":"op","tx":"t","id":1,"on":"m","call":"get"}', "line 2: the member \"call\""),
            (header + b'{"step":"op","tx":"t","id":1,"on":"m","call":"read","args":[1.5]}', "line 2: the member \"args\""),
            (header + b'{"step":"op","tx":"t","id":1,"on":"m","call":"read","args":[1]}', "line 2: the member \"result\""),
            (header + b'{"step":"begin","tx":"t"}', "line 2: the member \"thread\""),
        ]
        for text, message in rows:
            with self.subTest(text[:60]), self.assertRaises(UnreadableRun) as caught:
                read_run(text)
            self.assertTrue(str(caught.exception).startswith(message), caught.exception)

    def test_broken_bytes_raise_nothing_else(self):
        source = random.Random(1)
        data = example("optimistic_memory.jsonl")
        for _ in range(500):
            broken = bytearray(data)
            for _ in range(source.randrange(1, 4)):
                broken[source.randrange(len(broken))] = source.randrange(256)
            try:
                read_run(bytes(broken))
            except UnreadableRun:
                pass

    def test_50_000_lines_in_seconds(self):
        data = run_bytes("boosted", "c:counter", ["begin t p", "op t 1 c.add(1)=none"])
        header, begin, line = data.splitlines()
        began = time.perf_counter()
        read_run(b"\n".join([header, begin] + [line] * 50_000))
        self.assertLess(time.perf_counter() - began, 30)


if __name__ == "__main__":
    unittest.main()
