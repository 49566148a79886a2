"""Tests of why: whom and what it names, for each example, each criterion, each kind and random runs."""
import json
import random
import unittest
from unittest import mock

import why_results
from for_tests import PROGRAM, example, example_names, needs_program, run_bytes, start
from random_runs import random_run
from recorded_run import STYLES
from rule_words import CRITERIA, FAULTS, fault_words
from sequential import new_place
from why import JUDGED, TOO_LONG, why

# The transactions that `why` names for each rejected example.
GUILTY = {
    "rejected_blind_refresh.jsonl": ["t1", "t2"],
    "rejected_body.jsonl": ["t1"],
    "rejected_boosted_lock.jsonl": ["t1", "t2"],
    "rejected_boosted_queue.jsonl": ["t1", "t2"],
    "rejected_boosted_read.jsonl": ["t1", "t2"],
    "rejected_boosted_undo.jsonl": ["t0", "t1", "t2"],
    "rejected_clojure_numbers.jsonl": ["p0_0", "p1_0"],
    "rejected_clojure_skew.jsonl": ["p0_0", "p1_0", "t0"],
    "rejected_clojure_stale.jsonl": ["p0_0", "p1_0", "t0"],
    "rejected_commit_order.jsonl": ["t1", "t2"],
    "rejected_dependent_commit.jsonl": ["t1", "t2"],
    "rejected_dependent_drop.jsonl": ["t1", "t2"],
    "rejected_dirty_read.jsonl": ["t1", "t2"],
    "rejected_hardware_fallback.jsonl": ["t1", "t2"],
    "rejected_haskell_split.jsonl": ["p0_0", "p1_0", "t0"],
    "rejected_lost_update.jsonl": ["t0", "t1", "t2"],
    "rejected_optimistic.jsonl": ["t1", "t2"],
    "rejected_optimistic_refresh.jsonl": ["t1", "t2"],
    "rejected_optimistic_update.jsonl": ["t0", "t1", "t2"],
    "rejected_order.jsonl": ["t1"],
    "rejected_overwrite.jsonl": ["t1", "t2"],
    "rejected_priority.jsonl": ["t1", "t2"],
    "rejected_race.jsonl": ["reader", "writer"],
    "rejected_recorded_boosted.jsonl": ["p0_1", "p1_1"],
    "rejected_recorded_libitm.jsonl": ["p0_1", "p1_1"],
    "rejected_recorded_tl2.jsonl": ["p0_1", "p1_1"],
    "rejected_result.jsonl": ["t1"],
    "rejected_start.jsonl": ["t0"],
    "rejected_ticket.jsonl": ["t1.0", "t2.1"],
    "rejected_undo.jsonl": ["t1"],
    "rejected_write_skew.jsonl": ["t1", "t2"],
}

# For each criterion a run of style rules, and what `why` says of it. The objects are a mem m and a counter c.
WRITE = ("begin t1 p1", "app t1 1 m.write(0,5)=none", "push t1 1")
CRITERION_RUNS = [
    ("BEGIN 1", ["begin t1 p1", "begin t1 p2"], "the name t1 was used on line 2"),
    ("BEGIN 2", ["begin t1 p1", "begin t2 p1"], "t1 is open on thread p1 since line 2, and has no end in this run"),
    ("BEGIN 2", ["begin t1 p1", "begin t2 p1", "cmt t1"], "and ends only on line 4"),
    ("APP 1", ["app t1 1 c.add(1)=none"], "no line of this run begins t1"),
    ("APP 1", ["app t1 1 c.add(1)=none", "begin t1 p1"], "t1 begins only on line 3, after line 2"),
    ("APP 2", ["begin t1 p1", "app t1 1 c.add(1)=none", "app t1 1 c.add(2)=none"],
     "the id 1 is that of c.add(1)=none of t1 (line 3)"),
    ("APP 3", [{"step": "begin", "tx": "t1", "thread": "p1", "body": {"skip": True}}, "app t1 1 c.add(1)=none"],
     'its body is {"skip":true}'),
    ("APP 4", ["begin t1 p1", "app t1 1 m.read(0)=7"], "7 (recorded) was written by no call of this run"),
    ("UNAPP 1", ["unapp t1 1"], "no line of this run begins t1"),
    ("UNAPP 2", ["begin t1 p1", "unapp t1 1"], "no call before line 3 has the id 1"),
    ("UNAPP 2", ["begin t1 p1", "app t1 1 c.add(1)=none", "app t1 2 c.add(1)=none", "unapp t1 1"],
     "whose last entry is c.add(1)=none of t1 (line 4)"),
    ("PUSH 1", ["push t1 1"], "no line of this run begins t1"),
    ("PUSH 2", [*WRITE, "push t1 1"], "entry 1, m.write(0,5)=none of t1 (line 3), is published in the local log of t1"),
    ("PUSH 3", ["begin t1 p1", "app t1 1 m.write(0,1)=none", "app t1 2 m.write(0,2)=none", "push t1 2"],
     "m.read(0) returns 2 and not 1"),
    ("PUSH 4", [*WRITE, "begin t2 p2", "app t2 2 m.write(0,6)=none", "push t2 2"],
     "entry 1 is m.write(0,5)=none of t1 (line 3), which was still open, and never ends"),
    ("PUSH 5", [*WRITE, "cmt t1", "begin t2 p2", "app t2 2 m.read(0)=0", "push t2 2"],
     "5 (right)    was written by t1 on line 3, which committed on line 5"),
    ("UNPUSH 1", ["unpush t1 1"], "no line of this run begins t1"),
    ("UNPUSH 2", ["begin t1 p1", "app t1 1 c.add(1)=none", "unpush t1 1"], "is not published in the local log of t1"),
    ("UNPUSH 3", ["begin t1 p1", "app t1 1 m.write(0,1)=none", "app t1 2 m.write(0,2)=none", "push t1 1", "push t1 2",
                  "unpush t1 1"], "m.read(0) returns 2 and not 1"),
    ("UNPUSH 4", [*WRITE, "app t1 2 m.read(0)=5", "push t1 2", "unpush t1 1"],
     "the step withdraws m.write(0,5)=none of t1 (line 3)"),
    ("PULL 1", ["pull t1 1"], "no line of this run begins t1"),
    ("PULL 2", [*WRITE, "pull t1 1"], "entry 1, m.write(0,5)=none of t1 (line 3), is published in the local log of t1"),
    ("PULL 2", ["begin t1 p1", "app t1 1 c.add(1)=none", "begin t2 p2", "pull t2 1"],
     "is not in the local log of t2, and not in the shared log"),
    ("PULL 3", [*WRITE, "begin t2 p2", "pull t2 1", "pull t2 1"], "is taken over in the local log of t2"),
    ("PULL 4", ["begin t1 p1", "app t1 1 c.add(1)=none", "app t1 2 c.get()=1", "push t1 1", "push t1 2", "begin t2 p2",
                "pull t2 2"],
     "the difference of 1 is c.add(1)=none by t1 itself on line 3 (it is not in the local log of t2)"),
    ("PULL 5", ["begin t1 p1", "app t1 1 c.add(1)=none", "push t1 1", "begin t2 p2", "app t2 2 c.get()=0", "pull t2 1"],
     "c.get() returns 1 and not 0"),
    ("UNPULL 1", ["unpull t1 1"], "no line of this run begins t1"),
    ("UNPULL 2", [*WRITE, "unpull t1 1"], "is published in the local log of t1"),
    ("UNPULL 3", ["begin t1 p1", "app t1 1 c.add(1)=none", "push t1 1", "begin t2 p2", "pull t2 1", "app t2 2 c.get()=1",
                  "unpull t2 1"], "the step gives up c.add(1)=none of t1 (line 3)"),
    ("CMT 1", ["begin t1 p1", "cmt t1", "cmt t1"], "t1 committed on line 3, and is not open on line 4"),
    ("CMT 2", [{"step": "begin", "tx": "t1", "thread": "p1", "body": {"on": "c", "call": "get", "args": []}}, "cmt t1"],
     "the calls of t1 are none"),
    ("CMT 3", ["begin t1 p1", "app t1 1 c.add(1)=none", "cmt t1"],
     "entry 1 is c.add(1)=none of t1 (line 3), which was never published"),
    ("CMT 4", [*WRITE, "begin t2 p2", "pull t2 1", "cmt t2", "quit t1"],
     "entry 1, which t2 took over, is m.write(0,5)=none of t1 (line 3), which was still open, and QUITS on line 8"),
    ("QUIT 1", ["quit t1"], "no line of this run begins t1"),
    ("QUIT 2", ["begin t1 p1", "app t1 1 c.add(1)=none", "quit t1"],
     "entry 1 is c.add(1)=none of t1 (line 3), which t1 did not take back"),
    ("QUIT 2", [*WRITE, "begin t2 p2", "pull t2 1", "quit t2"], "which t2 took over and did not give up"),
    ("NOTE 1", ["note t1"], "no line of this run begins t1"),
]

# For each kind, runs of a style in which a call has a wrong result, and what `why` says of it. The object is o.
KIND_RUNS = [
    ("map", "boosted", ["begin t1 p1", "op t1 1 o.put(1,5)=none", "abort t1", "begin t2 p2", "op t2 2 o.get(1)=5"],
     "5 (recorded) was written by t1 on line 3, which ABORTED on line 4 (it is not in the local log of t2)"),
    ("map", "boosted", ["begin t1 p1", "op t1 1 o.put(1,5)=none", "op t1 2 o.remove(1)=5", "commit t1", "begin t2 p2",
                        "op t2 3 o.put(1,6)=5"], "none (right) was written by t1 on line 4, which committed on line 5"),
    ("map", "boosted", ["begin t1 p1", "op t1 1 o.put(1,5)=none", "commit t1", "begin t2 p2", "op t2 2 o.put(1,6)=5",
                        "abort t2", "begin t3 p3", "op t3 3 o.get(1)=none", "op t3 4 o.remove(1)=5"],
     "undone before it: o.put(1,6)=5 by t2 on line 6, which ABORTED on line 7"),
    ("queue", "boosted", ["begin t1 p1", "op t1 1 o.enq(3)=none", "commit t1", "begin t2 p2", "op t2 2 o.deq()=3",
                          "retry t2", "begin t3 p3", "op t3 3 o.deq()=none"],
     "undone before it: o.deq()=3 by t2 on line 6, which RETRIED on line 7"),
    ("mem", "optimistic", ["begin t1 p1", "op t1 1 o.write(0,3)=none", "op t1 2 o.read(0)=0", "commit t1", "begin t2 p2",
                           "op t2 3 o.write(0,0)=none"], "0 (recorded) is what is there before any call"),
    ("set", "boosted", ["begin t1 p1", "op t1 1 o.add(1)=true", "commit t1", "begin t2 p2", "op t2 2 o.add(1)=true"],
     "present (right)   was left by t1 on line 3, which committed on line 4"),
    ("mem", "optimistic", ["begin t1 p1", "op t1 1 o.write(0,3)=none", "op t1 2 o.read(0)=0", "commit t1"],
     "3 (right)    was written by t1 itself on line 3"),
    ("mem", "optimistic", ["begin t1 p1", "op t1 1 o.read(0)=3", "begin t2 p2", "op t2 2 o.write(0,3)=none"],
     "3 (recorded) was written only later by t2 on line 5, which was still open, and never ends"),
    ("mem", "boosted", ["begin t1 p1", "op t1 1 o.write(0,3)=none", "op t1 2 o.cas(0,3,4)=false"],
     "another number than 3 (recorded) is what is there before any call"),
    ("mem", "hardware", ["begin t1 p1", "xbegin t1", "op t1 1 o.write(0,3)=none", "xabort t1", "op t1 2 o.read(0)=3"],
     "3 (recorded) was written by t1 itself on line 4, which took it back on line 5"),
    ("mem", "boosted", ["begin t1 p1", "op t1 1 o.write(0,3)=none", "retry t1", "op t1 2 o.read(0)=3"],
     "3 (recorded) was written by t1 itself on line 3, which RETRIED on line 4"),
    ("counter", "optimistic", ["begin t1 p1", "begin t2 p2", "op t1 1 o.add(5)=none", "op t2 2 o.get()=0", "commit t1",
                               "commit t2"],
     "0 (recorded) was there before, and 5 (right) after o.add(5)=none by t1 on line 4, which committed on line 6"),
    ("counter", "optimistic", ["begin t1 p1", "op t1 1 o.add(5)=none", "abort t1", "begin t2 p2",
                               "op t2 2 o.fetch_add(1)=5"],
     "the difference of 5 is o.add(5)=none by t1 on line 3, which ABORTED on line 4"),
    ("counter", "optimistic", ["begin t1 p1", "op t1 1 o.add(5)=none", "op t1 2 o.add(7)=none", "abort t1", "begin t2 p2",
                               "op t2 3 o.get()=12"],
     "the difference of 12 is 2 additions, the last by t1 on line 4, which ABORTED on line 5"),
    ("counter", "optimistic", ["begin t1 p1", "op t1 1 o.add(5)=none", "begin t2 p2", "op t2 3 o.get()=1"],
     "not counted: o.add(5)=none by t1 on line 3, which was still open, and never ends"),
    ("queue", "boosted", ["begin t1 p1", "op t1 1 o.enq(3)=none", "op t1 2 o.deq()=3", "commit t1", "begin t2 p2",
                          "op t2 3 o.deq()=3"], "3 (recorded) was taken out by t1 on line 4, which committed on line 5"),
    ("queue", "boosted", ["begin t1 p1", "op t1 1 o.enq(3)=none", "commit t1", "begin t2 p2", "op t2 3 o.deq()=none"],
     "3 (right) was put in by t1 on line 3, which committed on line 4"),
    ("stack", "boosted", ["begin t1 p1", "op t1 1 o.push(4)=none", "abort t1", "begin t2 p2", "op t2 2 o.pop()=4"],
     "4 (recorded) was put in by t1 on line 3, which ABORTED on line 4"),
    ("prio", "boosted", ["begin t1 p1", "op t1 1 o.insert(3)=none", "op t1 2 o.insert(1)=none", "commit t1", "begin t2 p2",
                         "op t2 4 o.least()=3"], "1 (right) was put in by t1 on line 4, which committed on line 5"),
    ("prio", "boosted", ["begin t1 p1", "op t1 1 o.take()=2"], "2 (recorded) was put in by no call of this run"),
]

# A read of a value whose writer had aborted.
STORY = ["begin p0 a", "op p0 1 acct.put(12,420)=none", "commit p0", "begin p1 b", "op p1 2 acct.put(12,468)=420",
         "abort p1", "begin p2 c", "op p2 3 acct.get(12)=468", "commit p2"]
STORY_TEXT = """\
rejected step 15 line 9 APP 4
entry 3 gives 420

REJECTED at line 9, APP 4: a call must return its recorded result in its transaction's local log
  entry 3 is acct.get(12)=468 of p2, which should have returned 420
  468 (recorded) was written by p1 on line 6, which ABORTED on line 7 (it is not in the local log of p2)
  420 (right)    was written by p0 on line 3, which committed on line 4
 line  p0                     p1                    p2
    2  BEGIN
    3  acct.put(12,420)=none
    4  COMMIT
    5                         BEGIN
    6                         acct.put(12,468)=420
    7                         ABORT
    8                                               BEGIN
    9*                                              acct.get(12)=468
   10                                               COMMIT
"""


def checked_call(explained):
    """Asserts that the calls which `why` takes for the log give what the program says that the call gives."""
    place = new_place(explained.call.kind)
    for call in explained.log:
        place.perform(call)
    assert place.perform(explained.call) == explained.gives
    return original_explain_call(explained)


original_explain_call = why_results.WrongResult.explain_call


@needs_program
class Explanations(unittest.TestCase):
    def explained(self, data, what):
        """The explanation of a run that is rejected by a criterion."""
        found = why(PROGRAM, data)
        self.assertIn(what, f"{found.report.rule} {found.report.criterion}", found.text())
        self.assertTrue(found.report.step == 0 or any(row.is_failing for row in found.timeline.rows), found.text())
        return found

    def test_story(self):
        self.assertEqual(why(PROGRAM, run_bytes("boosted", "acct:map", STORY)).text(), STORY_TEXT)

    def test_every_rejected_example(self):
        for name in example_names("rejected*.jsonl"):
            with self.subTest(name):
                found = why(PROGRAM, example(name))
                self.assertEqual(found.report.verdict, "rejected")
                named = sorted(found.timeline.columns())
                self.assertEqual(named, GUILTY.get(name, named))
                for transaction in named:
                    self.assertTrue(any(transaction in line for line in found.lines), transaction)

    def test_every_criterion_of_a_step(self):
        reached = set()
        for criterion, records, sentence in CRITERION_RUNS:
            with self.subTest(criterion, records=records):
                found = self.explained(run_bytes("rules", "m:mem c:counter", records), criterion)
                self.assertIn(sentence, "\n".join(found.lines))
                reached.add((found.report.rule, found.report.criterion))
        self.assertEqual(reached, {criterion for criterion in CRITERIA if criterion[0] != "START"})

    def test_start_1(self):
        data = run_bytes("rules", "c:counter", [], **start("t0", "1 c.add(1)=none", "1 c.add(2)=none"))
        self.assertEqual(self.explained(data, "START 1").lines, ["the id 1 is that of c.add(1)=none, and of c.add(2)=none"])

    def test_name_of_the_start(self):
        data = run_bytes("rules", "c:counter", ["begin t0 p0"], **start("t0", "1 c.add(1)=none"))
        self.assertEqual(self.explained(data, "BEGIN 1").lines, ["the name t0 is that of the start's transaction"])

    def test_every_kind(self):
        for kind, style, records, sentence in KIND_RUNS:
            with self.subTest(kind, records=records):
                found = self.explained(run_bytes(style, f"o:{kind}", records), "")
                self.assertIn(sentence, "\n".join(found.lines))

    def test_members_that_nobody_needs(self):
        odd = {"id": [1], "on": {}, "args": None, "more": {"id": 1}}
        for step in ("note", "cmt", "quit"):
            for records in ([{"step": step, "tx": "t1", **odd}],
                            [{"step": "begin", "tx": "t1", "thread": "p1", **odd}, {"step": step, "tx": "t1", **odd},
                             "app t1 1 m.read(0)=7", "begin t1 p2"]):
                self.assertEqual(why(PROGRAM, run_bytes("rules", "m:mem", records)).report.verdict, "rejected")

    def test_accepted(self):
        found = why(PROGRAM, example("accepted.jsonl"))
        self.assertEqual(found.text().splitlines()[0], "accepted steps 8 committed 2")
        self.assertIn("nothing to explain", found.text())

    def test_random_runs(self):
        with mock.patch.object(why_results.WrongResult, "explain_call", checked_call):
            for seed in range(150):
                lines = random_run(random.Random(seed), STYLES[seed % len(STYLES)])
                found = why(PROGRAM, "\n".join(map(json.dumps, lines)).encode())
                with self.subTest(seed):
                    self.assertTrue(found.text().startswith(found.report.verdict_line + "\n"))
                    self.assertNotIn("a result differs", found.text())

    def test_many_lines_on_one_place_are_cut(self):
        records = ["begin t1 p1"] + [f"op t1 {number} c.add(1)=none" for number in range(200)] + ["op t1 999 c.get()=1"]
        found = why(PROGRAM, run_bytes("boosted", "c:counter", records))
        self.assertLess(len(found.timeline.rows), 60)
        self.assertIn("earlier lines on this place are left out", found.text())


@needs_program
class LongRuns(unittest.TestCase):
    def run_of(self, kind, count, last, *more, style="boosted"):
        """A run of many transactions that has more steps than `certify` takes."""
        records = []
        for number in range(count):
            before = number - 2 if number > 1 else "none"
            calls = {"map": f"o.put({number % 2},{number})={before}", "counter": "o.add(1)=none",
                     "queue": f"o.enq({number})=none"}
            records += [f"begin t{number} p", f"op t{number} {number} {calls[kind]}", f"commit t{number}"]
        return run_bytes(style, f"o:{kind}", [*records, "begin last p", f"op last {count} {last}", *more])

    def test_rejected_on_one_key(self):
        found = why(PROGRAM, self.run_of("map", 1300, "o.get(1)=5"))
        self.assertEqual(found.report.lines, ["rejected step 850852 line 3903 APP 4", "entry 1300 gives 1299"])
        self.assertEqual(found.lines[0], JUDGED)
        text = "\n".join(found.lines)
        self.assertIn("5 (recorded) was written by t5 on line 18, which committed on line 19\n", text)
        self.assertIn("1299 (right) was written by t1299 on line 3900, which committed on line 3901", text)
        self.assertEqual(found.timeline.columns(), ["t5", "t1299", "last"])

    def test_rejected_on_a_queue(self):
        found = why(PROGRAM, self.run_of("queue", 700, "o.deq()=3"))
        self.assertEqual(found.report.verdict_line, "rejected step 248152 line 2103 APP 4")
        self.assertIn("0 (right) was put in by t0 on line 3, which committed on line 4", found.lines)

    def test_rejected_for_an_id_and_for_a_body(self):
        data = self.run_of("counter", 700, "o.get()=700")
        for old, new, criterion, sentence in (
                (b'"id": 700', b'"id": 3', ("APP", 2), "the id 3 is that of o.add(1)=none of t3 (line 12)"),
                (b'"tx": "last", "thread": "p"', b'"tx": "last", "thread": "p", "body": {"skip": true}', ("APP", 3),
                 'its body is {"skip":true}')):
            found = why(PROGRAM, data.replace(old, new))
            self.assertEqual((found.report.line, found.case.criterion), (2103, criterion))
            self.assertIn(sentence, found.lines)

    def test_rejected_at_an_optimistic_commit(self):
        records = ["begin other q", "op other 701 o.add(1)=none", "commit other", "commit last"]
        found = why(PROGRAM, self.run_of("counter", 700, "o.get()=700", *records, style="optimistic"))
        self.assertEqual(found.report.lines, ["rejected step 248857 line 2107 PUSH 5", "entry 700 gives 701"])
        self.assertEqual(found.lines[0], JUDGED)
        self.assertEqual((found.case.entry.text, found.case.transaction), ("o.get()=700", "last"))

    def test_rejected_at_a_call_that_may_not_move(self):
        records = ["begin open q", "op open 9000 o.get()=701"]
        found = why(PROGRAM, self.run_of("counter", 701, "o.get()=701", *records, "op last 9001 o.add(1)=none"))
        self.assertEqual(found.case.criterion, ("PUSH", 4))
        self.assertIn("entry 9000 is o.get()=701 of open (line 2108), which was still open, and never ends", found.lines)

    def test_accepted(self):
        text = why(PROGRAM, self.run_of("counter", 700, "o.get()=700")).text()
        self.assertEqual(text.splitlines()[0], "accepted steps 248153 committed 700")
        self.assertIn(JUDGED, text)

    def test_fault_on_a_later_line(self):
        found = why(PROGRAM, self.run_of("counter", 700, "o.get()=700") + b"{}\n")
        self.assertEqual(found.report.verdict_line, "fault line 2104 Missing(step)")
        self.assertEqual(found.lines, [JUDGED, "line 2104 is {}"])

    def test_rejected_in_a_style_without_a_replay(self):
        """The rule and the line are named. The steps are too many to explain more."""
        found = why(PROGRAM, self.run_of("counter", 700, "o.get()=1", style="hardware"))
        self.assertEqual((found.report.verdict, found.report.is_of_judge, found.case), ("rejected", True, None))
        self.assertIn("REJECTED at line", found.words)
        self.assertEqual((found.lines[0], found.lines[-1]), (JUDGED, TOO_LONG))


@needs_program
class Faults(unittest.TestCase):
    def test_line_is_shown(self):
        found = why(PROGRAM, example("fault.jsonl"))
        self.assertEqual(found.report.verdict_line, "fault line 3 WrongType(args)")
        self.assertIn('"args":[1.5]', found.lines[0])

    def test_bytes_of_a_line_are_made_harmless(self):
        found = why(PROGRAM, b'{"run":1}\x1b[31m\xff')
        self.assertNotIn("\x1b", found.text())

    def test_long_line_is_cut(self):
        found = why(PROGRAM, b"[" * 70_000)
        self.assertIn("LineTooLong", found.words)
        self.assertLess(len(found.text()), 500)

    def test_no_line(self):
        self.assertIn("NoHeader", why(PROGRAM, b"").words)
        self.assertIn("NoHeader", why(PROGRAM, b"\n\n").words)

    def test_certificate(self):
        self.assertIn("`pozhiqas recheck`", why(PROGRAM, example("certificate.jsonl")).lines[-1])

    def test_words(self):
        self.assertEqual(fault_words("Missing(tx)"), 'the member "tx" is missing')
        for cause in FAULTS:
            self.assertNotIn("{}", fault_words(f"{cause}(x)"))

    def test_broken_bytes(self):
        source = random.Random(2)
        for _ in range(60):
            broken = bytearray(example(source.choice(("rejected_ticket.jsonl", "rejected_undo.jsonl"))))
            for _ in range(source.randrange(1, 3)):
                broken[source.randrange(len(broken))] = source.choice(b'0123456789tq"{}[],\n\xff')
            found = why(PROGRAM, bytes(broken))
            self.assertTrue(found.text().startswith(found.report.verdict_line))


if __name__ == "__main__":
    unittest.main()
