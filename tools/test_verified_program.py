"""Tests of verified_program: how the program is found and run, and how its reports are read."""
import os
import pathlib
import tempfile
import unittest

from for_tests import PROGRAM, example, needs_program
from verified_program import (LIMITS_OF_CERTIFY, Answer, NoProgram, ProgramFailed, ask, decide, find_program,
                              operation_members, read_report)


def script(folder, text):
    """An executable file of a shell script."""
    path = pathlib.Path(folder) / "program"
    path.write_text("#!/bin/sh\n" + text)
    path.chmod(0o755)
    return str(path)


class Finding(unittest.TestCase):
    def test_variable_comes_first(self):
        with tempfile.TemporaryDirectory() as folder:
            path = script(folder, "")
            self.assertEqual(find_program({"POZHIQAS": path}, ()), path)

    def test_first_place_that_has_one(self):
        with tempfile.TemporaryDirectory() as folder:
            path = script(folder, "")
            self.assertEqual(find_program({}, (folder, os.path.join(folder, "none"), path)), path)

    def test_nothing(self):
        for environment in ({}, {"POZHIQAS": ""}):
            with self.assertRaisesRegex(NoProgram, "^no built program: .*tools/build_unproved"):
                find_program(environment, ())

    def test_variable_names_no_program(self):
        with tempfile.TemporaryDirectory() as folder, self.assertRaisesRegex(NoProgram, "^POZHIQAS names "):
            find_program({"POZHIQAS": folder}, ())


class Asking(unittest.TestCase):
    def answer(self, text):
        with tempfile.TemporaryDirectory() as folder:
            return read_report(ask(script(folder, text), ["certify"], b"x" * 100_000))

    def test_other_program(self):
        for text in ("exit 0", "echo accepted; exit 0", "echo accepted steps 1 committed 1; exit 1",
                     "echo rejected step 1 line 2 APP 4; exit 0", "exit 77", "echo {}; exit 0"):
            with self.subTest(text), self.assertRaisesRegex(ProgramFailed, "it is not the program"):
                self.answer(text)

    def decided(self, certified, judged):
        """What is decided if `certify` and `judge` print these lines, each with its status before it."""
        arms = "".join(f"{command}) echo {line[2:]}; exit {line[0]};; "
                       for command, line in (("certify", certified), ("judge", judged)))
        with tempfile.TemporaryDirectory() as folder:
            report = decide(script(folder, f"case $1 in {arms} esac"), b"")
            return report.verdict_line, report.is_of_judge

    def test_judge_decides_what_is_too_large_for_certify(self):
        accepted, rejected = "0 accepted steps 9 committed 1", "1 rejected step 1 line 2 APP 4"
        for cause in LIMITS_OF_CERTIFY:
            fault = f"3 fault line 7 {cause}"
            for judged in (accepted, rejected, "3 fault line 9 NotJson"):
                self.assertEqual(self.decided(fault, judged), (judged[2:], True))
            for judged in ("3 fault line 9 NoHeader", fault):
                self.assertEqual(self.decided(fault, judged), (fault[2:], False))
        for certified in (accepted, rejected, "3 fault line 7 NotJson"):
            self.assertEqual(self.decided(certified, "6 none"), (certified[2:], False))

    def test_statuses_that_are_no_answer(self):
        for status in (2, 4, 5, 6, 8):
            with self.subTest(status), self.assertRaises(ProgramFailed) as caught:
                self.answer(f"exit {status}")
            self.assertEqual(caught.exception.status, status)

    def test_signal(self):
        with self.assertRaisesRegex(ProgramFailed, "signal 9"):
            self.answer("kill -9 $$")

    def test_not_of_this_machine(self):
        with tempfile.TemporaryDirectory() as folder, self.assertRaisesRegex(NoProgram, "cannot be run"):
            path = pathlib.Path(folder) / "program"
            path.write_bytes(b"\x7fELF nothing")
            path.chmod(0o755)
            ask(str(path), ["certify"], b"")


class Reports(unittest.TestCase):
    def report(self, text, status):
        return read_report(Answer("certify", text.encode(), status))

    def test_rejected(self):
        report = self.report("rejected step 6 line 7 PUSH 4\nentry 1\nbefore\nafter m.read(0)=6 m.read(1)=7\n", 1)
        self.assertEqual((report.verdict, report.step, report.line, report.rule, report.criterion),
                         ("rejected", 6, 7, "PUSH", 4))
        self.assertEqual(report.evidence.fields(), {"entry": 1, "before": [], "after": ["m.read(0)=6", "m.read(1)=7"]})

    def test_fault(self):
        report = self.report("fault line 3 WrongType(args)\n", 3)
        self.assertEqual((report.verdict, report.line, report.cause, report.evidence), ("fault", 3, "WrongType(args)", None))

    def test_drill(self):
        report = self.report("drill 3\naccepted steps 27 committed 3\nstate m 0=2\n", 0)
        self.assertEqual((report.verdict_line, report.fields["steps"]), ("accepted steps 27 committed 3", 27))

    def test_operation(self):
        self.assertEqual(operation_members("m-1.cas(0,-1,2)=true"),
                         {"on": "m-1", "call": "cas", "args": [0, -1, 2], "result": True})
        self.assertEqual(operation_members("q.x.deq()=none"), {"on": "q.x", "call": "deq", "args": [], "result": None})

    @needs_program
    def test_words_of_the_program_are_kept(self):
        report = read_report(ask(PROGRAM, ["certify"], example("rejected_race.jsonl")))
        self.assertEqual(report.answer.output, b"rejected step 6 line 7 PUSH 4\nentry 1\nbefore\nafter\n")


if __name__ == "__main__":
    unittest.main()
