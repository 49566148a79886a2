"""Tests of the script pozhiqas as it is run: its outputs, its statuses, and what it does with bad input."""
import json
import os
import pathlib
import subprocess
import sys
import tempfile
import unittest

import command_line
from for_tests import EXAMPLES, PROGRAM, TOOLS, example, needs_program, pozhiqas, run_bytes
from test_order import CYCLE, SKEW

COMMANDS = ("certify", "judge", "quick", "expand", "views", "opaque", "swaps", "recheck", "check", "why", "order", "picture")


def path_of(name):
    return EXAMPLES / name


class Temporary(unittest.TestCase):
    """A test with a folder of its own."""

    def setUp(self):
        folder = tempfile.TemporaryDirectory()
        self.addCleanup(folder.cleanup)
        self.folder = pathlib.Path(folder.name)

    def file(self, name, data):
        path = self.folder / name
        path.write_bytes(data)
        return path


@needs_program
class Outputs(Temporary):
    def assert_ran(self, arguments, output, status, stdin=b""):
        self.assertEqual(pozhiqas(*arguments, stdin=stdin), (output, "", status))

    def test_output_and_status_are_the_program_s(self):
        rows = [("certify", "accepted.jsonl"), ("certify", "rejected_race.jsonl"), ("certify", "fault.jsonl"),
                ("judge", "boosted.jsonl"), ("judge", "rejected_boosted_lock.jsonl"), ("quick", "boosted.jsonl"),
                ("expand", "rejected_optimistic.jsonl"), ("views", "zombie_read.jsonl"),
                ("opaque", "boosted.jsonl"), ("opaque", "zombie_read.jsonl"), ("opaque", "rejected_race.jsonl"),
                ("swaps", "accepted.jsonl"), ("recheck", "certificate.jsonl"), ("recheck", "refused_certificate.jsonl")]
        for command, name in rows:
            with self.subTest(command, name=name):
                ran = subprocess.run([PROGRAM, command], input=example(name), capture_output=True, check=False)
                self.assert_ran([command, path_of(name)], ran.stdout.decode(), ran.returncode)
                self.assert_ran([command, "-"], ran.stdout.decode(), ran.returncode, stdin=example(name))

    def test_brief(self):
        self.assert_ran(["certify", "--brief", path_of("accepted.jsonl")], "accepted steps 8 committed 2\nstate c 6\n", 0)
        self.assert_ran(["certify", "--brief", path_of("rejected_race.jsonl")], "rejected step 6 line 7 PUSH 4\n", 1)
        self.assert_ran(["recheck", "--brief", path_of("certificate.jsonl")],
                        "holds operations 2 swaps 1 serial 2\nstate c 6\n", 0)

    def test_drill(self):
        self.assert_ran(["drill", "1", "--brief"], "accepted steps 10 committed 1\nstate m 0=1\nstate c 1\nstate s\n", 0)
        self.assertEqual(pozhiqas("drill", "03"), ("", "pozhiqas: drill takes a number from 1 to 20000\n", 2))

    def test_focus(self):
        lines = example("rejected_write_skew.jsonl").decode().splitlines()
        output, errors, status = pozhiqas("focus", "y", path_of("rejected_write_skew.jsonl"))
        self.assertEqual((errors, status, output.count("\n")), ("", 0, len(lines)))
        for line, printed in zip(lines[1:], output.splitlines()[1:]):
            self.assertEqual(json.loads(printed or "null"), None if '"on":"x"' in line else json.loads(line))
        self.assertEqual(pozhiqas("focus", "y", "-", stdin=b"\n" + example("rejected_write_skew.jsonl")), ("\n" + output, "", 0))
        self.assert_ran(["focus", "x", path_of("fault.jsonl")], "fault line 3 WrongType(args)\n", 3)
        self.assert_ran(["focus", "x", path_of("accepted.jsonl")], "fault line 1 UnknownObject\n", 3)
        self.assertEqual(pozhiqas("focus", "a b", path_of("accepted.jsonl"))[2], 2)

    def test_focus_on_several_files(self):
        files = [path_of("accepted.jsonl"), path_of("rejected_race.jsonl")]
        alone = [pozhiqas("focus", "c", file)[0] for file in files]
        self.assert_ran(["focus", "c", *files], "".join(f"== {file}\n{output}" for file, output in zip(files, alone)), 0)
        self.assert_ran(["focus", "x", *files], "".join(f"== {file}\nfault line 1 UnknownObject\n" for file in files), 3)

    def test_focus_on_a_name_that_begins_with_a_dash(self):
        header = '{{"objects":[{{"kind":"counter","name":"{0}"}}],"run":1,"style":"rules"}}\n'.format
        self.assertEqual(pozhiqas("focus", "--", "-x", "-", stdin=header("-x").encode()), (header("-x"), "", 0))
        self.assertEqual(pozhiqas("focus", "-x", path_of("accepted.jsonl"))[2], 64)
        self.assertIn("write -- before a name", " ".join(pozhiqas("focus", "--help")[0].split()))

    def test_several_files(self):
        output, errors, status = pozhiqas("certify", "--brief", path_of("accepted.jsonl"), self.folder / "none",
                                          path_of("rejected_race.jsonl"))
        self.assertEqual(output, f"== {path_of('accepted.jsonl')}\naccepted steps 8 committed 2\nstate c 6\n"
                         f"== {path_of('rejected_race.jsonl')}\nrejected step 6 line 7 PUSH 4\n")
        self.assertEqual((errors, status), (f"pozhiqas: {self.folder / 'none'}: No such file or directory\n", 66))

    def test_name_that_looks_like_a_verdict(self):
        path = self.file("x\naccepted steps 1 committed 1", example("rejected_race.jsonl"))
        output, errors, status = pozhiqas("certify", "--brief", path, path)
        self.assertEqual(output, f"== {self.folder}/x\\naccepted steps 1 committed 1\nrejected step 6 line 7 PUSH 4\n" * 2)
        self.assertEqual((errors, status), ("", 1))

    def test_why(self):
        output, _, status = pozhiqas("why", path_of("rejected_optimistic.jsonl"))
        self.assertTrue(output.startswith("rejected step 7 line 7 PUSH 5\nentry 1 gives 1\n\nREJECTED at line 7, PUSH 5: "))
        self.assertEqual(status, 1)
        self.assertEqual([pozhiqas("why", path_of(name))[2] for name in ("accepted.jsonl", "fault.jsonl")], [0, 3])

    def test_order_writes_the_run_that_the_program_accepts(self):
        path, out = self.file("skew.jsonl", run_bytes("optimistic", "m:mem", SKEW)), self.folder / "serial.jsonl"
        output, _, status = pozhiqas("order", path, "--output", out)
        self.assertEqual(status, 0)
        self.assertEqual(output, "as recorded:\nrejected step 8 line 8 PUSH 5\nentry 1 gives 7\nreordered:\n"
                         "accepted steps 12 committed 2\n\n"
                         "t2, which committed on line 6, comes after t1, which committed on line 8\n")
        self.assertEqual(pozhiqas("certify", "--brief", out)[0], "accepted steps 12 committed 2\nstate m 0=7 1=5\n")

    def test_order_of_a_cycle(self):
        path, out = self.file("cycle.jsonl", run_bytes("optimistic", "m:mem", CYCLE)), self.folder / "serial.jsonl"
        output, _, status = pozhiqas("order", path, "--output", out)
        self.assertEqual(status, 71)
        self.assertIn("t1 before t2: t1 saw m.read(0)=0 (line 4), and t2 overwrote that by m.write(0,7)=none", output)
        self.assertFalse(out.exists())

    def test_order_of_another_kind(self):
        output, errors, status = pozhiqas("order", path_of("accepted.jsonl"))
        self.assertEqual((output, status), ("", 72))
        self.assertIn("line 4 calls a counter", errors)

    def test_help(self):
        for arguments in ([], *([command] for command in (*COMMANDS, "drill", "focus"))):
            output, errors, status = pozhiqas(*arguments, "--help", program=None)
            self.assertEqual((output[:16], errors, status), ("usage: pozhiqas ", "", 0))


@needs_program
class Json(Temporary):
    def fields(self, *arguments, status=0):
        output, errors, found = pozhiqas(*arguments, "--json")
        self.assertEqual((errors, found, output.count("\n")), ("", status, 1))
        return json.loads(output)

    def test_accepted(self):
        name = str(path_of("accepted.jsonl"))
        self.assertEqual(self.fields("certify", name), {
            "file": name, "command": "certify", "status": 0, "verdict": "accepted",
            "verdict_line": "accepted steps 8 committed 2", "steps": 8, "committed": 2,
            "transactions": [{"name": "t2", "operations": [{"id": 2, "operation": "c.add(5)=none"}]},
                             {"name": "t1", "operations": [{"id": 1, "operation": "c.add(1)=none"}]}],
            "states": {"c": ["6"]}})

    def test_rejected(self):
        fields = self.fields("certify", path_of("rejected_undo.jsonl"), status=1)
        self.assertEqual({name: fields[name] for name in ("verdict", "step", "line", "rule", "criterion", "evidence")}, {
            "verdict": "rejected", "step": 6, "line": 7, "rule": "UNPUSH", "criterion": 3,
            "evidence": {"entry": 2, "before": [], "after": ["m.read(0)=1"]}})
        fields = self.fields("certify", path_of("rejected_result.jsonl"), status=1)
        self.assertEqual(fields["evidence"], {"entry": 1, "gives": "0"})

    def test_fault(self):
        fields = self.fields("certify", path_of("fault.jsonl"), status=3)
        self.assertEqual((fields["verdict"], fields["line"], fields["cause"]), ("fault", 3, "WrongType(args)"))

    def test_other_commands(self):
        views = self.fields("views", path_of("zombie_read.jsonl"))["views"]
        self.assertEqual(views[1], {"transaction": "t1", "operations": 2, "after": None})
        self.assertEqual(self.fields("opaque", path_of("boosted.jsonl"))["verdict"], "opaque")
        zombie = self.fields("opaque", path_of("zombie_read.jsonl"), status=1)
        self.assertEqual([zombie[name] for name in ("verdict", "step", "line", "transaction", "from", "to")], ["zombie", 10, 8, "t1", 0, 1])
        self.assertEqual(zombie["operations"][1], {"id": 4, "operation": "y.read(0)=1"})
        self.assertEqual(len(self.fields("swaps", path_of("accepted.jsonl"))["printed"]), 5)
        self.assertEqual(len(self.fields("expand", path_of("rejected_race.jsonl"), status=1)["printed"]), 7)
        self.assertEqual(self.fields("quick", path_of("boosted.jsonl"))["records"], 11)
        self.assertEqual(self.fields("quick", path_of("rejected_boosted_queue.jsonl"), status=1)["line"], 10)
        self.assertEqual(self.fields("recheck", path_of("certificate.jsonl"))["serial_run"][0],
                         {"id": 2, "operation": "c.add(5)=none"})
        self.assertEqual(self.fields("recheck", path_of("refused_certificate.jsonl"), status=1)["reason"], "pair 1 2")
        self.assertEqual(self.fields("drill", "2")["states"]["m"], ["0=1"])

    def test_why(self):
        fields = self.fields("why", path_of("rejected_optimistic.jsonl"), status=1)
        self.assertEqual((fields["command"], fields["verdict_line"]), ("why", "rejected step 7 line 7 PUSH 5"))
        self.assertEqual([row["line"] for row in fields["timeline"] if row["failing"]], [7])
        self.assertEqual(len(fields["explanation"]), 3)

    def test_order(self):
        skew = self.file("skew.jsonl", run_bytes("optimistic", "m:mem", SKEW))
        fields = self.fields("order", skew)
        self.assertEqual((fields["recorded"]["verdict"], fields["reordered"]["verdict"], fields["order"]),
                         ("rejected", "accepted", ["t1", "t2"]))
        cycle = self.file("cycle.jsonl", run_bytes("optimistic", "m:mem", CYCLE))
        fields = self.fields("order", cycle, status=71)
        self.assertEqual([(edge["before"], edge["after"]) for edge in fields["cycle"]], [("t1", "t2"), ("t2", "t1")])


@needs_program
class BadInputs(Temporary):
    def assert_problem(self, arguments, words, status, **given):
        output, errors, found = pozhiqas(*arguments, **given)
        self.assertEqual((output, found, errors.count("\n")), ("", status, 1), errors)
        self.assertTrue(errors.startswith("pozhiqas: ") and words in errors, errors)

    def test_missing_file(self):
        for command in COMMANDS:
            self.assert_problem([command, self.folder / "none"], "No such file or directory", 66)

    def test_folder(self):
        self.assert_problem(["certify", self.folder], "Is a directory", 66)
        self.assert_problem(["why", self.folder], "Is a directory", 66)

    def test_name_of_other_bytes(self):
        self.assert_problem(["certify", os.fsdecode(b"\xff\n")], "No such file", 66)

    def test_standard_input_twice(self):
        self.assert_problem(["certify", "-", "-"], "only once", 64)

    def test_arguments(self):
        for arguments in ([], ["judge"], ["certify"], ["certify", "--bogus", "x"], ["drill"], ["order", "a", "b"], ["focus", "a"],
                          ["expand", "--brief", "x"]):
            with self.subTest(arguments):
                self.assert_problem(arguments, "(pozhiqas --help)", 64)

    def test_empty_and_broken_input_is_the_program_s_to_name(self):
        rows = [(b"", "fault line 1 NoHeader\n"), (b"\xff\xfe", "fault line 1 NotJson\n"),
                (b"[" * 65_537, "fault line 1 LineTooLong\n"), (b"\n" * 200_002, "fault line 200002 TooManyLines\n")]
        for data, line in rows:
            with self.subTest(line):
                self.assertEqual(pozhiqas("certify", "-", stdin=data), (line, "", 3))
                output, errors, status = pozhiqas("why", "-", stdin=data)
                self.assertEqual((output[:len(line)], errors, status), (line, "", 3))
                self.assertEqual(pozhiqas("order", "-", stdin=data), ("as recorded:\n" + line, "", 3))

    def test_output_that_cannot_be_written(self):
        path = self.file("skew.jsonl", run_bytes("optimistic", "m:mem", SKEW))
        self.assert_problem(["order", path, "--output", self.folder / "none" / "out"], "No such file or directory", 74)
        with open("/dev/full", "wb") as full:
            ran = subprocess.run([sys.executable, TOOLS / "pozhiqas", "certify", path_of("accepted.jsonl")], stdout=full,
                                 stderr=subprocess.PIPE, env={**os.environ, "POZHIQAS": PROGRAM}, check=False)
        self.assertEqual((ran.returncode, ran.stderr), (74, b"pozhiqas: standard output: No space left on device\n"))

    def test_closed_outputs(self):
        script = f"'{sys.executable}' '{TOOLS / 'pozhiqas'}' certify '{path_of('accepted.jsonl')}'"
        for redirected, errors, status in ((">&-", b"pozhiqas: standard output is closed\n", 74), ("/none 2>&-", b"", 66)):
            ran = subprocess.run(["bash", "-c", f"{script} {redirected}"], stdout=subprocess.DEVNULL, stderr=subprocess.PIPE,
                                 env={**os.environ, "POZHIQAS": PROGRAM}, check=False)
            self.assertEqual((ran.stderr, ran.returncode), (errors, status))

    def test_reader_that_goes_away(self):
        script = f"'{sys.executable}' '{TOOLS / 'pozhiqas'}' certify '{path_of('accepted.jsonl')}'"
        ran = subprocess.run(["bash", "-c", f"{script} | true; echo ${{PIPESTATUS[0]}}"], capture_output=True,
                             env={**os.environ, "POZHIQAS": PROGRAM}, check=False)
        self.assertEqual(ran.stderr, b"")
        self.assertIn(ran.stdout, (b"0\n", b"74\n"))


class WithoutProgram(Temporary):
    def program(self, text):
        path = self.folder / "program"
        path.write_text("#!/bin/sh\n" + text)
        path.chmod(0o755)
        return path

    def test_none(self):
        for command in COMMANDS:
            output, errors, status = pozhiqas(command, path_of("accepted.jsonl"), program=self.folder / "none")
            self.assertEqual((output, status), ("", 69))
            self.assertRegex(errors, r"^pozhiqas: POZHIQAS names .*/none, which is no program that can be run\n$")

    def test_another_program_prints_no_verdict(self):
        rows = [("exit 0", command) for command in COMMANDS]
        rows += [(text, "certify") for text in ("echo hello", "echo accepted steps 1 committed 1; exit 1", "exit 1")]
        for text, command in rows:
            output, errors, status = pozhiqas(command, path_of("accepted.jsonl"), program=self.program(text))
            self.assertEqual((output, errors, status),
                             ("", "pozhiqas: what was run printed no verdict: it is not the program\n", 70))

    def test_failure_of_the_script_has_not_the_status_of_a_rejection(self):
        other = self.program("echo rejected step 1 line 2 NONE 9; exit 1")
        for command in ("why", "picture"):
            output, errors, status = pozhiqas(command, path_of("rejected_race.jsonl"), program=other)
            self.assertEqual((output, status, errors.count("\n")), ("", 73, 1))
            self.assertTrue(errors.startswith("pozhiqas: the script failed: KeyError"))

    def test_statuses_of_the_program_that_are_no_answer(self):
        for status in (2, 4, 5, 6, 8):
            output, errors, found = pozhiqas("certify", path_of("accepted.jsonl"), program=self.program(f"exit {status}"))
            self.assertEqual((output, found, errors.count("\n")), ("", status, 1))

    def test_signal(self):
        output, errors, status = pozhiqas("certify", path_of("accepted.jsonl"), program=self.program("kill -9 $$"))
        self.assertEqual((output, errors, status), ("", "pozhiqas: the program was ended by signal 9\n", 70))


class Statuses(unittest.TestCase):
    def test_no_status_is_one_of_the_program(self):
        statuses = [command_line.USAGE, command_line.UNREADABLE, command_line.NO_FILE, command_line.NO_PROGRAM,
                    command_line.NO_ANSWER, command_line.NO_ORDER, command_line.NOT_TAKEN, command_line.FAILED,
                    command_line.NO_OUTPUT]
        self.assertEqual(len(set(statuses)), len(statuses))
        self.assertTrue(all(status >= 64 for status in statuses))
        for status in statuses:
            self.assertIn(str(status), command_line.STATUS_TEXT)


if __name__ == "__main__":
    unittest.main()
