"""Tests of `check`: the parts of a run, and the verdict that they make, against that of `judge` on the whole."""
import json
import random
import tempfile
import unittest

import local_parts
from check import check, repeated_in
from for_tests import EXAMPLES, PROGRAM, needs_program, pozhiqas, record, run_bytes, start
from local_parts import ByIds, ByObject, members_of, read_header
from random_runs import KINDS, Maker
from test_command_line import Temporary
from verified_program import ask

BEGIN = ["begin t1 p1", "begin t2 p2"]
ACCEPTED = [*BEGIN, "op t1 1 a.add(5)=none", "op t2 2 b.write(0,1)=none", "commit t1", "op t2 3 a.get()=5", "commit t2"]
OBJECTS = "a:counter b:mem"
LONG_BLANK = b" " * 60_000 + b"\n"


def checked(data, jobs=256):
    """What `check` prints, and its status."""
    with tempfile.TemporaryFile() as file:
        file.write(data)
        file.seek(0)
        result = check(PROGRAM, file, jobs)
    return result.output.decode(), result.status


def expected(judged):
    """What `check` has to print of a run that has parts before the line `local`, by what `judge` prints of it."""
    first, end, others = judged.partition("\n")
    words = first.split()
    if words[0] == "accepted":
        return "accepted\n"
    return f"rejected {' '.join(words[3:])}{end}{others}" if words[0] == "rejected" else judged


class Parts(unittest.TestCase):
    def split(self, data, groups):
        """The parts as lists of lines, and what was found."""
        header = read_header(data)
        split = ByObject(header, groups)
        pieces = split.pieces(data[len(header.data):])
        whole = [first + text for first, text in zip(split.first_lines(), pieces.texts)]
        return [text.decode().split("\n") for text in whole], pieces

    def test_each_line_keeps_its_number(self):
        data = b"\n \n" + run_bytes("boosted", OBJECTS, ACCEPTED)
        lines = data.decode().split("\n")
        parts, pieces = self.split(data, [["a"], ["b"]])
        for name, part in zip("ab", parts):
            other = f'"on": "{"b" if name == "a" else "a"}"'
            self.assertEqual(part, ["" if other in line else line for line in lines])
        self.assertEqual((list(pieces.ids), pieces.has_unreadable), ([1, 2, 3], False))

    def test_start(self):
        data = run_bytes("boosted", OBJECTS, [], **start("t0", "7 a.add(1)=none", "8 b.write(1,1)=none", "9 a.get()=1"))
        parts, _ = self.split(data, [["a"], ["b"]])
        headers = [json.loads(part[0]) for part in parts]
        self.assertEqual([[item["id"] for item in header["start"]["ops"]] for header in headers], [[7, 9], [8]])
        self.assertEqual([len(header["objects"]) for header in headers], [2, 2])

    def test_lines_that_the_pattern_does_not_take(self):
        """However an operation is written, it is only in the part of its object."""
        members = record("op t1 12 b.read(0)=0")
        turned = dict(reversed(members.items()))
        lines = [json.dumps(members), json.dumps(members, separators=(",", ":")), json.dumps(turned), json.dumps(members) + "\r",
                 "\t" + json.dumps(members, indent=1).replace("\n", " "), json.dumps(members).replace('"on"', '"\\u006fn"'),
                 json.dumps(members).replace('"b"', '"\\u0062"'), '{"on":"a",' + json.dumps(members)[1:],
                 json.dumps({"other": {"on": "a"}, **members}), json.dumps(members).replace("}", ',"on":"a","on":"b"}'),
                 '{"step":"commit",' + json.dumps(members)[1:]]
        for line in lines:
            with self.subTest(line):
                parts, pieces = self.split(run_bytes("boosted", OBJECTS, []) + line.encode(), [["a"], ["b"]])
                self.assertEqual([part[1] for part in parts], ["", line])
                self.assertEqual((list(pieces.ids), pieces.has_unreadable), ([12], False))

    def test_lines_that_are_no_records(self):
        """They are in every part: the program has to find their faults."""
        good = json.dumps(record("op t1 12 b.read(0)=0"))
        for line in ("x", "{", "[]", '"on"', good.replace('"b"', '"z"'), good.replace('"on"', '"no"'), good.replace('"b"', "1"), "\ufeff" + good):
            with self.subTest(line):
                parts, pieces = self.split(run_bytes("boosted", OBJECTS, []) + line.encode(), [["a"], ["b"]])
                self.assertEqual([part[1] for part in parts], [line, line])
                self.assertTrue(pieces.has_unreadable)

    def test_pattern_takes_what_has_one_meaning(self):
        """A line that the pattern takes is JSON with these members, or no JSON at all."""
        pieces = ['{"step":"op"', '{"step":"begin"', '"tx":"t"', '"id":1', '"on":"a"', '"call":"get"', '"args":[]', '"result":5', '"thread":"p"',
                  '"on":"b"', '"result":[]', '"result":-', "}", "} ", '"id":{}}']
        chosen, taken = random.Random(1), 0
        usual = ['{"step":"op"', '"tx":"t"', '"id":1', '"on":"a"', '"call":"get"', '"args":[]', '"result":5']
        for _ in range(4000):
            line = [piece if chosen.random() < .9 else chosen.choice(pieces) for piece in usual]
            text = ",".join(line).encode() + b"}"
            (number, name, _), members = local_parts.read_lines(text)[0], members_of(text)
            if name and members is not None:
                self.assertEqual((members["step"], members["on"], members["id"]), ("op", name.decode(), int(number)))
                taken += 1
        self.assertGreater(taken, 500)

    def test_bookkeeping_of_repeated_ids(self):
        data = run_bytes("optimistic", OBJECTS, ["begin t1 p1", "op t1 1 a.get()=0", "op t1 2 a.get()=0", "refresh t1 a", "op t1 1 b.read(0)=0"])
        header = read_header(data)
        split = ByIds(header, {1})
        self.assertEqual(json.loads(split.first_lines()[0])["objects"], [{"name": "c", "kind": "counter"}])
        lines = split.pieces(data[len(header.data):]).texts[0].decode().split("\n")
        self.assertEqual([bool(line) for line in lines], [True, True, False, False, True, False])
        self.assertEqual(json.loads(lines[4]), {**record("op t1 1 c.add(0)=none")})

    def test_repeated(self):
        self.assertEqual(repeated_in([]), set())
        self.assertEqual(repeated_in([1, 2, 9]), set())
        self.assertEqual(repeated_in([3, 1, 2]), set())
        self.assertEqual(repeated_in([3, 1, 3, 2, 2, 2]), {2, 3})


@needs_program
class Verdicts(Temporary):
    def assert_printed(self, objects, records, *lines, status=1, **header):
        data = run_bytes("boosted", objects, records, **header)
        self.assertEqual(checked(data), ("".join(line + "\n" for line in lines), status))
        if not any(line.startswith("judged whole") for line in lines):
            judged = ask(PROGRAM, ["judge"], data)
            self.assertEqual(judged.status, status)
            self.assertTrue(checked(data)[0].startswith(expected(judged.text)))

    def test_accepted(self):
        self.assert_printed(OBJECTS, ACCEPTED, "accepted", "local: 2 parts", status=0)
        self.assert_printed("a:counter b:mem q:queue", ACCEPTED, "accepted", "local: 3 parts", status=0)

    def test_rejected_at_one_object(self):
        records = [*ACCEPTED[:5], "op t2 3 a.get()=6", "commit t2", "begin t3 p1", "op t3 4 b.read(0)=7"]
        self.assert_printed(OBJECTS, records, "rejected line 7 APP 4", "entry 3 gives 5", "local: 2 parts", "rejected: the object a")
        records = [*BEGIN, "op t1 1 a.add(5)=none", "op t2 2 b.write(0,1)=none", "op t1 3 b.write(0,2)=none"]
        self.assert_printed(OBJECTS, records, "rejected line 6 PUSH 4", "entry 2", "before", "after b.read(0)=2", "local: 2 parts",
                            "rejected: the object b")

    def test_object_of_a_part_with_several(self):
        """An operation and a step of a start are on one object, though its part has others."""
        names = [f"m{number}" for number in range(9)]
        objects = " ".join(f"{name}:mem" for name in names)
        for name in names:
            data = run_bytes("boosted", objects, ["begin t1 p1", f"op t1 1 {name}.read(0)=7"])
            self.assertEqual(checked(data, 2)[0], f"rejected line 3 APP 4\nentry 1 gives 0\nlocal: 2 parts\nrejected: the object {name}\n")
            calls = [f"{number} {other}.read(0)={9 * (other == name)}" for number, other in enumerate(names)]
            data = run_bytes("boosted", objects, [], **start("t0", *calls), step="op", on="m0")
            self.assertEqual(checked(data, 2)[0],
                             f"rejected line 1 START 2\nentry {name[1]} gives 0\nlocal: 2 parts\nrejected: the object {name}\n")

    def test_object_of_a_commit(self):
        for name in ("m1", "m4"):
            records = ["begin t1 p1", *(f"op t1 {number} m{number}.read(0)=0" for number in range(6)), "begin t2 p2", f"op t2 9 {name}.write(0,1)=none",
                       "commit t2", "commit t1"]
            data = run_bytes("optimistic", " ".join(f"m{number}:mem" for number in range(6)), records)
            self.assertEqual(checked(data, 2)[0],
                             f"rejected line 12 PUSH 5\nentry {name[1]} gives 1\nlocal: 2 parts\nrejected: the object {name}\n")

    def test_rejected_in_the_bookkeeping(self):
        last = "local: 2 parts", "rejected: the bookkeeping"
        self.assert_printed(OBJECTS, [*BEGIN, "op t1 1 a.get()=0", "op t2 1 b.read(0)=0"], "rejected line 5 APP 2", *last)
        self.assert_printed(OBJECTS, [*BEGIN, "op t1 1 a.get()=0", "op t2 1 b.read(0)=9"], "rejected line 5 APP 2", *last)
        self.assert_printed(OBJECTS, [*ACCEPTED, "begin t3 p1", "begin t4 p1"], "rejected line 10 BEGIN 2", *last)
        self.assert_printed(OBJECTS, [*ACCEPTED, "begin t1 p1"], "rejected line 9 BEGIN 1", *last)
        self.assert_printed(OBJECTS, [*ACCEPTED, "op t1 4 b.read(0)=1"], "rejected line 9 APP 1", *last)
        self.assert_printed(OBJECTS, [*ACCEPTED, "commit t1"], "rejected line 9 CMT 1", *last)

    def test_first_rejection_counts(self):
        """An id that was used, on a line before and after one on which a part is rejected."""
        used, wrong = "op t2 1 b.read(0)=0", "op t1 3 a.get()=9"
        begun = [*BEGIN, "op t1 1 a.get()=0"]
        self.assert_printed(OBJECTS, [*begun, used, wrong], "rejected line 5 APP 2", "local: 2 parts", "rejected: the bookkeeping")
        self.assert_printed(OBJECTS, [*begun, wrong, used], "rejected line 5 APP 4", "entry 3 gives 0", "local: 2 parts",
                            "rejected: the object a")

    def test_used_id_after_a_pull_that_is_rejected(self):
        """The pull is a step before the application."""
        records = [*BEGIN, "op t1 1 a.get()=0", "op t2 2 b.read(0)=0", "begin t3 p3", "op t3 3 a.add(4)=none", "commit t3", "op t1 2 a.get()=0"]
        data = run_bytes("boosted", OBJECTS, records)
        judged = ask(PROGRAM, ["judge"], data).text
        self.assertTrue(checked(data)[0].startswith(expected(judged)))

    def test_start(self):
        bad = start("t0", "1 b.write(0,1)=none", "2 a.get()=7", "3 b.read(0)=9")
        self.assert_printed(OBJECTS, [], "rejected line 1 START 2", "entry 2 gives 0", "local: 2 parts", "rejected: the object a", **bad)
        bad = start("t0", "1 b.write(0,1)=none", "2 b.read(0)=7", "3 a.get()=9")
        self.assert_printed(OBJECTS, [], "rejected line 1 START 2", "entry 2 gives 1", "local: 2 parts", "rejected: the object b", **bad)
        bad = start("t0", "1 b.write(0,1)=none", "1 a.get()=7", "2 a.get()=0", "2 a.get()=0")
        self.assert_printed(OBJECTS, [], "rejected line 1 START 1", "entry 1", "local: 2 parts", "rejected: the bookkeeping", **bad)
        good = start("t0", "1 b.write(0,1)=none", "2 a.get()=0")
        self.assert_printed(OBJECTS, ["begin t1 p1", "op t1 3 b.read(0)=1"], "accepted", "local: 2 parts", status=0, **good)
        self.assert_printed(OBJECTS, ["begin t1 p1", "op t1 2 b.read(0)=1"], "rejected line 3 APP 2", "local: 2 parts",
                            "rejected: the bookkeeping", **good)

    def test_fault(self):
        """A fault counts, even after a rejection; of two faults the first."""
        fault = {"step": "commit"}
        self.assert_printed(OBJECTS, [*ACCEPTED, fault], "fault line 9 Missing(tx)", status=3)
        self.assert_printed(OBJECTS, ["commit t1", "begin t1 p1", "op t1 1 b.get()=0", "op t1 2 a.read(0)=0"], "fault line 4 UnknownCall", status=3)
        self.assert_printed(OBJECTS, ["op t1 1 z.get()=0", fault], "fault line 2 UnknownObject", status=3)
        self.assert_printed("a:mem a:mem", [], "fault line 1 RepeatedObject", status=3)
        for data in (b"", b"\n \n", b"x\n", b"[" * 70_000, LONG_BLANK * 80):
            judged = ask(PROGRAM, ["judge"], data)
            self.assertEqual(checked(data), (judged.text, 3))

    def test_judged_whole(self):
        rows = [("boosted", OBJECTS, [{**record("begin t1 p1"), "body": {"skip": True}}], "a begin has a body"),
                ("boosted", OBJECTS, [{"\u0062ody": {"skip": True}, **record("begin t1 p1")}], "a begin has a body"),
                ("rules", OBJECTS, ["begin t1 p1"], "style rules"), ("boosted", "a:mem", ["begin t1 p1"], "there is one part")]
        for style, objects, records, why in rows:
            self.assertEqual(checked(run_bytes(style, objects, records))[0].splitlines()[-1], f"judged whole: {why}")
        self.assertEqual(checked(run_bytes("boosted", OBJECTS, ACCEPTED), jobs=1)[0].splitlines()[-1], "judged whole: there is one part")
        self.assertEqual(checked(run_bytes("boosted", OBJECTS, [{**record("begin t1 p1"), "body": None}]))[0], "accepted\nlocal: 2 parts\n")

    def test_body_after_many_lines(self):
        many = run_bytes("boosted", OBJECTS, []) + LONG_BLANK * 250
        data = many + json.dumps({**record("begin t1 p1"), "body": {"skip": True}}).encode()
        self.assertEqual(checked(data)[0], "accepted steps 1 committed 0\nstate a 0\nstate b\njudged whole: a begin has a body\n")

    def test_command(self):
        path = self.file("run.jsonl", run_bytes("boosted", OBJECTS, ACCEPTED))
        self.assertEqual(pozhiqas("check", "--jobs", "2", path), ("accepted\nlocal: 2 parts\n", "", 0))
        self.assertEqual(pozhiqas("check", "--jobs", "9", "-", stdin=path.read_bytes()), ("accepted\nlocal: 2 parts\n", "", 0))
        self.assertEqual(pozhiqas("check", path)[1:], ("", 0))
        for number in ("0", "x", "257", ""):
            self.assertEqual(pozhiqas("check", "--jobs", number, path),
                             ("", "pozhiqas: argument --jobs: it takes a number from 1 to 256 (pozhiqas --help)\n", 64))

    def test_parts_as_files(self):
        records = [*BEGIN, "op t1 1 a.get()=0", "op t2 1 b.read(0)=0", "op t1 2 a.get()=0"]
        path, folder = self.file("run.jsonl", run_bytes("boosted", OBJECTS, records)), self.folder / "parts"
        files = [folder / name for name in ("part_1.jsonl", "part_2.jsonl", "bookkeeping.jsonl")]
        self.assertEqual(pozhiqas("check", "--jobs", "2", "--parts", folder, path), ("".join(f"{file}\n" for file in files), "", 0))
        reports = [pozhiqas("judge", "--brief", file)[0].partition("\n")[0] for file in files]
        self.assertEqual(reports, ["accepted steps 6 committed 0", "accepted steps 4 committed 0", "rejected step 5 line 5 APP 2"])
        self.assertEqual(pozhiqas("check", "--parts", self.folder / "other", EXAMPLES / "accepted.jsonl")[::2], ("", 72))
        self.assertEqual(pozhiqas("check", "--jobs", "2", "--parts", path, path)[::2], ("", 74))

    def test_parts_need_an_empty_folder(self):
        path, folder = self.file("run.jsonl", run_bytes("boosted", OBJECTS, ACCEPTED)), self.folder / "parts"
        folder.mkdir()
        (folder / "part_7.jsonl").write_bytes(b"kept")
        self.assertEqual(pozhiqas("check", "--parts", folder, path), ("", f"pozhiqas: {folder}: Directory not empty\n", 74))
        self.assertEqual([file.read_bytes() for file in folder.iterdir()], [b"kept"])
        (folder / "part_7.jsonl").unlink()
        self.assertEqual(pozhiqas("check", "--jobs", "2", "--parts", folder, path)[1:], ("", 0))

    def test_parts_that_cannot_be_written_are_removed(self):
        """A line that is no record, one on no object, and a body."""
        folder, empty = self.folder / "parts", self.folder / "empty"
        empty.mkdir()
        for last in (b"x", json.dumps(record("op t1 9 z.get()=0")).encode(), json.dumps({**record("begin t9 p9"), "body": {"skip": True}}).encode()):
            path = self.file("run.jsonl", run_bytes("boosted", OBJECTS, ACCEPTED) + last)
            for given in (folder, empty):
                self.assertEqual(pozhiqas("check", "--jobs", "2", "--parts", given, path)[::2], ("", 72))
            self.assertEqual((folder.exists(), list(empty.iterdir())), (False, []))

    def test_program_that_fails_on_a_part(self):
        """Nobody waits for it, though there are more lines than may wait."""
        program = self.file("program", b"#!/bin/sh\nif read header && read more; then exit 6; fi\necho accepted steps 0 committed 0\n")
        program.chmod(0o755)
        path = self.file("run.jsonl", run_bytes("boosted", OBJECTS, ["begin t1 p1"]) + LONG_BLANK * 500)
        self.assertEqual(pozhiqas("check", "--jobs", "2", path, program=program), ("", "pozhiqas: the program ran out of memory\n", 6))


@needs_program
class RandomRuns(Temporary):
    """Random runs of several objects, against the whole."""

    def compare(self, style, count):
        chosen, verdicts = random.Random(style), set()
        for _ in range(count):
            maker = Maker(chosen, style)
            maker.kinds = [chosen.choice(KINDS) for _ in range(chosen.choice((2, 3)))]
            data = "".join(json.dumps(line) + "\n" for line in maker.run()).encode()
            judged = ask(PROGRAM, ["judge"], data)
            printed, status = checked(data, chosen.choice((2, 3)))
            is_whole = "\njudged whole: " in printed
            self.assertTrue(printed.startswith(judged.text if is_whole else expected(judged.text)), data.decode())
            self.assertEqual(status, judged.status)
            verdicts.add(" ".join(printed.split()[3:5]) if printed.startswith("rejected") else printed.split()[0])
        self.assertGreater(len(verdicts), 4)

    def test_boosted(self):
        self.compare("boosted", 80)

    def test_optimistic(self):
        self.compare("optimistic", 80)

    def test_hardware(self):
        self.compare("hardware", 80)

    def test_two_parts_that_are_rejected_on_one_line(self):
        """The commit pushes a call on each of two objects. The one that was made first counts."""
        others = ["begin t2 p2", "op t2 5 a.add(1)=none", "op t2 6 b.write(0,3)=none", "commit t2"]
        for first, second, name in (("op t1 1 a.get()=0", "op t1 2 b.read(0)=0", "a"), ("op t1 2 b.read(0)=0", "op t1 1 a.get()=0", "b")):
            data = run_bytes("optimistic", OBJECTS, ["begin t1 p1", first, second, *others, "commit t1"])
            entry = "entry 1 gives 1" if name == "a" else "entry 2 gives 3"
            self.assertEqual(checked(data)[0],
                             f"rejected line 9 PUSH 5\n{entry}\nlocal: 2 parts\nrejected: the object {name}\n")


if __name__ == "__main__":
    unittest.main()
