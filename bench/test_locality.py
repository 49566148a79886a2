"""Tests of the restrictions of a run to its objects."""
import json
import pathlib
import subprocess
import sys
import tempfile
import unittest

from locality import exception, names_of, rejection, restricted

BENCH = pathlib.Path(__file__).resolve().parent
STYLES = ("boosted", "optimistic", "hardware", "dependent")
HEADER = {"run": 2, "style": "optimistic", "objects": [{"name": "a", "kind": "counter"}, {"name": "b", "kind": "counter"}],
          "start": {"tx": "t0", "ops": [{"id": 1, "on": "a"}, {"id": 2, "on": "b"}]}}
RECORDS = ({"step": "begin", "tx": "t", "thread": "p", "body": {}}, {"step": "op", "tx": "t", "id": 3, "on": "a"},
           {"step": "refresh", "tx": "t", "on": "b"}, {"step": "push", "tx": "t", "id": 3}, {"step": "commit", "tx": "t"})
RUN = "\n".join(map(json.dumps, (HEADER, *RECORDS)))


def script(name, *arguments):
    return subprocess.run([sys.executable, str(BENCH / name), *map(str, arguments)], capture_output=True, text=True, check=False)


class Locality(unittest.TestCase):
    def test_restriction(self):
        self.assertEqual(names_of(RUN), ["a", "b"])
        header, *lines = restricted(RUN, "a").split("\n")
        header = json.loads(header)
        self.assertEqual(([item["name"] for item in header["objects"]], [item["id"] for item in header["start"]["ops"]]), (["a"], [1]))
        begin = {key: value for key, value in RECORDS[0].items() if key != "body"}
        self.assertEqual(lines, [json.dumps(begin), json.dumps(RECORDS[1]), "", json.dumps(RECORDS[3]), json.dumps(RECORDS[4])])
        self.assertEqual([bool(line) for line in restricted(RUN, "b").split("\n")], [True, True, False, True, False, True])

    def test_exceptions(self):
        accepted, late, early, other = ("accepted steps 1 committed 0\n", 0), *((text, 1) for text in (
            "rejected step 9 line 5 PULL 5\nentry 1\n", "rejected step 2 line 4 PULL 5\nentry 1\n", "rejected step 2 line 5 PUSH 4\nentry 1\n"))
        self.assertEqual(rejection(late[0]), (5, "PULL 5", "entry 1\n"))
        self.assertIsNone(exception(accepted[0], {"a": accepted}))
        self.assertIsNone(exception(late[0], {"a": accepted, "b": ("rejected step 3 line 5 PULL 5\nentry 1\n", 1)}))
        self.assertIsNone(exception("rejected step 9 line 5 CMT 2\n", {"a": accepted}))
        for whole, part in ((accepted, late), (late, accepted), (late, early), (late, other)):
            self.assertIsNotNone(exception(whole[0], {"a": part}), (whole, part))

    def test_random_runs(self):
        for style in STYLES:
            with self.subTest(style), tempfile.TemporaryDirectory() as folder:
                script("random_runs.py", "--style", style, "--count", 60, folder)
                ran = script("locality.py", folder)
                self.assertEqual(ran.returncode, 0, ran.stdout + ran.stderr)
                self.assertRegex(ran.stdout, r"(?m)^accepted +\d+$")


if __name__ == "__main__":
    unittest.main()
