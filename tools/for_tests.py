"""What the tests share: the program, the examples, and runs that are written shortly."""
import glob
import json
import os
import pathlib
import re
import subprocess
import sys
import unittest

from verified_program import NoProgram, find_program

TOOLS = pathlib.Path(__file__).resolve().parent
EXAMPLES = TOOLS.parent / "examples"
RESULTS = {"none": None, "true": True, "false": False}
# A record such as "begin t1 p1", "app t1 3 c.get()=0", "push t1 3", "refresh t1 m", "depend t2 t1" or "cmt t1".
LAST_MEMBERS = {"begin": "thread", "refresh": "on", "depend": "source", "drop": "source"}
CALL = re.compile(r"([\w.-]+)\.(\w+)\(([-\d,]*)\)=([-\w]+)")


def program_or_none():
    try:
        return find_program()
    except NoProgram:
        return None


PROGRAM = program_or_none()
needs_program = unittest.skipIf(PROGRAM is None, "no built program: name one by the variable POZHIQAS")


def example(name):
    """The bytes of an example."""
    return (EXAMPLES / name).read_bytes()


def example_names(pattern):
    return sorted(os.path.basename(path) for path in glob.glob(str(EXAMPLES / pattern)))


def record(text):
    """The record that a short text means."""
    step, tx, *rest = text.split()
    if step not in ("app", "op"):
        member = LAST_MEMBERS.get(step, "id")
        return {"step": step, "tx": tx, **{member: int(word) if member == "id" else word for word in rest}}
    on, call, arguments, result = CALL.fullmatch(rest[1]).groups()
    return {"step": step, "tx": tx, "id": int(rest[0]), "on": on, "call": call,
            "args": [int(number) for number in arguments.split(",") if number],
            "result": RESULTS[result] if result in RESULTS else int(result)}


def run_bytes(style, objects, records, **header):
    """The bytes of a run. `objects` is a text such as "m:mem c:counter", and `records` has short texts or records."""
    given = [dict(zip(("name", "kind"), item.split(":"))) for item in objects.split()]
    lines = [{"run": 1, "style": style, "objects": given, **header}]
    lines += [record(item) if isinstance(item, str) else item for item in records]
    return "".join(json.dumps(line) + "\n" for line in lines).encode()


def start(tx, *calls):
    """The members of a header that make a start, of calls such as "1 m.write(0,5)=none"."""
    operations = [record(f"op {tx} {call}") for call in calls]
    return {"run": 2, "start": {"tx": tx, "ops": operations}}


def pozhiqas(*arguments, stdin=b"", program=PROGRAM):
    """What the script prints on both outputs, as texts, and its status."""
    environment = {name: value for name, value in os.environ.items() if name != "POZHIQAS"}
    if program is not None:
        environment["POZHIQAS"] = str(program)
    ran = subprocess.run([sys.executable, str(TOOLS / "pozhiqas"), *map(str, arguments)], input=stdin, capture_output=True,
                         env=environment, check=False)
    return ran.stdout.decode(), ran.stderr.decode(), ran.returncode
