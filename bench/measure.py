"""What the benchmarks share: records, and the time of `certify` beside that of only reading the same input.

A run is a list of records, its header first. It is only read where a step that fails stands before its other
steps; then its last record is left out, so that the lines are as many. Where there is `jq`, the time of
`jq -c .`, which only parses the lines, stands beside. A benchmark ends with a failure where a run is not
answered as it should be.
"""
import json
import os
import shutil
import subprocess
import sys
import tempfile
import time

FAILING = {"step": "cmt", "tx": "none"}
MOST_STEPS = 200_000


def header(*kinds):
    """The header of a run over objects of these kinds, named o1, o2 and so on."""
    objects = [{"name": f"o{place}", "kind": kind} for place, kind in enumerate(kinds, 1)]
    return {"run": 1, "style": "rules", "objects": objects}


def begin(tx, thread="p1"):
    return {"step": "begin", "tx": tx, "thread": thread}


def app(tx, number, call, args, result=None, on="o1"):
    return {"step": "app", "tx": tx, "id": number, "on": on, "call": call, "args": args, "result": result}


def named(step, tx, number):
    """A push, pull, unapp, unpush or unpull of the operation with this id."""
    return {"step": step, "tx": tx, "id": number}


def cmt(tx):
    return {"step": "cmt", "tx": tx}


def seconds(command, path, times=3, enough=20):
    """The best time of a few, or of fewer where they take long, and the first line that was printed."""
    taken, first = [], ""
    while len(taken) < times and sum(taken) < enough:
        with open(path, "rb") as source:
            start = time.perf_counter()
            ran = subprocess.run(command, stdin=source, capture_output=True, check=False)
            taken.append(time.perf_counter() - start)
        first = ran.stdout.partition(b"\n")[0].decode()
    return min(taken), first


def write(path, values):
    """A line for each value."""
    with open(path, "w") as out:
        out.writelines(json.dumps(value, separators=(",", ":")) + "\n" for value in values)


def answered(program, words, path, wanted):
    """The time of a command on a file, whose answer is to have this first line."""
    took, first = seconds([program, *words.split()], path)
    if first != wanted:
        sys.exit(f"bench: {first!r} in place of {wanted!r}")
    return took


def timed(program, path, records, wanted):
    """The time of `certify` on these records."""
    write(path, records)
    return answered(program, "certify", path, wanted)


def measure(program, name, records):
    """Prints the time of an accepted run and its ratio to only reading it, and answers the time."""
    steps = len(records) - 1
    if steps > MOST_STEPS:
        sys.exit(f"bench: {name} has {steps} steps")
    accepted = f"accepted steps {steps} committed {sum(record['step'] == 'cmt' for record in records[1:])}"
    with tempfile.TemporaryDirectory() as folder:
        path = os.path.join(folder, "run.jsonl")
        only_read = [records[0], FAILING, *records[1:-1]]
        read = timed(program, path, only_read, "rejected step 1 line 2 CMT 1")
        whole = timed(program, path, records, accepted)
        line = f"{name}, {steps} steps: {whole:.2f} s, only read {read:.2f} s, ratio {whole / read:.2f}"
        if shutil.which("jq"):
            line += f"; jq {seconds(['jq', '-c', '.'], path)[0]:.2f} s"
    print(line, flush=True)
    return whole


def measure_twice(program, name, run, count):
    """Measures the runs of half the count and of the count, and prints what twice the work costs."""
    half = measure(program, f"half of {name}", run(count // 2))
    whole = measure(program, name, run(count))
    print(f"{name}: twice the work takes {whole / half:.2f} times the time", flush=True)


def program_named():
    """The program, whose path is the script's first word."""
    if len(sys.argv) < 2:
        sys.exit(f"usage: python3 {sys.argv[0]} crates/pp_cli/out/pp_cli")
    return os.path.abspath(sys.argv[1])
