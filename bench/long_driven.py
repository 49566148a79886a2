#!/usr/bin/env python3
"""`judge` on runs of style hardware and dependent, in which it drives the machine: transactions of a read and a write of one
address, one after another, of eight threads in turn. The objects are memories, which the transactions use in turn.

    python3 bench/long_driven.py PROGRAM [--style dependent] [--transactions N] [--objects N ...]

The run is measured with so many transactions and with twice as many, for each number of objects. The verdict and the number
of steps are checked: a transaction pulls all that was committed on its object.
"""
import argparse
import os
import pathlib
import tempfile

from measure import answered, begin, write

THREADS = 8
FAILING = {"step": "commit", "tx": "nobody"}


def header(style, objects):
    return {"run": 1, "style": style, "objects": [{"name": f"m{place}", "kind": "mem"} for place in range(objects)]}


def transactions(count, objects):
    """The records of so many transactions."""
    for number in range(count):
        tx, on, turn = f"t{number}", f"m{number % objects}", number // objects
        yield begin(tx, f"p{number % THREADS}")
        yield {"step": "op", "tx": tx, "id": 2 * number, "on": on, "call": "read", "args": [0], "result": turn}
        yield {"step": "op", "tx": tx, "id": 2 * number + 1, "on": on, "call": "write", "args": [0, turn + 1], "result": None}
        yield {"step": "commit", "tx": tx}


def count_steps(count, objects):
    """A begin, a commit, an APP and a PUSH of each operation, and a PULL of each that was committed on the object before."""
    return 6 * count + sum(2 * (number // objects) for number in range(count))


def measure(program, path, style, count, objects):
    """The time of `judge` on so many transactions, after printing it beside the time of only reading them."""
    records, first = list(transactions(count, objects)), header(style, objects)
    write(path, [first, FAILING, *records[:-1]])
    read = answered(program, "judge", path, "rejected step 1 line 2 CMT 1")
    write(path, [first, *records])
    steps = count_steps(count, objects)
    whole = answered(program, "judge", path, f"accepted steps {steps} committed {count}")
    print(f"{count} transactions, {objects} objects, {steps} steps: {whole:.2f} s, only read {read:.2f} s", flush=True)
    return whole


def main():
    parser = argparse.ArgumentParser(description="Measures judge on runs of style hardware or dependent.")
    parser.add_argument("program", metavar="PROGRAM")
    parser.add_argument("--style", choices=("hardware", "dependent"), default="hardware")
    parser.add_argument("--transactions", type=int, default=2_000, help="of the smaller run")
    parser.add_argument("--objects", type=int, nargs="+", default=[1, 200])
    given = parser.parse_args()
    program = str(pathlib.Path(given.program).resolve())
    with tempfile.TemporaryDirectory() as folder:
        path = os.path.join(folder, "run.jsonl")
        for objects in given.objects:
            half = measure(program, path, given.style, given.transactions, objects)
            whole = measure(program, path, given.style, 2 * given.transactions, objects)
            print(f"{objects} objects: twice the work {whole / half:.2f}", flush=True)


if __name__ == "__main__":
    main()
