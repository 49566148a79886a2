#!/usr/bin/env python3
"""Times of `opaque` on runs in which one transaction reads while many others commit.

    python3 bench/opaque_speed.py crates/pp_cli/out/pp_cli

Each run is made at sizes that double. The time of `opaque` is printed beside that of `certify` on the same file, and that of
only reading the same records. The last column is the time divided by that of the size before. A benchmark ends with a failure
if a run does not have the verdict it should have. It prints times and has no limits.
"""
import os
import sys
import tempfile

from measure import MOST_STEPS, answered, app, begin, cmt, header, named, program_named, write

FAILING = {"step": "cmt", "tx": "none"}
SIZES = ((1_000, 200), (2_000, 400), (4_000, 800))
CALLS = (12_500, 25_000, 50_000)


class Numbered:
    """The records of a run of style rules, whose operations have the ids 0, 1 and so on."""

    def __init__(self):
        self.records, self.number = [], 0

    def apply(self, tx, call, args, result=None, on="o1"):
        self.records.append(app(tx, self.number, call, args, result, on))
        self.number += 1

    def commit_one(self, tx, call, args, result=None, on="o1"):
        """A transaction of one operation, from its begin to its commit."""
        self.records.append(begin(tx, f"p{tx}"))
        self.apply(tx, call, args, result, on)
        self.records += [named("push", tx, self.number - 1), cmt(tx)]


def interleaved(commits, calls, read):
    """A transaction calls so often, and between two calls others commit. It is still open in the end."""
    run = Numbered()
    run.records.append(begin("t", "pt"))
    for place in range(calls):
        read(run, place)
        for other in range(commits // calls):
            number = place * (commits // calls) + other
            run.commit_one(f"w{number}", "write", [0, number + 1])
    return run.records


def oldest(commits, calls):
    """It reads the cell that the others write, and sees what was there before them."""
    return interleaved(commits, calls, lambda run, place: run.apply("t", "read", [0], 0))


def oldest_late(commits, calls):
    """It reads another cell, and after half of the calls the one that the others write: it sees what was there before them."""
    return interleaved(commits, calls, lambda run, place: run.apply("t", "read", [0 if place >= calls // 2 else 1], 0))


def newest(commits, calls):
    """It reads a cell that no other writes."""
    return interleaved(commits, calls, lambda run, place: run.apply("t", "read", [1], 0))


def alone(_, calls):
    """One transaction reads, and no other is there."""
    run = Numbered()
    run.records.append(begin("t", "pt"))
    for _ in range(calls):
        run.apply("t", "read", [0], 0)
    return run.records


# Of each run its name, what makes it of its size, and its sizes: commits and calls.
RUNS = (
    ("reads of the oldest state", oldest, SIZES),
    ("reads of the oldest state after many calls", oldest_late, SIZES),
    ("reads of what stays the same", newest, SIZES),
    ("a transaction alone", alone, tuple((0, calls) for calls in CALLS)),
)


def measure(program, path, records):
    """The times of `opaque` and of `certify` on a run, and that of only reading its records."""
    steps = len(records)
    if steps > MOST_STEPS:
        raise SystemExit(f"bench: {steps} steps")
    committed = sum(record["step"] == "cmt" for record in records)
    write(path, [header("mem"), FAILING, *records[:-1]])
    read = answered(program, "certify", path, "rejected step 1 line 2 CMT 1")
    write(path, [header("mem"), *records])
    certified = answered(program, "certify", path, f"accepted steps {steps} committed {committed}")
    return answered(program, "opaque", path, f"opaque steps {steps} committed {committed}"), certified, read


def main():
    program = program_named()
    with tempfile.TemporaryDirectory() as folder:
        path = os.path.join(folder, "run.jsonl")
        for name, make, sizes in RUNS:
            before = None
            for commits, calls in sizes:
                opaque, certified, read = measure(program, path, make(commits, calls))
                growth = f", twice the work {opaque / before:.2f}" if before else ""
                print(f"{name}, {commits} commits, {calls} calls: {opaque:.2f} s, certify {certified:.2f} s, "
                      f"only read {read:.2f} s{growth}", flush=True)
                before = opaque
    return 0


if __name__ == "__main__":
    sys.exit(main())
