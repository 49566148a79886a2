#!/usr/bin/env python3
"""A bank under locks: transfers between 200 accounts, each a memory of its own, by eight threads in turn. `check` decides it in parts, and
is compared with `judge` on the whole.

    python3 bench/bank.py PROGRAM [--lines 1000000] [--accounts 200] [--jobs 4]
    python3 bench/bank.py --write FILE [--lines 1000000] [--accounts 200]

A transfer is six lines: a begin, a read and a write of each of two accounts, and a commit. With `--write` the run is left in a file,
and nothing is measured.
"""
import argparse
import os
import pathlib
import random
import subprocess
import sys
import tempfile
import time

THREADS = 8
TOOL = pathlib.Path(__file__).resolve().parent.parent / "tools/pozhiqas"


def operation(tx, number, account, call, args, result):
    return (f'{{"step":"op","tx":"{tx}","id":{number},"on":"a{account}","call":"{call}","args":[{args}],'
            f'"result":{result}}}\n')


def lines_of(count, accounts):
    """At least so many lines of the run."""
    chosen, balances, number = random.Random(1), [0] * accounts, 0
    objects = ",".join(f'{{"name":"a{place}","kind":"mem"}}' for place in range(accounts))
    yield f'{{"run":1,"style":"boosted","objects":[{objects}]}}\n'
    for place in range((count + 4) // 6):
        tx, amount = f"p{place % THREADS}_{place // THREADS + 1}", chosen.randrange(1, 100)
        yield f'{{"step":"begin","tx":"{tx}","thread":"p{place % THREADS}"}}\n'
        for account, change in zip(chosen.sample(range(accounts), 2), (-amount, amount)):
            yield operation(tx, number, account, "read", "0", balances[account])
            balances[account] += change
            yield operation(tx, number + 1, account, "write", f"0,{balances[account]}", "null")
            number += 2
        yield f'{{"step":"commit","tx":"{tx}"}}\n'


def write(path, given):
    with open(path, "w") as out:
        out.writelines(lines_of(given.lines, given.accounts))


def seconds(command, path, program, wanted, times=3):
    """The best time of a few, of a command that has to print this first."""
    taken = []
    for _ in range(times):
        with open(path, "rb") as source:
            begun = time.perf_counter()
            ran = subprocess.run(command, stdin=source, capture_output=True, check=False, env={**os.environ, "POZHIQAS": program})
            taken.append(time.perf_counter() - begun)
        if not ran.stdout.startswith(wanted):
            sys.exit(f"bench: {ran.stdout[:80]!r}")
    return min(taken)


def main():
    parser = argparse.ArgumentParser(description="Measures check on a run of many objects.")
    parser.add_argument("program", metavar="PROGRAM", nargs="?")
    parser.add_argument("--lines", type=int, default=1_000_000)
    parser.add_argument("--accounts", type=int, default=200)
    parser.add_argument("--jobs", type=int, default=4)
    parser.add_argument("--write", metavar="FILE", help="leave the run in FILE")
    given = parser.parse_args()
    if given.write is not None:
        write(given.write, given)
        return
    if given.program is None:
        parser.error("name the program")
    program = str(pathlib.Path(given.program).resolve())
    with tempfile.TemporaryDirectory() as folder:
        path = os.path.join(folder, "run.jsonl")
        write(path, given)
        whole = seconds([program, "judge"], path, program, b"accepted steps")
        parts = seconds([sys.executable, TOOL, "check", "--jobs", str(given.jobs), "-"], path, program, b"accepted\nlocal: ")
    print(f"judge {whole:.2f} s, check with {given.jobs} processes {parts:.2f} s, {whole / parts:.2f} times as fast")


if __name__ == "__main__":
    main()
