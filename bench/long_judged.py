#!/usr/bin/env python3
"""`judge` on long boosted or optimistic runs: transactions of five puts on a map of 20,000 keys and of one addition to a
counter, one after another, of eight threads in turn. It is compared with only reading the same lines, at two sizes.

    python3 bench/long_judged.py PROGRAM [--style optimistic] [--transactions N]

A transaction is eight lines. So the 125,000 of the smaller run are 1,000,001 lines. The verdict and the number of steps
are checked: a transaction pulls all that was committed before it.
"""
import argparse
import os
import pathlib
import tempfile

from measure import answered, begin, write

KEYS, PUTS, THREADS = 20_000, 5, 8
HEADER = {"run": 1, "objects": [{"name": "m", "kind": "map"}, {"name": "c", "kind": "counter"}]}
FAILING = {"step": "commit", "tx": "nobody"}


def transactions(count):
    """The records of so many transactions."""
    values = {}
    for number in range(count):
        tx, first = f"t{number}", (PUTS + 1) * number
        yield begin(tx, f"p{number % THREADS}")
        for place in range(PUTS):
            key = (7 * number + 131 * place) % KEYS
            put = {"on": "m", "call": "put", "args": [key, first + place], "result": values.get(key)}
            values[key] = first + place
            yield {"step": "op", "tx": tx, "id": first + place, **put}
        yield {"step": "op", "tx": tx, "id": first + PUTS, "on": "c", "call": "add", "args": [1], "result": None}
        yield {"step": "commit", "tx": tx}


def count_steps(count):
    """A begin, a commit, an APP and a PUSH of each operation, and a PULL of each operation that was committed before."""
    own = 2 + 2 * (PUTS + 1)
    return own * count + (PUTS + 1) * (count * (count - 1) // 2)


def measure(program, path, style, count):
    """The time of `judge` on so many transactions, after printing it beside the time of only reading them."""
    records = list(transactions(count))
    header = {**HEADER, "style": style}
    write(path, [header, FAILING, *records[:-1]])
    read = answered(program, "judge", path, "rejected step 1 line 2 CMT 1")
    write(path, [header, *records])
    whole = answered(program, "judge", path, f"accepted steps {count_steps(count)} committed {count}")
    print(f"{len(records) + 1} lines: {whole:.2f} s, only read {read:.2f} s, ratio {whole / read:.2f}", flush=True)
    return whole


def main():
    parser = argparse.ArgumentParser(description="Measures judge on long boosted or optimistic runs.")
    parser.add_argument("program", metavar="PROGRAM")
    parser.add_argument("--style", choices=("boosted", "optimistic"), default="boosted")
    parser.add_argument("--transactions", type=int, default=125_000, help="of the smaller run")
    given = parser.parse_args()
    program = str(pathlib.Path(given.program).resolve())
    with tempfile.TemporaryDirectory() as folder:
        path = os.path.join(folder, "run.jsonl")
        half = measure(program, path, given.style, given.transactions)
        whole = measure(program, path, given.style, 2 * given.transactions)
    print(f"twice the work {whole / half:.2f}")


if __name__ == "__main__":
    main()
