#!/usr/bin/env python3
"""`judge` on long runs of style rules: transactions that add to a counter, put a new key into a map, and take over and
read a key of an earlier one, of eight threads in turn. It is compared with only reading the same lines, at two sizes.

    python3 bench/long_rules.py PROGRAM [--transactions N]

A transaction is nine lines. So the 111,111 of the smaller run are 1,000,000 lines. Each run is judged twice: as it is,
and with another transaction that pushes an addition first and stays open to the last line. The verdict and the number
of steps are checked.
"""
import argparse
import os
import pathlib
import tempfile

from measure import FAILING, answered, app, begin, cmt, named, write

THREADS, BACK = 8, 100
OPERATIONS = 3
HEADER = {"run": 1, "style": "rules", "objects": [{"name": "m", "kind": "map"}, {"name": "c", "kind": "counter"}]}


def transaction(number):
    """The steps of one transaction. The operation at place 1 puts the key of its number."""
    tx, first, earlier = f"t{number}", OPERATIONS * number, max(0, number - BACK)
    yield begin(tx, f"p{number % THREADS}")
    yield app(tx, first, "add", [1], on="c")
    yield named("push", tx, first)
    yield app(tx, first + 1, "put", [number, earlier], on="m")
    yield named("push", tx, first + 1)
    if number:
        yield named("pull", tx, OPERATIONS * earlier + 1)
    else:
        yield {"step": "note", "tx": tx}
    yield app(tx, first + 2, "get", [earlier], max(0, earlier - BACK), on="m")
    yield named("push", tx, first + 2)
    yield cmt(tx)


def transactions(count):
    """The records of so many transactions."""
    for number in range(count):
        yield from transaction(number)


def kept_open(count, records):
    """The records, and around them a transaction that pushes an addition and commits last."""
    last = OPERATIONS * count
    yield begin("open", "p")
    yield app("open", last, "add", [1], on="c")
    yield named("push", "open", last)
    yield from records
    yield cmt("open")


def measure(program, path, name, records, committed):
    """The time of `judge` on these records, after printing it beside the time of only reading them."""
    write(path, [HEADER, FAILING, *records[:-1]])
    read = answered(program, "judge", path, "rejected step 1 line 2 CMT 1")
    write(path, [HEADER, *records])
    whole = answered(program, "judge", path, f"accepted steps {len(records)} committed {committed}")
    print(f"{name}, {len(records) + 1} lines: {whole:.2f} s, only read {read:.2f} s, ratio {whole / read:.2f}", flush=True)
    return whole


def measure_both(program, path, count):
    """The times of so many transactions, alone and with another one that stays open."""
    records = list(transactions(count))
    alone = measure(program, path, "alone", records, count)
    beside = measure(program, path, "beside an open one", list(kept_open(count, records)), count + 1)
    return alone, beside


def main():
    parser = argparse.ArgumentParser(description="Measures judge on long runs of style rules.")
    parser.add_argument("program", metavar="PROGRAM")
    parser.add_argument("--transactions", type=int, default=111_111, help="of the smaller run")
    given = parser.parse_args()
    program = str(pathlib.Path(given.program).resolve())
    with tempfile.TemporaryDirectory() as folder:
        path = os.path.join(folder, "run.jsonl")
        half = measure_both(program, path, given.transactions)
        whole = measure_both(program, path, 2 * given.transactions)
    print(f"twice the work: alone {whole[0] / half[0]:.2f}, beside an open one {whole[1] / half[1]:.2f}")


if __name__ == "__main__":
    main()
