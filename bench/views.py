#!/usr/bin/env python3
"""Peaks that no prefix explains, which are the dearest: `views` beside `certify`.

    python3 bench/views.py crates/pp_cli/out/pp_cli

A writer publishes a value that it never commits, and three hundred transactions commit three additions each. Nine
thousand transactions then pull that value and are given up: some of their reads are true after each of the commits,
and the last, of that value, is true after none. They are measured with one read, with two, and with eight. Then one
transaction makes as many tries that begin alike: behind many reads it reads that value, and takes that read back.
Last, transactions read what the one before each wrote, so that behind each commit one more peak has a number, while
reads of that value wait for theirs in vain.
"""
import os
import tempfile

from measure import answered, app, begin, cmt, header, named, program_named, write

TRIES = 9_000
COMMITS = 300
ADDITIONS = 3
READS = [1, 2, 8]
COMMON_READS = 100
UNTOLD = 7
TURNS = 3_000
WAITING = 20_000


def committed():
    for k in range(COMMITS):
        tx, numbers = f"c{k}", range(1 + ADDITIONS * k, 1 + ADDITIONS * k + ADDITIONS)
        yield begin(tx)
        for number in numbers:
            yield app(tx, number, "add", [1], on="o2")
            yield named("push", tx, number)
        yield cmt(tx)


def one_try(tx, first, reads):
    """Reads other addresses, which stay 0, and then the value that is not committed."""
    numbers = range(first, first + reads)
    yield begin(tx)
    yield named("pull", tx, 0)
    for number in numbers:
        last = number == numbers[-1]
        yield app(tx, number, "read", [0 if last else number], UNTOLD if last else 0)
    for number in reversed(numbers):
        yield named("unapp", tx, number)
    yield named("unpull", tx, 0)
    yield {"step": "quit", "tx": tx}


def before():
    """What stands before the tries, and the next id."""
    records = [header("mem", "counter"), begin("writer", "p0")]
    records += [app("writer", 0, "write", [0, UNTOLD]), named("push", "writer", 0), *committed()]
    return records, 1 + ADDITIONS * COMMITS


def apart(reads):
    """Tries of so many reads, each of another transaction."""
    records, behind = before()
    for k in range(TRIES):
        records += one_try(f"t{k}", behind + reads * k, reads)
    return records


def alike():
    """Tries of one transaction, which differ in their last read."""
    records, behind = before()
    last = behind + COMMON_READS
    records += [begin("t"), named("pull", "t", 0)]
    records += [app("t", number, "read", [number], 0) for number in range(behind, last)]
    for number in range(last, last + TRIES):
        records += [app("t", number, "read", [0], UNTOLD), named("unapp", "t", number)]
    return records


def in_turn():
    """A transaction that makes many reads in vain, and transactions that read what the one before each wrote."""
    records = [header("mem"), begin("writer", "p0"), app("writer", 0, "write", [0, UNTOLD]), named("push", "writer", 0)]
    records += [begin("t", "p2"), named("pull", "t", 0), app("t", 1, "read", [0], UNTOLD)]
    records += [app("t", number, "read", [1], 0) for number in range(2, WAITING + 1)]
    for k in range(TURNS):
        tx, number = f"c{k}", WAITING + 1 + 2 * k
        records += [begin(tx)]
        records += [named("pull", tx, number - 1), app(tx, number, "read", [1 + k], 1)] if k else []
        records += [app(tx, number + 1, "write", [2 + k, 1])]
        records += [named("push", tx, number)] if k else []
        records += [named("push", tx, number + 1), cmt(tx)]
    return records


def measure(program, path, name, records, commits=COMMITS):
    write(path, records)
    accepted = f"accepted steps {len(records) - 1} committed {commits}"
    views, certified = (answered(program, word, path, accepted) for word in ("views", "certify"))
    print(f"{name}, {len(records) - 1} steps: views {views:.2f} s, certify {certified:.2f} s, "
          f"ratio {views / certified:.2f}", flush=True)


def main():
    with tempfile.TemporaryDirectory() as folder:
        path = os.path.join(folder, "run.jsonl")
        for reads in READS:
            measure(program_named(), path, f"{TRIES} peaks of {reads}", apart(reads))
        measure(program_named(), path, f"{TRIES} peaks of {COMMON_READS + 1} that begin alike", alike())
        measure(program_named(), path, f"{TURNS} peaks that get numbers in turn", in_turn(), TURNS)


if __name__ == "__main__":
    main()
