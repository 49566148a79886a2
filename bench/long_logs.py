#!/usr/bin/env python3
"""Long logs: out of order, undone at the end, and with entries that are taken out of the middle.

    python3 bench/long_logs.py crates/pp_cli/out/pp_cli

- last to first: a transaction adds 99,990 times and then pushes its additions from the last to the first.
- retries: a transaction with 9,990 pushed additions makes and pushes four more and takes them back, ten thousand
  times.
- middle, another object: 39,900 additions to a counter are taken out of the shared log, from the last to the
  first. Before them stand 10,000 committed additions to another counter, and behind them 10,000.
- middle, the same object: so are 10,000 additions, with 10,000 others to the same counter before and 1,000 behind.

Each run is measured with half the work, too.
"""
from measure import app, begin, cmt, header, measure_twice, named, program_named

ADDITIONS = 99_990
LONG = 9_990
RETRIES = 10_000
TAKEN_OUT = 39_900
TAKEN_OUT_OF_SAME = 10_000
BEFORE = 10_000
BEHIND = 10_000
BEHIND_SAME = 1_000


def additions(tx, numbers, on="o1"):
    """Additions with these ids, each pushed at once."""
    records = []
    for number in numbers:
        records += [app(tx, number, "add", [number % 3 + 1], on=on), named("push", tx, number)]
    return records


def taken_back(tx, numbers):
    """Additions with these ids, the last ones of the transaction, taken back from the last to the first."""
    return [named(step, tx, number) for number in reversed(numbers) for step in ("unpush", "unapp")]


def last_to_first(count):
    numbers = range(count)
    calls = [app("t1", number, "add", [number % 3 + 1]) for number in numbers]
    pushes = [named("push", "t1", number) for number in reversed(numbers)]
    return [header("counter"), begin("t1"), *calls, *pushes, cmt("t1")]


def retries(count):
    records = [header("counter"), begin("t1"), *additions("t1", range(LONG))]
    for k in range(count):
        numbers = range(LONG + 4 * k, LONG + 4 * k + 4)
        records += additions("t1", numbers) + [{"step": "note", "tx": "t1"}] + taken_back("t1", numbers)
    return records + [cmt("t1")]


def middle(count, behind, on):
    """What is taken out is added to the first counter, all else to the counter that is named."""
    numbers = range(BEFORE, BEFORE + count)
    after = range(BEFORE + count, BEFORE + count + behind)
    return [
        header("counter", "counter"),
        begin("t1"), *additions("t1", range(BEFORE), on), cmt("t1"),
        begin("t2", "p2"), *additions("t2", numbers),
        begin("t3", "p3"), *additions("t3", after, on),
        *taken_back("t2", numbers),
        {"step": "quit", "tx": "t2"}, cmt("t3"),
    ]


def main():
    program = program_named()
    measure_twice(program, "last to first", last_to_first, ADDITIONS)
    measure_twice(program, "retries", retries, RETRIES)
    measure_twice(program, "middle, another object", lambda count: middle(count, BEHIND, "o2"), TAKEN_OUT)
    measure_twice(program, "middle, the same object", lambda count: middle(count, BEHIND_SAME, "o1"), TAKEN_OUT_OF_SAME)


if __name__ == "__main__":
    main()
