#!/usr/bin/env python3
"""Twenty thousand transactions in pairs, over a memory, a counter and a set.

    python3 bench/pairs.py crates/pp_cli/out/pp_cli

The first of a pair pulls what the pair before wrote, and calls all three objects; the second calls the counter
and the set. Both are open together, and the second commits first.
"""
from measure import app, begin, cmt, measure_twice, named, program_named

COUNT = 20_000
OBJECTS = [{"name": "m", "kind": "mem"}, {"name": "c", "kind": "counter"}, {"name": "s", "kind": "set"}]


def calls_of_first(j, a):
    return [
        app(f"t{a}", 10 * a + 1, "read", [0], j - 1, on="m"),
        app(f"t{a}", 10 * a + 2, "write", [0, j], on="m"),
        app(f"t{a}", 10 * a + 3, "add", [a % 7], on="c"),
        app(f"t{a}", 10 * a + 4, "contains", [a], False, on="s"),
    ]


def calls_of_second(b):
    return [
        app(f"t{b}", 10 * b + 1, "add", [b % 7], on="c"),
        app(f"t{b}", 10 * b + 2, "contains", [b], False, on="s"),
    ]


def pair(j):
    a, b = 2 * j - 1, 2 * j
    first, second = f"t{a}", f"t{b}"
    pushed = [(first, 10 * a + 1), (second, 10 * b + 1), (first, 10 * a + 2), (second, 10 * b + 2)]
    pushed += [(first, 10 * a + 3), (first, 10 * a + 4)]
    return [
        begin(first, "p1"), begin(second, "p2"),
        *([named("pull", first, 10 * (2 * j - 3) + 2)] if j > 1 else []),
        *calls_of_first(j, a), *calls_of_second(b),
        *(named("push", tx, number) for tx, number in pushed),
        cmt(second), cmt(first),
    ]


def run(count):
    """The run of an even number of transactions."""
    records = [{"run": 1, "style": "rules", "objects": OBJECTS}]
    for j in range(1, count // 2 + 1):
        records += pair(j)
    return records


def main():
    measure_twice(program_named(), "pairs", run, COUNT)


if __name__ == "__main__":
    main()
