#!/usr/bin/env python3
"""Operations that were pulled and are given back, the last one first, with a hundred thousand own ones behind them.

    python3 bench/removals.py crates/pp_cli/out/pp_cli

What is given back, and what stands behind it on the same object:

- a write of a memory; writes elsewhere, all at one other address.
- a write of a memory; failed compare-and-swaps at its own address.
- a write of a memory; writes at many addresses, behind one failed compare-and-swap at its own.
- an addition to a counter; additions.
- an insertion into a set, and a number put into a map, each at a key of its own; the same at other keys.
- an item put into a queue; equal ones put in, and then as many taken.
- an item pushed on a stack; pops and pushes of an equal one in turn.
- an insertion into a priority queue; an insertion and a take of its own number, and then insertions of greater ones.

Each is left out by its gap: one walk over all that stands behind it. Each run is measured with half as many given
back, too.
"""
import random

from measure import app, begin, header, measure_twice, named, program_named

OWN = 99_900
GIVEN_BACK = 600


def numbers(count):
    return random.Random(1).sample(range(8, 10**9), count)


def writes_elsewhere():
    return [("write", [1, 5], None)] * OWN


def failed_swaps():
    return [("cas", [0, -1, 1], False)] * OWN


def writes_at_many():
    return [("cas", [0, -1, 1], False), *(("write", [address, 5], None) for address in numbers(OWN - 1))]


def additions():
    return [("add", [2], None)] * OWN


def keys_added():
    return [("add", [key], True) for key in numbers(OWN)]


def keys_put():
    return [("put", [key, 5], None) for key in numbers(OWN)]


def items_in_and_out():
    return [("enq", [7], None)] * (OWN // 2) + [("deq", [], 7)] * (OWN // 2)


def pushed_in_turn():
    return [("push", [7], None), *([("pop", [], 7), ("push", [7], None)] * (OWN // 2))]


def insertions():
    return [("insert", [7], None), ("take", [], 7), *(("insert", [number], None) for number in numbers(OWN - 2))]


def write(_number):
    return ("write", [0, 0], None)


def given_back(kind, pulled, own):
    """Runs of so many calls of another transaction, that are pulled, and given back behind these own ones."""
    def run(count):
        theirs = [pulled(number) for number in range(count)]
        pushed = [
            record
            for number, (call, args, result) in enumerate(theirs)
            for record in (app("t1", number, call, args, result), named("push", "t1", number))
        ]
        calls = [app("t2", number, name, args, result) for number, (name, args, result) in enumerate(own(), count)]
        return [
            header(kind),
            begin("t1"), *pushed,
            begin("t2", "p2"), *(named("pull", "t2", number) for number in range(count)), *calls,
            *(named("unpull", "t2", number) for number in reversed(range(count))),
        ]
    return run


def main():
    program = program_named()
    for name, kind, pulled, own in (
        ("writes elsewhere", "mem", write, writes_elsewhere),
        ("failed compare-and-swaps", "mem", write, failed_swaps),
        ("writes at many addresses", "mem", write, writes_at_many),
        ("additions", "counter", lambda number: ("add", [1], None), additions),
        ("keys added", "set", lambda number: ("add", [-number - 1], True), keys_added),
        ("keys put", "map", lambda number: ("put", [-number - 1, 5], None), keys_put),
        ("a queue", "queue", lambda number: ("enq", [7], None), items_in_and_out),
        ("a stack", "stack", lambda number: ("push", [7], None), pushed_in_turn),
        ("a priority queue", "prio", lambda number: ("insert", [7], None), insertions),
    ):
        measure_twice(program, name, given_back(kind, pulled, own), GIVEN_BACK)


if __name__ == "__main__":
    main()
