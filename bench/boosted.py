#!/usr/bin/env python3
"""Boosted runs, which `quick` decides without local logs. The first two are of 200,000 records: transactions of eight puts
over a map of 64 keys.

    python3 bench/boosted.py crates/pp_cli/out/pp_cli

- one after another: each transaction puts on the eight keys behind those of the one before.
- eight open at once: each has eight keys of its own, all put in turn, and they commit at different times, so that
  each finds entries of others that are committed and that it has not seen.
- aborts in front of others: many transactions write one number at one address, then one more does as often, and
  then the first ones abort, one after another.
- beside an open addition: one transaction adds 0 to a counter and stays open, while another adds 1 to it, asks it,
  takes the 1 back and asks it again, and so on.
- beside open insertions: a queue has many items; one transaction inserts as many others and stays open, while
  another takes the first ones.

Beside the time of `quick` on each stands that of only reading it. `certify` stops at 200,000 steps;
beside its time on as many transactions as it can take stands that of `quick` on them.
"""
import itertools
import os
import tempfile

from measure import answered, begin, program_named, write

COUNT = 20_000
# As many as make fewer than 200,000 steps, where each pulls all that was committed before.
CERTIFIED = 221
KEYS, PUTS = 64, 8
ABORTED, WRITES, BEHIND = 4_000, 2, 20_000
TURNS, ITEMS = 49_000, 66_000
SLOTS = KEYS // PUTS
HEADER = {"run": 1, "style": "boosted", "objects": [{"name": "m", "kind": "map"}]}
CELL_HEADER = {"run": 1, "style": "boosted", "objects": [{"name": "m", "kind": "mem"}]}
COUNTER_HEADER = {"run": 1, "style": "boosted", "objects": [{"name": "m", "kind": "counter"}]}
QUEUE_HEADER = {"run": 1, "style": "boosted", "objects": [{"name": "m", "kind": "queue"}]}
FAILING = {"step": "commit", "tx": "none"}


def transaction(tx, thread, number, keys, value, was):
    """Puts a value on each of these keys, which had another or none."""
    yield begin(tx, thread)
    for place, key in enumerate(keys):
        put = {"on": "m", "call": "put", "args": [key, value], "result": was}
        yield {"step": "op", "tx": tx, "id": number + place, **put}
    yield {"step": "commit", "tx": tx}


def in_slot(slot, rounds):
    """The transactions on the eight keys of a slot, one for each of these rounds."""
    for place in rounds:
        number = place * SLOTS + slot
        keys = range(PUTS * slot, PUTS * slot + PUTS)
        yield from transaction(f"t{number}", f"p{slot}", PUTS * number, keys, place, place - 1 if place else None)


def one_after_another(count):
    return [record for k in range(count) for record in in_slot(k % SLOTS, [k // SLOTS])]


def open_at_once(count):
    """Each slot begins one turn behind the slot before."""
    slots = (itertools.chain([None] * slot, in_slot(slot, range(count // SLOTS))) for slot in range(SLOTS))
    return [record for turn in itertools.zip_longest(*slots) for record in turn if record]


def writes(tx, first, count):
    """Begins, and writes one number at one address so often."""
    yield begin(tx, f"p{tx}")
    for number in range(first, first + count):
        write_one = {"on": "m", "call": "write", "args": [0, 7], "result": None}
        yield {"step": "op", "tx": tx, "id": number, **write_one}


def aborted_in_front():
    fronts = (writes(f"t{k}", WRITES * k, WRITES) for k in range(ABORTED))
    behind = writes("last", WRITES * ABORTED, BEHIND)
    aborts = ({"step": "abort", "tx": f"t{k}"} for k in range(ABORTED))
    return [*itertools.chain(*fronts), *behind, *aborts, {"step": "commit", "tx": "last"}]


def operations(tx, first, calls):
    """Begins, and makes these calls."""
    yield begin(tx, f"p{tx}")
    for number, (call, args, result) in enumerate(calls, first):
        yield {"step": "op", "tx": tx, "id": number, "on": "m", "call": call, "args": args, "result": result}


def beside_an_open_addition():
    turn = [("add", [1], None), ("get", [], 1), ("add", [-1], None), ("get", [], 0)]
    still, others = operations("t0", 0, [("add", [0], None)]), operations("t1", 1, turn * TURNS)
    return [*still, *others, {"step": "commit", "tx": "t1"}]


def beside_open_insertions():
    items = operations("t0", 0, [("enq", [item], None) for item in range(ITEMS)])
    others = operations("t1", ITEMS, [("enq", [-1 - item], None) for item in range(ITEMS)])
    takes = operations("t2", 2 * ITEMS, [("deq", [], item) for item in range(ITEMS)])
    return [*items, {"step": "commit", "tx": "t0"}, *others, *takes, {"step": "commit", "tx": "t2"}]


def measure(program, path, name, records, header=HEADER, committed=COUNT):
    write(path, [header, FAILING, *records[:-1]])
    read = answered(program, "quick", path, "quick rejected line 2")
    write(path, [header, *records])
    whole = answered(program, "quick", path, f"quick accepted records {len(records)} committed {committed}")
    print(f"{name}, {len(records)} records: {whole:.2f} s, only read {read:.2f} s, "
          f"ratio {whole / read:.2f}", flush=True)


def measure_certified(program, path):
    records = one_after_another(CERTIFIED)
    steps = sum(2 + 2 * PUTS + PUTS * before for before in range(CERTIFIED))
    write(path, [HEADER, *records])
    certified = answered(program, "certify", path, f"accepted steps {steps} committed {CERTIFIED}")
    quick = answered(program, "quick", path, f"quick accepted records {len(records)} committed {CERTIFIED}")
    print(f"{len(records)} records, {steps} steps: certify {certified:.3f} s, quick {quick:.3f} s, "
          f"ratio {certified / quick:.1f}", flush=True)


def main():
    program = program_named()
    with tempfile.TemporaryDirectory() as folder:
        path = os.path.join(folder, "run.jsonl")
        measure(program, path, "one after another", one_after_another(COUNT))
        measure(program, path, "eight open at once", open_at_once(COUNT))
        measure(program, path, "aborts in front of others", aborted_in_front(), CELL_HEADER, 1)
        measure(program, path, "beside an open addition", beside_an_open_addition(), COUNTER_HEADER, 1)
        measure(program, path, "beside open insertions", beside_open_insertions(), QUEUE_HEADER, 2)
        measure_certified(program, path)


if __name__ == "__main__":
    main()
