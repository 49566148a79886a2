#!/usr/bin/env python3
"""One boosted transaction of very many operations, over some objects in turn.

    python3 bench/long_transactions.py crates/pp_cli/out/pp_cli

At each operation the transaction takes over what others have committed on its object. One object has the
transaction's own entries side by side, many objects have them far apart. Each run is made at two sizes, one twice
the other. In the last run the transaction first takes over what another one committed.
"""
import os
import tempfile

from measure import answered, begin, program_named, write

COUNT = 20_000
OBJECTS = (1, 17, 65, 256)


def header(count):
    objects = [{"name": f"c{place}", "kind": "counter"} for place in range(count)]
    return {"run": 1, "style": "boosted", "objects": objects}


def additions(tx, numbers, objects):
    for number in numbers:
        on = f"c{number % objects}"
        yield {"step": "op", "tx": tx, "id": number, "on": on, "call": "add", "args": [1], "result": None}


def whole(tx, numbers, objects):
    """A transaction with these operations."""
    return [begin(tx), *additions(tx, numbers, objects), {"step": "commit", "tx": tx}]


def measure(program, path, name, records, steps, committed):
    write(path, records)
    took = answered(program, "certify", path, f"accepted steps {steps} committed {committed}")
    print(f"{name}: {steps} steps, {took:.2f} s", flush=True)


def main():
    program = program_named()
    with tempfile.TemporaryDirectory() as folder:
        path = os.path.join(folder, "run.jsonl")
        for objects in OBJECTS:
            for count in (COUNT, 2 * COUNT):
                records = [header(objects), *whole("a", range(count), objects)]
                measure(program, path, f"{count} operations over {objects}", records, 2 * count + 2, 1)
        records = [header(1), *whole("a", range(COUNT), 1), *whole("b", range(COUNT, 2 * COUNT), 1)]
        measure(program, path, f"{COUNT} taken over, and {COUNT} operations", records, 5 * COUNT + 4, 2)


if __name__ == "__main__":
    main()
