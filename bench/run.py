#!/usr/bin/env python3
"""Transactions one after another, on an object of each kind.

    python3 bench/run.py crates/pp_cli/out/pp_cli

Each transaction begins, calls the object three times, publishes its calls and commits: eight steps. To a counter
numbers are added. In a memory, a set or a map each call is at an address or a key of its own. Into a queue, a
stack or a priority queue values are put. What is printed is told in `measure.py`; the ratio to a counter is that
of the whole times.
"""
from measure import app, begin, cmt, header, measure, named, program_named

COUNT = 19_999
# A prime above the number of calls, so that all keys differ.
KEYS = 60_013


def addition(place):
    """A call of a counter: call, arguments, result."""
    return "add", [place % 3 + 1], None


def key(place):
    """The keys come in an order that is not theirs."""
    return place * 7_919 % KEYS


CALLS = {
    "counter": addition,
    "mem": lambda place: ("cas", [key(place), 0, place + 1], True),
    "set": lambda place: ("add", [key(place)], True),
    "map": lambda place: ("put", [key(place), place], None),
    "queue": lambda place: ("enq", [place], None),
    "stack": lambda place: ("push", [place], None),
    "prio": lambda place: ("insert", [key(place)], None),
}


def run(kind, count):
    records = [header(kind)]
    for k in range(count):
        tx, places = f"t{k}", range(3 * k, 3 * k + 3)
        records.append(begin(tx))
        records += [app(tx, place, *CALLS[kind](place)) for place in places]
        records += [named("push", tx, place) for place in places]
        records.append(cmt(tx))
    return records


def main():
    program = program_named()
    measure(program, "half of counter", run("counter", COUNT // 2))
    of_counter = None
    for kind in CALLS:
        whole = measure(program, kind, run(kind, COUNT))
        of_counter = of_counter or whole
        print(f"{kind}: to a counter {whole / of_counter:.2f}", flush=True)


if __name__ == "__main__":
    main()
