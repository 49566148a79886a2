#!/usr/bin/env python3
"""Runs of the recorded styles with many calls on one object, or in one long transaction.

    python3 bench/no_squares.py crates/pp_cli/out/pp_cli

Each run is made at two sizes, one twice the other. For both, the time of `certify` is printed beside the time of only reading
the same records, and their ratio. The last column is the time of the larger run divided by that of the smaller one. A run
is only read if a record that fails comes first. A benchmark ends with a failure if a run does not have the verdict it
should have. It ends with status 1 if a run takes more than 6 times as long as only reading it, or if twice the work takes
more than 2.2 times as long, three times in a row.
"""
import itertools
import os
import sys
import tempfile

from measure import MOST_STEPS, answered, begin, program_named, write

FAILING = {"step": "commit", "tx": "none"}
MOST_RATIO = 6
MOST_GROWTH = 2.2
MOST_MEASUREMENTS = 3


def header(style, *kinds):
    """The header of a run over objects of these kinds, named o1, o2 and so on."""
    objects = [{"name": f"o{place}", "kind": kind} for place, kind in enumerate(kinds, 1)]
    return {"run": 1, "style": style, "objects": objects}


def opened(count):
    """The names of so many transactions, and their begin records."""
    names = [f"t{place}" for place in range(count)]
    return names, [begin(tx, f"p{tx}") for tx in names]


def op(tx, number, call, args, result=None, on="o1"):
    return {"step": "op", "tx": tx, "id": number, "on": on, "call": call, "args": args, "result": result}


def named(step, tx, **members):
    return {"step": step, "tx": tx, **members}


def in_turn(transactions, call, calls):
    """Open transactions that make these calls in turn, and the steps of the run: a call is applied and pushed."""
    names, begins = opened(transactions)
    turns = zip(range(calls), itertools.cycle(names))
    return begins + [op(tx, number, *call(number)) for number, tx in turns], transactions + 2 * calls, 0


def one_map(calls):
    """One transaction that puts at a key of a map and gets what it put."""
    def call(number):
        key, turn = number // 2 % 64, number // 128
        if number % 2:
            return "get", [key], turn
        return "put", [key, turn], turn - 1 if turn else None
    records, steps, _ = in_turn(1, call, calls)
    return records + [named("commit", "t0")], steps + 1, 1


def two_adding(calls):
    """Two transactions add in turn. One commits, and the other pulls its additions and adds once more."""
    records, steps, _ = in_turn(2, lambda number: ("add", [1]), 2 * calls)
    ends = [named("commit", "t0"), op("t1", 2 * calls, "add", [1]), named("commit", "t1")]
    return records + ends, steps + 1 + calls + 3, 2


def sections(count):
    """One transaction of hardware sections. Each reads and writes two memories out of 16."""
    names, records = opened(1)
    tx, numbers = names[0], itertools.count()
    values = [0] * 16
    for place in range(count):
        records.append(named("xbegin", tx))
        for at in (2 * place % 16, (2 * place + 1) % 16):
            records.append(op(tx, next(numbers), "read", [0], values[at], f"o{at + 1}"))
            values[at] = place + 1
            records.append(op(tx, next(numbers), "write", [0, values[at]], None, f"o{at + 1}"))
        records.append(named("xend", tx))
    return records + [named("commit", tx)], 1 + 10 * count + 1, 1


def dropped(calls):
    """A transaction publishes additions one by one. Another pulls all of them and drops them, twice over."""
    (source, tx), records = opened(2)
    for number in range(calls):
        records += [op(source, number, "add", [1]), named("publish", source)]
    for number in (calls, calls + 1):
        records += [named("depend", tx, source=source), op(tx, number, "add", [1]), named("drop", tx, source=source)]
    return records + [named("commit", source)], 2 + 3 * calls + 2 * (1 + calls + 1 + 1 + calls) + 1, 1


def dropped_and_retried(count):
    """A source publishes many additions, which another pulls and drops, and retries. Then the same of one addition at a time."""
    (source, tx), records = opened(2)
    numbers = itertools.count()
    sizes = [2 * count] + [1] * count
    for size in sizes:
        records += [op(source, next(numbers), "add", [1]) for _ in range(size)]
        records += [named("publish", source), named("depend", tx, source=source), op(tx, next(numbers), "add", [1])]
        records += [named("drop", tx, source=source), named("retry", source)]
    return records + [named("commit", source)], 2 + sum(6 * size + 5 for size in sizes) + 1, 1


def retaken(count):
    """A transaction takes the additions of a large source, and then those of a small one, which it drops after each call."""
    (large, small, tx), records = opened(3)
    numbers = itertools.count()
    for source in [large] * 4 * count + [small]:
        records += [op(source, next(numbers), "add", [1]), named("publish", source)]
    records.append(named("depend", tx, source=large))
    for _ in range(count):
        records += [named("depend", tx, source=small), op(tx, next(numbers), "add", [1]), named("drop", tx, source=small)]
    return records + [named("commit", large)], 3 + 3 * (4 * count + 1) + 1 + 4 * count + 5 * count + 1, 1


def dropped_alone(count):
    """A transaction that read much drops sources one by one, of which it has nothing."""
    (tx, *sources), records = opened(1 + count)
    records += [named("depend", tx, source=source) for source in sources]
    records += [op(tx, number, "read", [0], 0) for number in range(7 * count)]
    records += [named("drop", tx, source=source) for source in sources]
    return records + [named("commit", tx)], 1 + count + count + 7 * count + count + 7 * count + 1, 1


def withdrawn(count):
    """The source of a reader publishes an addition and withdraws it, and so on. Then many other readers call once each."""
    (source, *readers), records = opened(1 + count)
    numbers = itertools.count()

    def calls(reader):
        return [named("depend", reader, source=source), op(reader, next(numbers), "add", [1])]

    records += calls(readers[0])
    for _ in range(count):
        records += [op(source, next(numbers), "add", [1]), named("publish", source), named("retry", source)]
    for reader in readers[1:]:
        records += calls(reader)
    return records + [named("commit", readers[0])], 1 + count + 6 * count + 2 * count + 2, 1


def withdrawn_beside(count):
    """`withdrawn`, after another transaction has committed as many additions to another object."""
    records, steps, committed = withdrawn(count)
    first = [begin("w", "pw")] + [op("w", 3 * count + number, "add", [1], on="o2") for number in range(count)] + [named("commit", "w")]
    return first + records, 1 + 2 * count + 1 + steps, committed + 1


def withdrawn_beside_open(count):
    """`withdrawn`, after another transaction has published 40 additions to the same object, which stay uncommitted."""
    records, steps, committed = withdrawn(count)
    first = [begin("w", "pw")] + [op("w", 3 * count + number, "add", [1]) for number in range(40)] + [named("publish", "w")]
    return first + records, 2 + 2 * 40 + steps, committed


def withdrawn_by_many(count):
    """A transaction commits additions to another object. Many sources publish one addition each and withdraw it. Then a reader
    of all of them calls many times."""
    (reader, writer, *sources), records = opened(2 + count)
    numbers = itertools.count()

    def calls(number, on):
        return [op({"o1": reader, "o2": writer}[on], next(numbers), "add", [1], on=on) for _ in range(number)]

    records += calls(2 * count, "o2") + [named("commit", writer)]
    records += [named("depend", reader, source=source) for source in sources] + calls(1, "o1")
    for source in sources:
        records += [op(source, next(numbers), "add", [1]), named("publish", source), named("retry", source)]
    records += calls(16 * count, "o1") + [named("commit", reader)]
    steps = (2 + count) + (4 * count + 1) + count + 1 + 6 * count + 16 * count + (16 * count + 1) + 1
    return records, steps, 2


def followed(calls):
    """A transaction publishes additions one by one. Another, whose source it is, adds after each of them."""
    (source, tx), records = opened(2)
    records.append(named("depend", tx, source=source))
    for number in range(0, 2 * calls, 2):
        records += [op(source, number, "add", [1]), named("publish", source), op(tx, number + 1, "add", [1])]
    return records + [named("commit", source), named("commit", tx)], 2 + 1 + 5 * calls + 1 + calls + 1, 2


def undone(rounds):
    """A transaction puts at 6,000 keys of a map and takes all of it back, and so on."""
    names, records = opened(1)
    numbers = itertools.count()
    for _ in range(rounds):
        records += [op(names[0], next(numbers), "put", [key, 1]) for key in range(6_000)]
        records.append(named("retry", names[0]))
    return records + [named("commit", names[0])], 1 + rounds * (4 * 6_000 + 1) + 1, 1


def aborted(count):
    """A transaction commits reads. Another reads too, and then again in sections, each of which is aborted."""
    (first, tx), records = opened(2)
    records += [op(first, number, "read", [0], 0) for number in range(2 * count)]
    records += [named("commit", first), op(tx, 2 * count, "read", [0], 0)]
    for number in range(2 * count + 1, 3 * count + 1):
        records += [named("xbegin", tx), op(tx, number, "read", [0], 0), named("xabort", tx)]
    return records + [named("commit", tx)], 2 + 4 * count + 1 + 2 * count + 2 + 4 * count + 1, 2


def aborted_beside_commits(count):
    """A transaction takes over many committed reads. Each time that one more is committed, it reads in a section, which is
    aborted, and then outside of it."""
    (first, tx, *others), records = opened(2 + count)
    numbers = itertools.count()
    records += [op(other, next(numbers), "read", [0], 0) for other in others]
    records += [op(first, next(numbers), "read", [0], 0) for _ in range(4 * count)]
    records += [named("commit", first), op(tx, next(numbers), "read", [0], 0)]
    for other in others:
        records += [named("commit", other), named("xbegin", tx), op(tx, next(numbers), "read", [0], 0)]
        records += [named("xabort", tx), op(tx, next(numbers), "read", [0], 0)]
    steps = 2 + count + 2 * count + 8 * count + 1 + 4 * count + 2 + 10 * count + 1
    return records + [named("commit", tx)], steps, 2 + count


# Of each run its name, its header, what makes it of its size, and the larger size.
RUNS = (
    ("one transaction on a map", header("boosted", "map"), one_map, 99_998),
    ("1,000 open transactions on a counter", header("boosted", "counter"),
     lambda calls: in_turn(1_000, lambda number: ("add", [1]), calls), 99_500),
    ("500 open transactions read an address", header("boosted", "mem"),
     lambda calls: in_turn(500, lambda number: ("read", [0], 0), calls), 99_750),
    ("64 open transactions on 64 keys", header("boosted", "map"),
     lambda calls: in_turn(64, lambda number: ("put", [number % 64, number // 64], (number // 64 or None) and number // 64 - 1),
                           calls), 99_840),
    ("60 open transactions, each key once", header("boosted", "map"),
     lambda calls: in_turn(60, lambda number: ("put", [number, number]), calls), 99_940),
    ("60 open transactions, failing cas", header("boosted", "mem"),
     lambda calls: in_turn(60, lambda number: ("cas", [0, 1, 2], False), calls), 99_940),
    ("two transactions add, one commits", header("boosted", "counter"), two_adding, 39_990),
    ("hardware sections on 16 memories", header("hardware", *["mem"] * 16), sections, 19_998),
    ("additions pulled and dropped twice", header("dependent", "counter"), dropped, 20_000),
    ("a source dropped and retried", header("dependent", "counter"), dropped_and_retried, 7_500),
    ("a small source dropped beside a large one", header("dependent", "counter"), retaken, 5_000),
    ("sources dropped by a long transaction", header("dependent", "mem"), dropped_alone, 11_000),
    ("additions published and withdrawn", header("dependent", "counter"), withdrawn, 17_900),
    ("additions withdrawn beside additions that stay", header("dependent", "counter", "counter"), withdrawn_beside, 16_000),
    ("additions withdrawn beside uncommitted ones", header("dependent", "counter"), withdrawn_beside_open, 17_800),
    ("additions withdrawn by many sources", header("dependent", "counter", "counter"), withdrawn_by_many, 3_500),
    ("additions of a source, a reader after each", header("dependent", "counter"), followed, 20_000),
    ("rounds of 6,000 calls, each undone", header("boosted", "map"), undone, 8),
    ("hardware sections that read and abort", header("hardware", "mem"), aborted, 10_000),
    ("aborted sections beside commits", header("hardware", "mem"), aborted_beside_commits, 5_000),
)


def measure(program, path, head, made):
    """The time of `certify` on a run, and that of only reading its records."""
    records, steps, committed = made
    if steps > MOST_STEPS:
        raise SystemExit(f"bench: {steps} steps")
    write(path, [head, FAILING, *records[:-1]])
    read = answered(program, "certify", path, "rejected step 1 line 2 CMT 1")
    write(path, [head, *records])
    return answered(program, "certify", path, f"accepted steps {steps} committed {committed}"), read


def above_limits(half, whole, read):
    """What is above its limit: the ratio to only reading, or the time of twice the work."""
    values = ((whole / read, MOST_RATIO, "times only reading"), (whole / half, MOST_GROWTH, "times half of the work"))
    return [f"{value:.2f} {words}, and {most} is the limit" for value, most, words in values if value > most]


def measure_both(program, path, name, head, make, size):
    """Prints the times of a run and of its half. Returns what is above its limit."""
    half, half_read = measure(program, path, head, make(size // 2))
    whole, read = measure(program, path, head, make(size))
    print(f"{name}: {whole:.2f} s, only read {read:.2f} s, ratio {whole / read:.1f}; of half "
          f"{half:.2f} s, {half_read:.2f} s, {half / half_read:.1f}; twice the work {whole / half:.2f}", flush=True)
    return above_limits(half, whole, read)


def is_slow(program, path, run):
    """Whether a run is above a limit, each time that it is measured. Other programs may have slowed one measurement."""
    for _ in range(MOST_MEASUREMENTS):
        above = measure_both(program, path, *run)
        if not above:
            return False
    for words in above:
        print(f"bench: {run[0]}: {words}", file=sys.stderr, flush=True)
    return True


def main():
    program = program_named()
    with tempfile.TemporaryDirectory() as folder:
        path = os.path.join(folder, "run.jsonl")
        slow = [is_slow(program, path, run) for run in RUNS]
    return 1 if any(slow) else 0


if __name__ == "__main__":
    sys.exit(main())
