#!/usr/bin/env python3
"""Transactions that are open at once on one hot object.

    python3 bench/together.py crates/pp_cli/out/pp_cli

- counter: 1,000 transactions stand open and each adds in turn, until each has added 99 times.
- map: 1,000 transactions stand open. Each has pulled 39 of the 64 hot keys; in turn each reads one of them and
  puts on a key of its own, which no other touches, until it has read all.
- priority queue: two transactions stand open and insert in turn, each time another number.
- one stays open: 19,999 transactions add three times and commit, one after another, while one that stays open
  adds once for each of them.

Each run is measured at half its length, too, with half the calls or half the commits.
"""
from measure import app, begin, cmt, header, measure_twice, named, program_named

OPEN = 1_000
ADDITIONS = 99
INSERTIONS = 99_900
HOT_KEYS = 64
ROUNDS = 39
COMMITS = 19_999


def call_and_push(tx, number, *call):
    return [app(tx, number, *call), named("push", tx, number)]


def names():
    return [f"t{k}" for k in range(1, OPEN + 1)]


def begin_all():
    return [begin(tx, f"p{tx}") for tx in names()]


def commit_all():
    return [cmt(tx) for tx in names()]


def on_counter(rounds):
    records = [header("counter"), *begin_all()]
    number = 0
    for _ in range(rounds):
        for tx in names():
            number += 1
            records += call_and_push(tx, number, "add", [number % 3 + 1])
    return records + commit_all()


def hot_keys():
    """A first transaction that puts the key k with the id k and the value 10 k."""
    puts = (record for key in range(HOT_KEYS) for record in call_and_push("t0", key, "put", [key, 10 * key]))
    return [begin("t0"), *puts, cmt("t0")]


def hot_key(k, place):
    """The keys that transaction k reads begin with its own number."""
    return (k + place) % HOT_KEYS


def on_map(rounds):
    """Each transaction pulls as many hot keys as there are rounds; in a round it reads one, and puts on its own."""
    records = [header("map"), *hot_keys(), *begin_all()]
    records += [named("pull", tx, hot_key(k, i)) for k, tx in enumerate(names()) for i in range(rounds)]
    number = HOT_KEYS
    for i in range(rounds):
        for k, tx in enumerate(names()):
            key, own = hot_key(k, i), HOT_KEYS + k
            records += call_and_push(tx, number, "get", [key], 10 * key)
            records += call_and_push(tx, number + 1, "put", [own, i], i - 1 if i else None)
            number += 2
    return records + commit_all()


def on_priority_queue(insertions):
    records = [header("prio"), begin("t0", "p0"), begin("t1", "p1")]
    for number in range(insertions):
        records += call_and_push(f"t{number % 2}", number, "insert", [number])
    return records + [cmt("t0"), cmt("t1")]


def beside_open(commits):
    records = [header("counter"), begin("open", "p0")]
    for k in range(commits):
        tx, number = f"t{k}", 4 * k
        records += call_and_push("open", number, "add", [1])
        records.append(begin(tx))
        for place in range(number + 1, number + 4):
            records += call_and_push(tx, place, "add", [place % 3 + 1])
        records.append(cmt(tx))
    return records + [cmt("open")]


def main():
    program = program_named()
    measure_twice(program, "counter, 1,000 open", on_counter, ADDITIONS)
    measure_twice(program, "map, 1,000 open", on_map, ROUNDS)
    measure_twice(program, "priority queue, two open", on_priority_queue, INSERTIONS)
    measure_twice(program, "commits beside one that stays open", beside_open, COMMITS)


if __name__ == "__main__":
    main()
