#!/usr/bin/env python3
"""Writes random runs to a folder, for `bench/compare.py`.

    python3 bench/random_runs.py --style boosted --seed 1 --count 1000 FOLDER

A run has few objects, keys and values, so that its transactions meet. Some runs are of a careful memory: each result is
what the transaction sees, and each record is tried by the definition before it is written. Some are of a memory that is
careful except about one criterion. In the others some records are not tried, and some have a mistake. A few runs have a
spoiled line.

A run depends on its style, the seed and its own number, and on nothing else. With `--long` most runs have more than
200,000 steps.
"""
import argparse
import math
import pathlib
import random
import sys
from itertools import islice

from definition_input import RECORDS, STYLES
from definition_machine import COMMITTED, EFFECTS, PULLED, PUSHED, UNPUSHED, Configuration, Entry, Log, first_false, start, start_false
from definition_objects import CALLS, KEYED, Operation, perform
from definition_styles import Front
from random_lines import members, text_of, written

LONG_STEPS = 200_000
LINES = 40
TRIES = 8
# In style rules a pull is of one of so many last entries of the shared log, and a transaction with more entries leaves.
LAST_ENTRIES = 50
MOST_ENTRIES = 40
START_NAME = "t0"
KEYS = ((0,), (0, 1), (0, 1, 2), (-1, 10**18))
VALUES = ((1,), (0, 1), (0, 1), (0, 1, 2), (0, 1, 2), (-2, 0, 3, 4), (-10**18, 0, 10**18))
# How often each record is proposed, in each style.
WEIGHTS = {
    "rules": {"begin": 4, "app": 6, "push": 8, "pull": 5, "cmt": 6, "unpush": 2, "unapp": 1, "unpull": 2, "quit": 1, "note": .3},
    "boosted": {"begin": 5, "op": 12, "commit": 3, "abort": 1, "retry": 1},
    "optimistic": {"begin": 5, "op": 12, "commit": 3, "abort": 1, "retry": 1, "refresh": 3},
    "hardware": {"begin": 5, "op": 14, "commit": 2, "abort": 1, "retry": 1, "xbegin": 6, "xend": 5, "xabort": 1},
    "dependent": {"begin": 5, "op": 12, "commit": 4, "abort": 1, "retry": 1, "depend": 4, "publish": 4, "drop": 2},
}
# Rare criteria: some memories that are careful otherwise violate one of them.
WANTED = {
    "rules": (("PUSH", 3), ("PUSH", 4), ("UNPUSH", 3), ("UNPUSH", 4), ("PULL", 5), ("UNPULL", 3)),
    "boosted": (("PULL", 5),),
    "optimistic": (("PULL", 4), ("PULL", 5), ("PUSH", 5)),
    "hardware": (("PULL", 4), ("PULL", 5)),
    "dependent": (("PULL", 4), ("PULL", 5), ("UNPULL", 3), ("CMT", 4)),
}
# The mark of the entries that a record of style rules is about.
MARKS = {"push": UNPUSHED, "unapp": UNPUSHED, "unpush": PUSHED, "unpull": PULLED}


class Chance:
    """Random choices that are the same everywhere: Python promises that of `random()` alone."""

    def __init__(self, seed):
        self.next = random.Random(seed).random

    def happens(self, part):
        return self.next() < part

    def number(self, below):
        return int(self.next() * below)

    def pick(self, things):
        return things[self.number(len(things))]

    def weighted(self, weights):
        left = self.next() * sum(weights.values())
        for thing, weight in weights.items():
            left -= weight
            if left < 0:
                break
        return thing


class Run:
    """One random run: its lines so far, and the configuration after them."""

    def __init__(self, style, seed, most_lines, is_long=False):
        self.chance = chance = Chance(seed)
        self.style, self.is_long = style, is_long
        self.choose_care()
        self.kinds = {f"o{k}": self.pick_kind() for k in range(self.count_objects())}
        self.keys, self.values = chance.pick(KEYS), chance.pick(VALUES)
        self.most_open, self.stride = chance.pick((2, 3) if self.wanted else (1, 2, 3, 4)), chance.pick((1, 1, 3**12))
        self.now, self.front = Configuration(), Front(style)
        self.words, self.leaving, self.ids, self.begun = {}, {}, [], [START_NAME]
        self.steps, self.is_rejected, self.may_fail = 0, False, False
        self.lines = [self.header()]
        self.fill(most_lines if is_long or self.wanted else chance.pick((most_lines // 4, most_lines // 2, most_lines, most_lines)))

    def choose_care(self):
        """How often the memory makes a mistake, and how often it is hasty. One in five is careful except about one criterion."""
        chance, slow = self.chance, 1000 if self.is_long else 1
        self.mistakes = self.hasty = 0
        self.wanted = chance.pick(WANTED[self.style]) if chance.happens(.2) and not self.is_long else None
        if self.wanted is None and chance.happens(.9):
            self.mistakes, self.hasty = chance.pick((.005, .02, .06)) / slow, chance.pick((.05, .2, .7)) / slow
        self.weights = dict(WEIGHTS[self.style])
        step = self.wanted[0].lower() if self.wanted else None
        if step in self.weights:
            self.weights[step] *= 4

    def count_objects(self):
        return self.chance.pick((2, 4, 16) if self.is_long else (1,) if self.wanted else (1, 1, 2, 3))

    def pick_kind(self):
        is_memory = self.style == "hardware" and self.chance.happens(.6)
        return "mem" if is_memory else self.chance.pick(list(CALLS))

    def fill(self, most_lines):
        """Adds records until the run is long enough. After one that is rejected come up to three more."""
        more = math.inf
        turns = 10 * most_lines
        while more > 0 and turns > 0 and len(self.lines) < most_lines and self.steps <= LONG_STEPS * 1.1:
            turns -= 1
            self.turn()
            if self.is_rejected:
                more = min(more, 1 + self.chance.number(4)) - 1

    def makes_mistake(self, part=1):
        is_wrong = self.chance.happens(self.mistakes * part)
        self.may_fail |= is_wrong
        return is_wrong

    # The header

    def header(self):
        header = {"run": 1, "style": self.style, "objects": [{"name": name, "kind": kind} for name, kind in self.kinds.items()]}
        if self.chance.happens(.35):
            header.update(run=2, start={"tx": START_NAME, "ops": self.start_operations()})
        elif self.chance.happens(.1):
            header["start"] = 7
        return header

    def start_operations(self):
        """The operations of a start. By mistake an id is in it twice, or a result is another one."""
        log, items = Log(), []
        for _ in range(self.chance.pick((0, 1, 3, 6))):
            operation = self.new_call()
            items.append(Entry(self.new_id(), START_NAME, self.with_result(operation, log.state(operation)), COMMITTED))
            log.append(items[-1])
        if items and self.makes_mistake(3):
            items.insert(self.chance.number(len(items)), self.chance.pick(items))
        if start_false(items) is None:
            start(self.now, START_NAME, items)
        else:
            self.is_rejected = True
        return [{"id": item.id, **members(item.operation)} for item in items]

    # Calls

    def new_id(self):
        number = (len(self.ids) + 1) * self.stride % 10**9
        self.ids.append(number)
        return self.chance.pick(self.ids) if self.makes_mistake(.3) else number

    def new_call(self):
        """A call whose result is not known yet."""
        on, kind = self.chance.pick(list(self.kinds.items()))
        call = self.chance.pick(list(CALLS[kind]))
        args = [self.chance.pick(self.values) for _ in range(CALLS[kind][call][0])]
        if kind in KEYED:
            args[0] = self.chance.pick(self.keys)
        return Operation(on, kind, call, tuple(args), None)

    def with_result(self, operation, there):
        """The operation with its result after what is there, or by mistake with another one of the same form."""
        result = perform(there, operation)[1]
        form = CALLS[operation.kind][operation.call][1]
        if form != "null" and self.makes_mistake():
            result = not result if form == "truth" else self.other_number(form, result)
        if form.startswith("number") and result is not None and abs(result) > 10**18:
            result = 10**18
        return operation._replace(result=result)

    def other_number(self, form, result):
        others = [number for number in (0, 1, 2, *self.values) if number != result]
        return self.chance.pick([*others, None] if form == "number or null" and result is not None else others)

    def seen(self, tx, operation):
        """What a call of a transaction sees at its place: its local log, and what the call takes over before."""
        if tx not in self.now.open or self.makes_mistake(.5):
            return self.now.shared.state(operation)
        there = self.now.open[tx].log.state(operation)
        if self.style == "rules":
            return there
        record = {"step": "op", "tx": tx, "on": operation.on, "operation": operation}
        for step in self.front.steps(self.now, record):
            entry = self.now.shared.entries.get(step.id) if step.rule == "PULL" else None
            if entry is not None and entry.operation.place == operation.place:
                there = perform(there, entry.operation)[0]
        return there

    def next_call(self, tx):
        """The next call of a transaction: that of its body, if it has one, or None at the end of its body."""
        word = self.words.get(tx)
        if word is None or tx not in self.now.open or self.makes_mistake():
            return self.new_call()
        done = len(self.now.open[tx].own())
        return word[done] if done < len(word) else None

    # Bodies

    def body(self, depth=3):
        """A body, and one of its words."""
        form = self.chance.pick(("call", "seq", "seq", "alt", "star") if depth else ("call", "call", "skip"))
        if form == "skip":
            return {"skip": True}, []
        if form == "call":
            call = self.new_call()
            args = [None if self.chance.happens(.4) else number for number in call.args]
            return {"on": call.on, "call": call.call, "args": args}, [call]
        parts = [self.body(depth - 1) for _ in range(1 + self.chance.number(3))]
        if form == "star":
            return {"star": parts[0][0]}, parts[0][1] * self.chance.number(4)
        word = [call for part in parts for call in part[1]] if form == "seq" else self.chance.pick(parts)[1]
        return {form: [part[0] for part in parts]}, word

    # Records

    def turn(self):
        """Adds a record. The run is rejected at it only if the memory is hasty or makes a mistake here."""
        for _ in range(TRIES):
            self.may_fail = self.chance.happens(self.hasty)
            record = self.propose()
            if record is not None and (self.is_rejected or self.take(record)):
                if not self.makes_mistake(.1):
                    self.lines.append(written(record))
                return

    def propose(self):
        """A record, or None if there is nothing to do for its step."""
        step, tx = self.chance.weighted(self.weights), self.pick_transaction()
        if step == "begin":
            return self.propose_begin()
        if tx is None:
            return None
        if self.style == "rules" and tx in self.now.open:
            step = self.step_of_rules(step, tx)
        if step in ("op", "app"):
            return self.propose_call(step, tx)
        record = {"step": step, "tx": tx}
        for member in RECORDS[self.style][step][1:]:
            record[member] = self.pick_member(member, step, tx)
        return None if None in record.values() else record

    def propose_call(self, step, tx):
        operation = self.next_call(tx)
        if operation is None:
            return None
        operation = self.with_result(operation, self.seen(tx, operation))
        return {"step": step, "tx": tx, "id": self.new_id(), "on": operation.on, "operation": operation}

    def step_of_rules(self, step, tx):
        """A step of style rules, which has no record for an abort: a transaction that leaves takes back its last entry."""
        entries = self.now.open[tx].log.entries
        if self.chance.happens(.02) or len(entries) > MOST_ENTRIES:
            self.leaving[tx] = True
        if tx in self.leaving and not self.makes_mistake(5):
            last = next(reversed(entries.values()), None)
            return "quit" if last is None else {UNPUSHED: "unapp", PUSHED: "unpush", PULLED: "unpull"}[last.mark]
        is_early = step == "cmt" and any(entry.mark == UNPUSHED for entry in entries.values())
        return "push" if is_early and self.chance.happens(.9) else step

    def propose_begin(self):
        is_reused = self.makes_mistake(.5)
        if len(self.now.open) >= self.most_open and not is_reused:
            return None
        tx = self.chance.pick(self.begun) if is_reused and self.chance.happens(.5) else f"t{len(self.begun)}"
        free = [name for name in (f"p{k}" for k in range(self.most_open))
                if is_reused or all(name != one.thread for one in self.now.open.values())]
        record = {"step": "begin", "tx": tx, "thread": self.chance.pick(free) if free else tx, "body": None}
        if self.chance.happens(.15):
            record["body"], self.words[tx] = self.body()
        self.begun.append(tx)
        return record

    def pick_transaction(self):
        """An open transaction, or by mistake one that is not."""
        if self.makes_mistake(.3):
            return self.chance.pick(self.begun)
        return self.chance.pick(list(self.now.open)) if self.now.open else None

    def pick_member(self, member, step, tx):
        if member == "on":
            return self.chance.pick(list(self.kinds))
        if member == "source":
            return self.pick_source(tx)
        return self.pick_entry(step, tx)

    def pick_source(self, tx):
        """Mostly an open transaction that has published something."""
        published = [name for name, one in self.now.open.items()
                     if name != tx and any(entry.mark == PUSHED for entry in one.own())]
        return self.chance.pick(published if published and self.chance.happens(.8) else self.begun)

    def pick_entry(self, step, tx):
        """The id of an entry that a step of style rules may be about, mostly the natural one."""
        if self.makes_mistake() or tx not in self.now.open:
            return self.chance.pick(self.ids) if self.ids else 0
        log, shared = self.now.open[tx].log, self.now.shared
        if step == "pull":
            last = [*islice(reversed(shared.entries.values()), LAST_ENTRIES)]
            numbers = [entry.id for entry in reversed(last) if entry.id not in log.entries and entry.owner != tx]
        else:
            numbers = [entry.id for entry in log.entries.values() if entry.mark == MARKS[step]]
        if not numbers:
            return None
        if tx not in self.leaving and self.chance.happens(.3):
            return self.chance.pick(numbers)
        return numbers[0 if step in ("push", "pull") else -1]

    # Trying a record

    def take(self, record):
        """Takes the steps of a record up to the first that is rejected. If none may be, nothing is changed then."""
        before = Before(self.now, self.front, record["tx"])
        steps = self.front.steps(self.now, record)
        for position, step in enumerate(steps):
            wrong = first_false(self.now, step)
            if wrong is not None:
                if not self.may_fail and (step.rule, wrong[0]) != self.wanted:
                    before.restore(steps[:position])
                    return False
                self.is_rejected = True
                return True
            EFFECTS[step.rule](self.now, step)
        self.steps += len(steps)
        return True


class Before:
    """What a record changes of its transaction, as it was before the record."""

    def __init__(self, now, front, tx):
        self.now, self.front, self.tx = now, front, tx
        log = now.open[tx].log if tx in now.open else Log()
        self.entries = [(entry, entry.mark) for entry in log.entries.values()]
        self.section, self.sources = front.sections.get(tx), dict(front.sources.get(tx, {}))

    def restore(self, done):
        """Takes back these steps, which do not close the transaction. None of them withdraws an entry."""
        for step in done:
            if step.rule == "PUSH":
                entry = self.now.shared.entries[step.id]
                self.now.shared.remove(step.id)
                del self.now.uncommitted[entry.operation.place][step.id]
            self.now.ids -= {step.id} if step.rule == "APP" else set()
        if self.tx in self.now.open:
            self.now.open[self.tx].log = log = Log()
            for entry, mark in self.entries:
                entry.mark = mark
                log.append(entry)
        self.front.sources[self.tx] = self.sources
        self.front.sections.pop(self.tx, None)
        if self.section is not None:
            self.front.sections[self.tx] = self.section


def main():
    parser = argparse.ArgumentParser(description="Writes random runs to a folder.")
    parser.add_argument("--style", choices=STYLES, required=True)
    parser.add_argument("--seed", type=int, default=1)
    parser.add_argument("--count", type=int, default=1000, help="how many runs")
    parser.add_argument("--lines", type=int, help="at most so many lines in a run (default: 40, or any number with --long)")
    parser.add_argument("--long", action="store_true", help="runs of more than 200,000 steps")
    parser.add_argument("--faults", type=float, default=.05, help="the part of the runs with a spoiled line (default: 0.05)")
    parser.add_argument("folder", metavar="FOLDER", type=pathlib.Path)
    given = parser.parse_args()
    given.folder.mkdir(parents=True, exist_ok=True)
    most_lines = given.lines or (math.inf if given.long else LINES)
    for number in range(given.count):
        run = Run(given.style, f"{given.style} {given.seed} {number}", most_lines, given.long)
        (given.folder / f"{given.style}_{given.seed}_{number:05}.jsonl").write_bytes(text_of(run.lines, run.chance, given.faults))
    return 0


if __name__ == "__main__":
    sys.exit(main())
