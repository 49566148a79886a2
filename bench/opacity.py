#!/usr/bin/env python3
"""Decides whether an accepted run is opaque, by the definition of docs/RULES.md.

    python3 bench/opacity.py [--each-prefix] [--no-limits] FILE

It prints `opaque steps S committed K`, or the first own list that no number of commits in its window explains: the step after
which this is so with its line, the transaction with the ends of the window, and the list. Of another run it prints what
`certify` prints. The status is 0, 1 or that of `certify`.

It asks right after each APP, with what it kept of the steps before. With `--each-prefix` it asks after each prefix of the steps,
of each open transaction, and reads all that it needs off the steps of the prefix, as the definition does. That is slower. Both
use no code of the program, and nothing of them is proved.
"""
import argparse
import pathlib
import sys
from typing import NamedTuple

from definition import STATUS, Reading, text_of
from definition_input import NO_LIMITS, Fault, Limits, lines_of
from definition_objects import START, perform, same


class Zombie(NamedTuple):
    """An own list that no number of commits in its window explains, with the step after which this is so."""

    step: int
    line: int
    tx: str
    items: list
    least: int
    most: int

    def text(self):
        return text_of([f"zombie step {self.step} line {self.line}",
                        f"view {self.tx} ops {len(self.items)} from {self.least} to {self.most}",
                        *(f"op {number} {operation}" for number, operation in self.items)])


class Watched(Reading):
    """A reading that keeps the steps that were done, each with its line."""

    def __init__(self, limits):
        super().__init__(limits)
        self.done, self.start_items = [], None

    def take_header(self, line, number):
        super().take_header(line, number)
        if self.header.start is not None:
            self.start_items = [(item.id, item.operation) for item in self.header.start[1]]

    def take_steps(self, steps, number):
        for step in steps:
            super().take_steps([step], number)
            if self.rejection is not None:
                return
            self.done.append((step, number))


# Right after each APP

class Commits:
    """The committed transactions, in commit order: what is at a place after each number of them."""

    def __init__(self):
        self.count, self.versions = 0, {}

    def add(self, items):
        self.count += 1
        for _, operation in items:
            self.versions.setdefault(operation.place, []).append((self.count, perform(self.state(operation, self.count), operation)[0]))

    def state(self, operation, count):
        """What the first so many transactions leave at the place of an operation."""
        versions = self.versions.get(operation.place, ())
        return next((there for number, there in reversed(versions) if number <= count), START[operation.kind])

    def explain(self, count, items):
        """Whether these items are right after the first so many transactions."""
        states = {}
        for _, operation in items:
            there = states[operation.place] if operation.place in states else self.state(operation, count)
            states[operation.place], result = perform(there, operation)
            if not same(result, operation.result):
                return False
        return True


def zombie_at_apps(start_items, done):
    """The first own list right after its last APP that nothing in its window explains, or None."""
    commits, own, least = Commits(), {}, {}
    if start_items is not None:
        commits.add(start_items)
    for number, (step, line) in enumerate(done, 1):
        tx = step.tx
        if step.rule == "APP":
            own[tx].append((step.id, step.operation))
            if not any(commits.explain(count, own[tx]) for count in range(least[tx], commits.count + 1)):
                return Zombie(number, line, tx, own[tx], least[tx], commits.count)
        elif step.rule in ("BEGIN", "UNAPP"):
            own[tx] = own.get(tx, [])[:-1]
            if not own[tx]:
                least[tx] = commits.count
        elif step.rule == "CMT":
            commits.add(own[tx])
    return None


# After each prefix, by the definition

def own_list(tx, steps):
    """What a transaction applied in these steps and did not take back."""
    taken_back = {step.id for step in steps if step.rule == "UNAPP" and step.tx == tx}
    return [(step.id, step.operation) for step in steps if step.rule == "APP" and step.tx == tx and step.id not in taken_back]


def committed(start_items, steps):
    """The items of the committed transactions, in commit order, those of the start first."""
    return [*([] if start_items is None else [start_items]), *(own_list(step.tx, steps) for step in steps if step.rule == "CMT")]


def open_transactions(steps):
    ended = {step.tx for step in steps if step.rule in ("CMT", "QUIT")}
    return [step.tx for step in steps if step.rule == "BEGIN" and step.tx not in ended]


def starts_attempt(tx, steps):
    """Whether an attempt of the transaction begins with the last of these steps."""
    return steps[-1].tx == tx and steps[-1].rule in ("BEGIN", "UNAPP") and not own_list(tx, steps)


def is_allowed(items):
    states = {}
    for _, operation in items:
        states[operation.place], result = perform(states.get(operation.place, START[operation.kind]), operation)
        if not same(result, operation.result):
            return False
    return True


def window(start_items, tx, steps):
    """The number of commits when the attempt of a transaction began, and the number of commits in all of these steps."""
    began = max(length for length in range(1, len(steps) + 1) if starts_attempt(tx, steps[:length]))
    return len(committed(start_items, steps[:began])), len(committed(start_items, steps))


def sees_some(start_items, tx, steps):
    """Whether some number of commits in its window explains the own list of a transaction."""
    least, most = window(start_items, tx, steps)
    serial, own = committed(start_items, steps), own_list(tx, steps)
    return any(is_allowed([*(item for items in serial[:count] for item in items), *own]) for count in range(least, most + 1))


def zombie_at_prefixes(start_items, done):
    """The first own list after a prefix that nothing in its window explains, or None."""
    steps = [step for step, _ in done]
    for length in range(1, len(steps) + 1):
        past = steps[:length]
        for tx in open_transactions(past):
            if own_list(tx, past) and not sees_some(start_items, tx, past):
                return Zombie(length, done[length - 1][1], tx, own_list(tx, past), *window(start_items, tx, past))
    return None


def opacity(data, limits=Limits(), first_zombie=zombie_at_apps):
    """What is printed of an input, and the status."""
    reading, number = Watched(limits), None
    try:
        for number, line in lines_of(data, limits):
            if line is not None:
                reading.take(line, number)
        if reading.header is None:
            raise Fault("NoHeader", number + 1)
    except Fault as fault:
        return f"fault line {fault.line or number} {fault.cause}\n", STATUS["fault"]
    if reading.rejection is not None:
        return reading.rejection, STATUS["rejected"]
    zombie = first_zombie(reading.start_items, reading.done)
    if zombie is not None:
        return zombie.text(), 1
    return f"opaque steps {reading.steps} committed {len(reading.now.commits)}\n", 0


def main():
    parser = argparse.ArgumentParser(description="Decides whether an accepted run is opaque, by the definition of docs/RULES.md.")
    parser.add_argument("--each-prefix", action="store_true", help="ask after each prefix, and not only after each APP")
    parser.add_argument("--no-limits", action="store_true", help="no limit on bytes, lines, transactions and steps")
    parser.add_argument("file", metavar="FILE", type=pathlib.Path)
    given = parser.parse_args()
    text, status = opacity(given.file.read_bytes(), NO_LIMITS if given.no_limits else Limits(),
                           zombie_at_prefixes if given.each_prefix else zombie_at_apps)
    sys.stdout.write(text)
    return status


if __name__ == "__main__":
    sys.exit(main())
