#!/usr/bin/env python3
"""Compares `opaque` with the definition of opacity, on random runs of all styles.

    python3 bench/opaque.py PROGRAM [--count N] [--seed S] [--lines L]

`--count` is the number of runs of each style. Every other run is crowded: many transactions overlap on few cells, retry and
abort. The definition is that of opacity.py. The first run on which both differ is shown, and then the status is 1. With as
many runs as usual, the status is 1 too if no run of a style is opaque, or if no run has a zombie and the style is not boosted.
"""
import argparse
import collections
import subprocess
import sys

from definition_input import STYLES
from opacity import opacity
from random_lines import text_of
from random_runs import LINES, Run

COUNT = 2000
FAULTS = .05
CROWDED_LINES = 70
WEIGHTS = {"retry": .5, "abort": .5, "refresh": .5, "xbegin": 12, "xend": 1, "xabort": .5}


class Crowded(Run):
    """A run of a careful memory with many calls of transactions that overlap, over few cells and with many values."""

    def choose_care(self):
        super().choose_care()
        self.mistakes, self.hasty, self.wanted = 0, 0, None
        self.weights.update({step: weight for step, weight in WEIGHTS.items() if step in self.weights})

    def header(self):
        self.keys, self.values, self.most_open = (0,), range(1, 10), self.chance.pick((3, 4, 5))
        return super().header()

    def count_objects(self):
        return self.chance.pick((2, 3, 4))

    def pick_kind(self):
        return "mem" if self.style == "hardware" else self.chance.pick(("mem", "map", "counter"))


def crowded(style, seed, lines=CROWDED_LINES):
    run = Crowded(style, seed, lines)
    return text_of(run.lines, run.chance, 0)


def plain(style, seed):
    run = Run(style, seed, LINES)
    return text_of(run.lines, run.chance, FAULTS)


def runs(style, given):
    """The random runs of a style."""
    for number in range(given.count):
        seed = f"opaque {given.seed} {style} {number}"
        yield crowded(style, seed, given.lines) if number % 2 else plain(style, seed)


def printed(program, data):
    """What the program prints, and its status."""
    done = subprocess.run([program, "opaque"], input=data, capture_output=True, check=False)
    return done.stdout.decode(), done.returncode


def main():
    parser = argparse.ArgumentParser(description="Compares opaque with the definition of opacity.")
    parser.add_argument("program", metavar="PROGRAM")
    parser.add_argument("--count", type=int, default=COUNT, help="runs of each style (default: %(default)s)")
    parser.add_argument("--seed", default="1")
    parser.add_argument("--lines", type=int, default=CROWDED_LINES, help="lines of a crowded run (default: %(default)s)")
    given = parser.parse_args()
    for style in STYLES:
        found = collections.Counter()
        for data in runs(style, given):
            defined, program = opacity(data), printed(given.program, data)
            if defined != program:
                sys.stdout.write(f"{data.decode(errors='replace')}\ndefinition: {defined}\nprogram: {program}\n")
                return 1
            found[defined[0].partition(" ")[0]] += 1
        print(style, *(f"{word} {found[word]}" for word in sorted(found)))
        if given.count >= COUNT and (not found["opaque"] or (style != "boosted" and not found["zombie"])):
            return 1
    return 0


if __name__ == "__main__":
    sys.exit(main())
