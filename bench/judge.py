#!/usr/bin/env python3
"""Compares `judge` with `certify` and with the plain definition, on random runs of a style.

    python3 bench/judge.py PROGRAM [--style boosted] [--count N] [--long N] [--seed S] [--jobs J]

`--count` is the number of short runs and `--long` that of long ones. Most long runs have more than 200,000 steps, except in
style rules. The definition takes some seconds for a long run. `judge` has to print what the definition prints within the
limits of `judge`, and what `certify` prints unless that is a limit that `judge` raises. The first run on which it does
not is shown.

The status is 1 if there is such a run. It is 1 too if `certify` printed TooManySteps for no long run of such a style, as may
happen if there are few, or if no run violates one of the criteria below first, with as many short runs as usual. Else it is 0.
"""
import argparse
import collections
import math
import pathlib
import sys
import tempfile

from compare import compare, print_table, show, verdict_named
from random_lines import text_of
from random_runs import LINES, Run

FAULTS = .05
SHORT_RUNS, LONG_RUNS = 2000, 6
# The criteria that random runs of each style violate first.
IN_ALL_STYLES = ("START 1", "START 2", "BEGIN 1", "BEGIN 2", "APP 1", "APP 2", "APP 3", "APP 4", "PUSH 5", "PULL 5", "CMT 1",
                 "CMT 2", "QUIT 1", "NOTE 1")
IN_RULES = ("UNAPP 1", "UNAPP 2", "PUSH 1", "PUSH 2", "PUSH 3", "PUSH 4", "UNPUSH 1", "UNPUSH 2", "UNPUSH 3", "UNPUSH 4", "PULL 1",
            "PULL 2", "PULL 3", "PULL 4", "UNPULL 1", "UNPULL 2", "UNPULL 3", "CMT 3", "CMT 4", "QUIT 2")
CRITERIA = {
    "rules": (*IN_ALL_STYLES, *IN_RULES),
    "boosted": (*IN_ALL_STYLES, "PUSH 4"),
    "optimistic": (*IN_ALL_STYLES, "PULL 4"),
    "hardware": (*IN_ALL_STYLES,),
    "dependent": (*IN_ALL_STYLES,),
}

# The limits of `certify` that `judge` raises.
RAISED = "TooManySteps", "TooManyTransactions", "TooManyLines", "TooLong"


def write_runs(folder, style, seed, count, long):
    """Writes random runs of a style to a folder."""
    for number in range(count):
        run = Run(style, f"judge {seed} {long} {number}", math.inf if long else LINES, long)
        (folder / f"{'long' if long else 'short'}_{number:06}.jsonl").write_bytes(text_of(run.lines, run.chance, FAULTS))


def has_too_many(certified):
    return certified[0].endswith(" TooManySteps\n")


def is_same(judged, certified, defined):
    """Whether `judge` prints what it has to print."""
    raised = any(certified[0].endswith(f" {cause}\n") for cause in RAISED)
    return judged == defined and (raised or judged == certified)


def gaps(counts, too_many, given):
    """What the runs were to show and did not."""
    if given.count >= SHORT_RUNS:
        yield from (f"no run violates {criterion} first" for criterion in CRITERIA[given.style] if not counts[criterion])
    if given.style != "rules" and given.long and not too_many:
        yield "certify printed TooManySteps for no run"


def main():
    parser = argparse.ArgumentParser(description="Compares judge with certify and with the plain definition.")
    parser.add_argument("program", metavar="PROGRAM")
    parser.add_argument("--style", choices=CRITERIA, default="boosted")
    parser.add_argument("--count", type=int, default=SHORT_RUNS, help="how many short runs")
    parser.add_argument("--long", type=int, default=LONG_RUNS, help="how many long runs")
    parser.add_argument("--seed", type=int, default=1)
    parser.add_argument("--jobs", type=int, default=2, help="how many files at a time")
    given = parser.parse_args()
    programs = (f"{given.program} judge", f"{given.program} certify", "definition-judge")
    counts, different, too_many = collections.Counter(), 0, 0
    with tempfile.TemporaryDirectory() as name:
        folder = pathlib.Path(name)
        write_runs(folder, given.style, given.seed, given.count, False)
        write_runs(folder, given.style, given.seed, given.long, True)
        files = sorted(folder.iterdir())
        for file, outputs in compare(programs, files, given.jobs):
            counts[verdict_named(outputs[0][0])] += 1
            too_many += has_too_many(outputs[1])
            if not is_same(*outputs):
                if not different:
                    show(file, programs, outputs)
                    print(file.read_text(errors="replace")[:4000])
                different += 1
    print_table(counts)
    print(f"{len(files)} runs: {len(files) - different} agree, {different} differ, {too_many} have too many steps for certify")
    missing = list(gaps(counts, too_many, given))
    print(*missing, sep="\n", end="\n" * bool(missing))
    return int(bool(different or missing))


if __name__ == "__main__":
    sys.exit(main())
