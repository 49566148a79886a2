#!/usr/bin/env python3
"""Compares `tools/pozhiqas check` with `judge`, on random runs of a style of the law of locality, of two to four objects.

    python3 bench/in_parts.py PROGRAM [--style boosted] [--count N] [--seed S] [--jobs J]

Each run is split into as many parts as it has objects, and once more into two. `check` has to accept the run if `judge`
does. If not, it has to print the fault of `judge`, or its line, rule, criterion and evidence. The first run on which it
does not is shown, and then the status is 1. It is 1 too if no run is rejected after a split.
"""
import argparse
import collections
import concurrent.futures
import pathlib
import sys
import tempfile

from random_lines import text_of
from random_runs import LINES, Run

sys.path.insert(0, str(pathlib.Path(__file__).resolve().parent.parent / "tools"))
# pylint: disable=wrong-import-position
from check import InParts, check
from verified_program import ask

FAULTS = .05
STYLES = ("boosted", "optimistic", "hardware")


class RunOfParts(Run):
    """A random run of more than one object."""

    def count_objects(self):
        return self.chance.pick((2, 2, 3, 4))

    def propose_begin(self):
        """Mostly without a body: a run with one has no parts."""
        record = super().propose_begin()
        if record is not None and record["body"] is not None and self.chance.happens(.95):
            record["body"] = None
            del self.words[record["tx"]]
        return record


def wanted(judged):
    """What `check` has to print of a run that has parts, without the last lines."""
    first, end, others = judged.partition("\n")
    words = first.split()
    if words[0] == "accepted":
        return "accepted\n"
    return f"rejected {' '.join(words[3:])}{end}{others}" if words[0] == "rejected" else judged


def difference(program, path, jobs):
    """The words for a verdict, and how `check` and `judge` differ, or None."""
    with path.open("rb") as file:
        checked = check(program, file, jobs)
    judged = ask(program, ["judge"], path.read_bytes())
    is_whole = not isinstance(checked, InParts)
    printed = checked.output.decode()
    right = judged.text if is_whole else wanted(judged.text)
    is_same = printed.startswith(right) and checked.status == judged.status
    words = right.split()
    verdict = f"judged whole: {checked.why}" if is_whole else " ".join([words[0], *words[3:5]] if words[0] == "rejected" else words[:1])
    return verdict, None if is_same else f"{path.read_text(errors='replace')}\ncheck:\n{printed}\njudge:\n{judged.text}"


def written(folder, given):
    """Writes the runs, and returns their files."""
    files = []
    for number in range(given.count):
        run = RunOfParts(given.style, f"parts {given.style} {given.seed} {number}", LINES)
        files.append(folder / f"run_{number:06}.jsonl")
        files[-1].write_bytes(text_of(run.lines, run.chance, FAULTS))
    return files


def main():
    parser = argparse.ArgumentParser(description="Compares check with judge.")
    parser.add_argument("program", metavar="PROGRAM")
    parser.add_argument("--style", choices=STYLES, default="boosted")
    parser.add_argument("--count", type=int, default=1000, help="how many runs")
    parser.add_argument("--seed", type=int, default=1)
    parser.add_argument("--jobs", type=int, default=2, help="how many runs at a time")
    given = parser.parse_args()
    counts = collections.Counter()
    with tempfile.TemporaryDirectory() as name, concurrent.futures.ThreadPoolExecutor(given.jobs) as pool:
        program, files = str(pathlib.Path(given.program).resolve()), written(pathlib.Path(name), given)
        asked = [(program, path, jobs) for path in files for jobs in (4, 2)]
        for verdict, different in pool.map(lambda one: difference(*one), asked):
            if different:
                print(different)
                return 1
            counts[verdict] += 1
    for verdict, count in sorted(counts.items()):
        print(f"{count:6} {verdict}")
    print(f"{len(files)} runs: check prints what judge prints")
    return int(not any(verdict.startswith("rejected") for verdict in counts))


if __name__ == "__main__":
    sys.exit(main())
