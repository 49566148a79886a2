#!/usr/bin/env python3
"""Runs the programs over recorded Clojure refs, and checks what `certify` says of each run.

    python3 recorders/clojure/run.py [--keep FOLDER]
"""
import pathlib
import sys

FOLDER = pathlib.Path(__file__).resolve().parent
sys.dont_write_bytecode = True
sys.path.insert(0, str(FOLDER.parent))
import table  # noqa: E402
from table import Row  # noqa: E402

# Program and order; of a program with many threads also their number, the transactions of each, and a seed.
ROWS = [
    Row("bank clock 2 60 1", "accepted", has_views=True),
    Row("bank clock 4 40 2", "accepted", has_views=True),
    Row("bank clock 8 20 3", "accepted", has_views=True),
    Row("bank ticket 4 40 2", "accepted"),
    Row("tally clock 2 60 1", "accepted", has_views=True),
    Row("tally clock 4 50 2", "accepted", has_views=True),
    Row("tally clock 8 30 3", "accepted", has_views=True),
    Row("tally ticket 4 50 2", "accepted"),
    Row("on-call clock 2 30 1", "accepted", has_views=True),
    Row("on-call clock 3 20 2", "accepted", has_views=True),
    Row("on-call clock 4 10 3", "accepted", has_views=True),
    Row("adds clock", "accepted", "clojure_adds.jsonl"),
    Row("skew clock", "PUSH 5", "rejected_clojure_skew.jsonl"),
    Row("skew snapshot", "APP 4"),
    Row("skew ticket", "accepted"),
    Row("stale clock", "PUSH 5", "rejected_clojure_stale.jsonl"),
    Row("stale snapshot", "accepted", "clojure_stale.jsonl"),
    Row("stale ticket", "accepted"),
    Row("numbers clock", "PUSH 5", "rejected_clojure_numbers.jsonl"),
    Row("numbers ticket", "accepted"),
    Row("peeks clock", "APP 4"),
    Row("doubles clock", "APP 4"),
    Row("early-read clock", "APP 4"),
    Row("side-effect clock", "APP 4"),
]


def prepare():
    table.need("clojure", "clojure")


if __name__ == "__main__":
    sys.exit(table.main(__doc__.splitlines()[0], ROWS, ["clojure", "-cp", ".", "-m", "programs"], FOLDER, prepare))
