#!/usr/bin/env python3
"""Builds the recorder of GHC's STM, runs its programs, and checks what `certify` says of each run.

    python3 recorders/haskell/run.py [--keep FOLDER]
"""
import pathlib
import sys

FOLDER = pathlib.Path(__file__).resolve().parent
sys.dont_write_bytecode = True
sys.path.insert(0, str(FOLDER.parent))
import table  # noqa: E402
from table import Row  # noqa: E402

# Program and order; of a program with many threads also their number, the transactions of each, and a seed.
ROWS = [
    Row("bank ticket 2 60 1", "accepted"),
    Row("bank ticket 4 60 2", "accepted"),
    Row("bank ticket 8 40 3", "accepted"),
    Row("bank versions 2 60 1", "accepted"),
    Row("bank versions 4 60 2", "accepted"),
    Row("bank versions 8 40 3", "accepted"),
    Row("slots ticket 2 60 1", "accepted"),
    Row("slots ticket 8 30 2", "accepted"),
    Row("slots versions 2 60 1", "accepted"),
    Row("slots versions 8 30 2", "accepted"),
    Row("or-else ticket", "accepted", "haskell_or_else.jsonl"),
    Row("or-else versions", "accepted", "haskell_or_else.jsonl"),
    Row("part-again ticket", "accepted"),
    Row("part-again versions", "accepted"),
    Row("split ticket", "APP 4", "rejected_haskell_split.jsonl"),
    Row("split versions", "APP 4"),
    Row("early-read ticket", "APP 4"),
    Row("early-read versions", "APP 4"),
    Row("unsafe-read ticket", "APP 4"),
    Row("unsafe-read versions", "APP 4"),
    Row("nested ticket", "APP 4"),
    Row("nested versions", "APP 4"),
]


def build():
    table.need("ghc", "ghc")
    (FOLDER / "out").mkdir(exist_ok=True)
    table.build(["ghc", "-O", "-Wall", "-threaded", "-with-rtsopts=-N4", "-outputdir", "out", "-o", "out/programs", "Programs.hs"], FOLDER)


if __name__ == "__main__":
    sys.exit(table.main(__doc__.splitlines()[0], ROWS, ["out/programs"], FOLDER, build))
