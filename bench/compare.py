#!/usr/bin/env python3
"""Runs two programs on each file of a folder, and says whether they print the same and end with the same status.

    python3 bench/compare.py './pp_cli certify' definition FOLDER

A program is a command that reads a run on its standard input, or a word that means `bench/definition.py`: `definition`,
`definition-no-limits`, or `definition-judge`, which has the limits of the command `judge`. The first file on which they differ is shown. A table has the number of files with each
verdict of the first program. The status is 1 if they differ on a file, and else 0.
"""
import argparse
import collections
import concurrent.futures
import pathlib
import shlex
import subprocess
import sys

from definition import verdict
from definition_input import JUDGE_LIMITS, NO_LIMITS, Limits

LIMITS = {"definition": Limits(), "definition-no-limits": NO_LIMITS, "definition-judge": JUDGE_LIMITS}
SHOWN_LINES = 40


def output_of(program, data):
    """What a program prints of a run, and its status."""
    if program in LIMITS:
        return verdict(data, LIMITS[program])
    ran = subprocess.run(shlex.split(program), input=data, capture_output=True, check=False)
    return ran.stdout.decode(errors="replace"), ran.returncode


def outputs_of(programs, file):
    data = file.read_bytes()
    return [output_of(program, data) for program in programs]


def verdict_named(output):
    """The row of the table for an output: the rule and the criterion, the fault without its line, or the first word."""
    words = output.partition("\n")[0].split()
    if words[:1] == ["rejected"] and len(words) == 7:
        return " ".join(words[5:])
    if words[:1] == ["fault"] and len(words) == 4:
        return f"fault {words[3]}"
    return " ".join(words[:2]) if words[:1] == ["quick"] else words[0] if words else "nothing"


def compare(programs, files, jobs):
    """The outputs of both programs on each file, in the order of the files."""
    with concurrent.futures.ProcessPoolExecutor(jobs) as pool:
        yield from zip(files, pool.map(outputs_of, [programs] * len(files), files, chunksize=16))


def show(file, programs, outputs):
    """The first lines of both outputs on a file."""
    print(f"{file} differs:")
    for program, (text, status) in zip(programs, outputs):
        lines = text.splitlines()
        print(f"--- {program}: status {status}", *lines[:SHOWN_LINES], *["..."] * (len(lines) > SHOWN_LINES), sep="\n")


def print_table(counts):
    width = max(map(len, counts), default=0)
    for name, count in sorted(counts.items()):
        print(f"{name:{width}}  {count}")


def main():
    parser = argparse.ArgumentParser(description="Compares two programs on each file of a folder.")
    parser.add_argument("first", metavar="A", help="a command, or the word definition")
    parser.add_argument("second", metavar="B", help="the same")
    parser.add_argument("folder", metavar="FOLDER", type=pathlib.Path)
    parser.add_argument("--jobs", type=int, default=2, help="how many files at a time")
    given = parser.parse_args()
    programs, counts, different = (given.first, given.second), collections.Counter(), []
    files = sorted(file for file in given.folder.iterdir() if file.is_file())
    for file, outputs in compare(programs, files, given.jobs):
        counts[verdict_named(outputs[0][0])] += 1
        if outputs[0] != outputs[1]:
            if not different:
                show(file, programs, outputs)
            different.append(file)
    print_table(counts)
    print(f"{len(files)} files: {len(files) - len(different)} agree, {len(different)} differ")
    return int(bool(different))


if __name__ == "__main__":
    sys.exit(main())
