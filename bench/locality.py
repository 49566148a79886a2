#!/usr/bin/env python3
"""Tests locality on each file of a folder, by `definition.py` alone. Apart from its bookkeeping, a run is right exactly if it is
right on each object.

    python3 bench/locality.py [--program PROGRAM] FOLDER

A run is restricted to each of its objects: the header keeps this object, and of the start the operations on it. A begin
loses its body, and a record of another object becomes an empty line. So each line keeps its number. The law keeps all
objects in the header; here the header is restricted too. It is tested that

- an accepted run has accepted restrictions only;
- no restriction is rejected on an earlier line than the run;
- a run that is rejected by a criterion about an operation has a restriction that is rejected on the same line, by the same
  criterion, with the same evidence. It is not checked which object this is.

With `--program` it is also tested that the command `focus` of the program prints the same restrictions, line for line. Lines
are compared as JSON values. From what it prints `focus` prints the same text. For a run with a fault it must print the fault.
The same three tests are made again with the verdicts that `certify` of the program prints for the run and for these texts.

The first run that breaks this is shown, and then the status is 1. A table has the number of runs with each verdict.
"""
import argparse
import collections
import concurrent.futures
import json
import pathlib
import subprocess
import sys
from typing import NamedTuple

from compare import print_table, verdict_named
from definition import verdict
from definition_input import JUDGE_LIMITS, NO_LIMITS

# The criteria that speak of no object.
BOOKKEEPING = {"START 1", "BEGIN 1", "BEGIN 2", "APP 1", "APP 2", "APP 3", "UNAPP 1", "UNAPP 2", "PUSH 1", "UNPUSH 1", "PULL 1", "UNPULL 1",
               "CMT 1", "CMT 2", "QUIT 1", "NOTE 1"}
# The records that say on which object they are, and those that name an operation by its id.
OF_OBJECT = ("op", "refresh", "app")
OF_ID = ("unapp", "push", "unpush", "pull", "unpull")
REJECTED = 1
FAULT = 3


class Rejection(NamedTuple):
    line: int
    criterion: str
    evidence: str


def restricted_header(header, name, places):
    """The header with this object alone. `places` learns the object of each id of the start."""
    start = header.get("start", {"ops": []}) if header["run"] == 2 else {"ops": []}
    for item in start["ops"]:
        places.setdefault(item["id"], item["on"])
    start["ops"] = [item for item in start["ops"] if item["on"] == name]
    header["objects"] = [item for item in header["objects"] if item["name"] == name]
    return json.dumps(header)


def restricted_record(line, name, places):
    """A record's line in the restriction. `places` learns the object of the id of an operation."""
    record = json.loads(line)
    if record["step"] == "begin":
        record.pop("body", None)
        return json.dumps(record)
    if record["step"] in OF_OBJECT:
        places.setdefault(record.get("id"), record["on"])
        return line if record["on"] == name else ""
    if record["step"] in OF_ID:
        return line if places.get(record["id"], name) == name else ""
    return line


def restricted(text, name):
    """The restriction of a run without a fault to the object of this name."""
    places, lines, header = {}, [], None
    for line in text.split("\n"):
        if line.strip() and header is None:
            header = line = restricted_header(json.loads(line), name, places)
        elif line.strip():
            line = restricted_record(line, name, places)
        lines.append(line)
    return "\n".join(lines)


def names_of(text):
    """The names of the objects of a run."""
    return [item["name"] for item in json.loads(next(line for line in text.split("\n") if line.strip()))["objects"]]


def rejection(report):
    """What a report says of a rejected run, without the number of the step."""
    first, _, evidence = report.partition("\n")
    words = first.split()
    return Rejection(int(words[4]), " ".join(words[5:]), evidence)


def exception(report, parts):
    """Why the restrictions of a run, as reports with their statuses, do not make the whole; None if they do."""
    rejections = {name: rejection(part) for name, (part, status) in parts.items() if status == REJECTED}
    if not report.startswith("rejected"):
        return f"accepted, but not on {min(rejections)}" if rejections else None
    whole = rejection(report)
    early = [name for name, part in rejections.items() if part.line < whole.line]
    if early:
        return f"rejected on line {whole.line}, but earlier on {early[0]}"
    if whole.criterion not in BOOKKEEPING and whole not in rejections.values():
        return f"rejected by {whole.criterion} on line {whole.line}, but on no object"
    return None


def kept(value, *names):
    """The members of these names."""
    return {name: value[name] for name in names if name in value}


def header_value(header):
    """The members of a header that are not ignored. Version 2 without a start is version 1."""
    objects = [kept(item, "name", "kind") for item in header["objects"]]
    if header["run"] == 1 or header.get("start") is None:
        return {"run": 1, "style": header["style"], "objects": objects}
    ops = [kept(item, "id", "on", "call", "args", "result") for item in header["start"]["ops"]]
    return {"run": 2, "style": header["style"], "objects": objects, "start": {"tx": header["start"]["tx"], "ops": ops}}


def value_of(line):
    """A line of a restriction as a value. `focus` writes a header and a begin without the members that are ignored."""
    if not line.strip(" \t\r"):
        return line.removesuffix("\r")
    value = json.loads(line)
    if "objects" in value:
        return header_value(value)
    return kept(value, "step", "tx", "thread") if value["step"] == "begin" else value


def values_of(text, has_end):
    """The lines of a restriction as values."""
    return [value_of(line) for line in (text.removesuffix("\n") if has_end else text).split("\n")]


def printed(program, data, *words):
    """What the program prints for these arguments, and its status."""
    ran = subprocess.run([program, *words], input=data, capture_output=True, check=False)
    return ran.stdout.decode(), ran.returncode


def focused(program, data, name):
    """What the command `focus` prints for this name, and its status."""
    return printed(program, data, "focus", name)


def wrong_restriction(program, data, name):
    """Why what the program prints is not the restriction, or None."""
    text, status = focused(program, data, name)
    if status != 0:
        return f"focus {name} ends with {status}"
    if values_of(text, True) != values_of(restricted(data.decode(), name), data.endswith(b"\n")):
        return f"focus {name} prints another restriction"
    is_kept = focused(program, text.encode(), name) == (text, 0)
    return None if is_kept else f"focus {name} changes the restriction"


def wrong_focus(program, data, report, status):
    """Why the program does not print the restrictions of a run with this verdict, or its fault; None if it does."""
    if status == FAULT:
        return None if focused(program, data, "a") == (report, FAULT) else "focus does not print the fault"
    wrong = (wrong_restriction(program, data, name) for name in names_of(data.decode()))
    return next((why for why in wrong if why is not None), None)


def unlike(report, parts):
    """Why restrictions with these verdicts do not make a whole with this report; None if they do."""
    faults = [name for name, (_, status) in parts.items() if status == FAULT]
    return f"the restriction to {faults[0]} has a fault" if faults else exception(report, parts)


def unlike_texts(program, data, report):
    """Why the texts of `focus`, as `certify` judges them, do not make the run; None if they do."""
    if printed(program, data, "certify")[0] != report:
        return "certify prints another report"
    texts = {name: focused(program, data, name)[0].encode() for name in names_of(data.decode())}
    return unlike(report, {name: printed(program, text, "certify") for name, text in texts.items()})


def examined(file, program):
    """The verdict of a file's run, and why its restrictions do not make it."""
    data = file.read_bytes()
    report, status = verdict(data, JUDGE_LIMITS)
    why = wrong_focus(program, data, report, status) if program else None
    if why is not None or status == FAULT:
        return "fault", why
    text = data.decode()
    why = unlike(report, {name: verdict(restricted(text, name).encode(), NO_LIMITS) for name in names_of(text)})
    if why is None and program:
        why = unlike_texts(program, data, report)
    return verdict_named(report), why


def main():
    parser = argparse.ArgumentParser(description="Tests that a run is right exactly if its bookkeeping is, and it is on each object.")
    parser.add_argument("folder", metavar="FOLDER", type=pathlib.Path)
    parser.add_argument("--program", metavar="PROGRAM", help="also test the command focus of this program")
    parser.add_argument("--jobs", type=int, default=2, help="how many files at a time")
    given = parser.parse_args()
    counts = collections.Counter()
    files = sorted(file for file in given.folder.iterdir() if file.is_file())
    with concurrent.futures.ProcessPoolExecutor(given.jobs) as pool:
        for file, (name, why) in zip(files, pool.map(examined, files, [given.program] * len(files), chunksize=16)):
            if why is not None:
                print(f"{file}: {why}")
                return 1
            counts[name] += 1
    print_table(counts)
    print(f"{len(files)} files: apart from its bookkeeping, each is right exactly if its restrictions are")
    return 0


if __name__ == "__main__":
    sys.exit(main())
