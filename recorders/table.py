"""A table of programs whose recorded runs are certified, with the verdict that each must have.

For the `run.py` of a folder beside this file, which holds the rows and says how to build and start the programs.
"""
import argparse
import json
import os
import pathlib
import re
import shutil
import subprocess
import sys
import tempfile
from typing import NamedTuple

ROOT = pathlib.Path(__file__).resolve().parent.parent
SECONDS = 300

STATUSES = """The checker is the program that POZHIQAS names, or else crates/pp_cli/out/pp_cli or pp_cli in this repository. Each row is one line,
with the first line that the checker printed. Status 0: every row is as it should be. 1: some row is not. 2: wrong arguments. 3: no checker, or one that fails. 4: no compiler. 5: something
does not compile. 7: a file or a folder cannot be written. 8: a recorded program does not run to its end."""
NO_CHECKER, NO_COMPILER, NO_BUILD, NO_FILE, NO_END = 3, 4, 5, 7, 8
# The statuses of a checker that printed a report: accepted, rejected, a fault, too large to print.
REPORTED = (0, 1, 3, 7)


class Row(NamedTuple):
    run: str  # the program and its arguments
    verdict: str  # "accepted", or the rule and the criterion, as in "PUSH 5"
    example: str = ""  # the file of examples/ that is this very run
    has_views: bool = False  # whether `views` must find a state that explains each attempt

    def file_in(self, folder):
        return folder / (self.run.replace(" ", "-") + ".jsonl")


class Missing(Exception):
    """Why no row can be checked, and the status that says so."""

    def __init__(self, status, line):
        super().__init__(line)
        self.status = status


def checker():
    named = os.environ.get("POZHIQAS")
    places = [pathlib.Path(named).resolve()] if named else [ROOT / "crates/pp_cli/out/pp_cli", ROOT / "pp_cli"]
    for place in places:
        if place.is_file() and os.access(place, os.X_OK):
            return place
    raise Missing(NO_CHECKER, f"no program at {places[0]}: build it as README.md says, or name it by POZHIQAS")


def need(command, package):
    if shutil.which(command) is None:
        raise Missing(NO_COMPILER, f"no command {command}: install it (Debian: apt-get install {package})")


def build(command, folder):
    built = subprocess.run(command, cwd=folder, capture_output=True, text=True, check=False)
    if built.returncode != 0:
        errors = [line for line in (built.stderr + built.stdout).splitlines() if "error" in line]
        raise Missing(NO_BUILD, f"{folder.name} does not compile: {(errors or ['the compiler names no error'])[0]}")


def record(rows, command, folder, runs):
    """Starts the program once for all rows. It returns what the program printed of each."""
    made = subprocess.run([*command, str(runs), *(row.run for row in rows)], cwd=folder, capture_output=True, text=True,
                          timeout=SECONDS, check=False)
    counted = made.stdout.splitlines()
    if made.returncode != 0 or len(counted) != len(rows):
        said = (made.stderr.splitlines() or ["it prints nothing"])[0]
        raise Missing(NO_END, f"{command[0]} ends with {made.returncode} after {len(counted)} of {len(rows)} runs: {said}")
    return counted


def ask(program, command, run):
    with run.open("rb") as lines:
        asked = subprocess.run([program, command], stdin=lines, capture_output=True, errors="replace", timeout=SECONDS, check=False)
    if asked.returncode not in REPORTED:
        raise Missing(NO_CHECKER, f"{program} ended with {asked.returncode}, which is the status of no report")
    return asked.stdout.splitlines() or ["nothing printed"]


def count_in_report(run, counted):
    """The commits that the report must have: those that the recorded program counted, and a start."""
    with run.open() as lines:
        start = json.loads(next(lines)).get("start")
    return int(re.search(r"committed (\d+)", counted)[1]) + (1 if start else 0)


def wrong(row, program, run, counted, said):
    """What is not as the row says, or nothing. `counted` is what the recorded program printed of itself."""
    if row.verdict == "accepted":
        expected = rf"accepted steps \d+ committed {count_in_report(run, counted)}"
    else:
        expected = rf"rejected step \d+ line \d+ {row.verdict}"
    if not re.fullmatch(expected, said):
        return f"not {row.verdict} with the commits that were counted"
    if row.has_views and any(line.endswith(" after none") for line in ask(program, "views", run)):
        return "views finds no state that explains some attempt"
    if row.example and run.read_bytes() != (ROOT / "examples" / row.example).read_bytes():
        return f"not the run of examples/{row.example}"
    return None


def show(row, program, runs, counted):
    """Prints the line of a row, and returns whether it is as it should be."""
    run = row.file_in(runs)
    said = ask(program, "certify", run)[0]
    found = wrong(row, program, run, counted, said)
    line = f"{row.run:24} {counted:30} {said}"
    print(f"FAIL {line}: {found}" if found else f"ok   {line}", flush=True)
    return not found


def check(rows, command, folder, runs):
    program = checker()
    runs.mkdir(parents=True, exist_ok=True)
    counted = record(rows, command, folder, runs)
    return all([show(row, program, runs, of_row) for row, of_row in zip(rows, counted)])


def main(about, rows, command, folder, prepare):
    """Checks the rows of a folder, whose programs `prepare` builds and `command` starts."""
    parser = argparse.ArgumentParser(description=about, epilog=STATUSES)
    parser.add_argument("--keep", metavar="FOLDER", type=pathlib.Path, help="leave the recorded runs in this folder")
    keep = parser.parse_args().keep
    name = f"{folder.name}/run.py"
    try:
        checker()
        prepare()
        with tempfile.TemporaryDirectory() as passing:
            return 0 if check(rows, command, folder, (keep or pathlib.Path(passing)).resolve()) else 1
    except Missing as missing:
        print(f"{name}: {missing}", file=sys.stderr)
        return missing.status
    except subprocess.TimeoutExpired as late:
        print(f"{name}: {pathlib.Path(late.cmd[0]).name} was stopped after {SECONDS} s", file=sys.stderr)
        return NO_END
    except OSError as error:
        print(f"{name}: {error.filename or 'the output'}: {error.strerror}", file=sys.stderr)
        return NO_FILE
