#!/usr/bin/env python3
"""Builds the three memories of recorders/cpp, runs them, certifies each run, and checks each row of the table below.

    python3 recorders/run_all.py [--seeds N] [--keep FOLDER] [--sanitize] [MEMORY ...]

MEMORY is tl2, boosted or libitm; these three if none is named. It may also be a folder here with a `run.py` of its own, which is then run.
`--seeds` is how many seeds each random row has (6). `--keep` leaves the runs in a folder. `--sanitize` also runs the correct forms of tl2
and boosted under the thread sanitizer.

The checker is the program that POZHIQAS names, or else crates/pp_cli/out/pp_cli or pp_cli in this repository. The compiler is CXX, or g++.
Each row is one line, which has the first line that the checker printed.

Status 0: every row is as it should be. 1: some row is not. 2: wrong arguments. 3: no checker, or one that fails. 4: no compiler. 5: something does
not compile. 6: the compiler has no libitm. 7: a file or a folder cannot be written. 8: a program of haskell or clojure does not run to its end.
"""
import argparse
import os
import pathlib
import re
import shutil
import subprocess
import sys
import tempfile
from dataclasses import dataclass

HERE = pathlib.Path(__file__).resolve().parent
ROOT = HERE.parent
FLAGS = ("-std=c++17", "-O2", "-Wall", "-Wextra", "-pthread")
MEMORIES = {"tl2": (), "boosted": (), "libitm": ("-fgnu-tm",)}
OTHERS = {file.parent.name: file for file in sorted(HERE.glob("*/run.py"))}
SECONDS = 120
# A bug may need more seeds than the correct form has. Its row ends with the first seed that shows it.
MOST_SEEDS = 20
NO_CHECKER, NO_COMPILER, NO_BUILD, NO_LIBITM, NO_FOLDER = 3, 4, 5, 6, 7
# The statuses of a checker that printed a report: accepted, rejected, a fault, too large to print.
REPORTED = (0, 1, 3, 7)


@dataclass(frozen=True)
class Row:
    """A memory, how its transactions interleave, its bug, and the criteria that may reject it: none, if it is to be accepted."""
    memory: str
    schedule: str
    bug: str = "none"
    criteria: tuple = ()
    example: str = ""

    @property
    def is_random(self):
        return self.schedule.startswith("random")


# Under a schedule a bug has one criterion. Random threads may meet it first at another place, so a row of theirs may have several. Such a
# row is as it should be if one of its seeds is rejected, and none by another criterion.
ROWS = (
    Row("tl2", "lost-update", example="recorded_tl2"),
    Row("tl2", "lost-update", "no-check", ("PUSH 5",), example="rejected_recorded_tl2"),
    Row("tl2", "write-skew"),
    Row("tl2", "write-skew", "checks-writes-only", ("PUSH 5",)),
    Row("tl2", "read-in-write-back"),
    Row("tl2", "read-in-write-back", "no-locks", ("APP 4",)),
    Row("tl2", "read-in-write-back", "early-unlock", ("APP 4",)),
    Row("tl2", "commit-in-first-read"),
    Row("tl2", "commit-in-first-read", "late-clock", ("APP 4",)),
    Row("tl2", "commit-between-reads"),
    Row("tl2", "commit-between-reads", "no-version-check", ("APP 4",)),
    Row("tl2", "commit-between-reads-extending"),
    Row("tl2", "commit-between-reads-extending", "no-extension-check", ("PULL 5",)),
    Row("tl2", "read-own-write"),
    Row("tl2", "read-own-write", "skips-buffer", ("APP 4",)),
    Row("tl2", "random"),
    Row("tl2", "random-extending"),
    Row("tl2", "random", "no-check", ("PUSH 5",)),
    Row("tl2", "random", "checks-writes-only", ("PUSH 5",)),
    Row("tl2", "random", "no-locks", ("APP 4", "PUSH 5")),
    Row("tl2", "random", "early-unlock", ("APP 4",)),
    Row("tl2", "random", "late-clock", ("APP 4",)),
    Row("tl2", "random", "no-version-check", ("APP 4",)),
    Row("tl2", "random-extending", "no-extension-check", ("PULL 5",)),
    Row("tl2", "random", "skips-buffer", ("APP 4",)),
    Row("boosted", "check-then-add"),
    Row("boosted", "check-then-add", "no-lock-on-contains", ("PUSH 4",)),
    Row("boosted", "ask-then-abort"),
    Row("boosted", "ask-then-abort", "no-lock-on-contains", ("APP 4",)),
    Row("boosted", "put-between-reads"),
    Row("boosted", "put-between-reads", "wrong-key", ("PUSH 4",)),
    Row("boosted", "put-between-reads", "early-release", ("PUSH 4",)),
    Row("boosted", "read-before-commit", example="recorded_boosted"),
    Row("boosted", "read-before-commit", "wrong-key", ("APP 4",)),
    Row("boosted", "read-before-commit", "early-release", ("APP 4",), example="rejected_recorded_boosted"),
    Row("boosted", "read-in-undo"),
    Row("boosted", "read-in-undo", "release-before-undo", ("APP 4",)),
    Row("boosted", "add-remove-abort"),
    Row("boosted", "add-remove-abort", "undo-first-call-first", ("APP 4",)),
    Row("boosted", "replace-abort"),
    Row("boosted", "replace-abort", "undo-forgets-value", ("APP 4",)),
    Row("boosted", "random"),
    Row("boosted", "random", "no-lock-on-contains", ("APP 4", "PUSH 4", "PUSH 5")),
    Row("boosted", "random", "wrong-key", ("APP 4", "PUSH 4", "PUSH 5")),
    Row("boosted", "random", "early-release", ("APP 4", "PUSH 4", "PUSH 5")),
    Row("boosted", "random", "release-before-undo", ("APP 4", "PUSH 4", "PUSH 5")),
    Row("boosted", "random", "undo-first-call-first", ("APP 4",)),
    Row("boosted", "random", "undo-forgets-value", ("APP 4",)),
    Row("libitm", "overlap", example="recorded_libitm"),
    Row("libitm", "overlap", "no-transactions", ("APP 4",), example="rejected_recorded_libitm"),
    Row("libitm", "overlap", "two-blocks", ("APP 4",)),
    Row("libitm", "overlap", "early-read", ("APP 4",)),
    Row("libitm", "random"),
    Row("libitm", "random", "no-transactions", ("APP 4",)),
    Row("libitm", "random", "two-blocks", ("APP 4",)),
    Row("libitm", "random", "early-read", ("APP 4",)),
)


class Missing(Exception):
    """Something that the rows need and that is not there, with the status that says so."""

    def __init__(self, status, text):
        super().__init__(text)
        self.status = status


def checker():
    named = os.environ.get("POZHIQAS")
    places = [pathlib.Path(named).resolve()] if named else [ROOT / "crates/pp_cli/out/pp_cli", ROOT / "pp_cli"]
    for place in places:
        if place.is_file() and os.access(place, os.X_OK):
            return place
    raise Missing(NO_CHECKER, f"no program at {places[0]}: build it as README.md says, or name it by POZHIQAS")


def compiler():
    name = os.environ.get("CXX") or "g++"
    path = shutil.which(name)
    if path is None:
        raise Missing(NO_COMPILER, f"no compiler {name}: install it (Debian: apt install g++), or name it by CXX")
    return path


def build(cxx, source, out, flags):
    command = [cxx, *FLAGS, *flags, str(source), "-o", str(out)]
    return subprocess.run(command, capture_output=True, text=True, timeout=600, check=False)


def require_libitm(cxx, folder):
    source = folder / "atomic.cpp"
    source.write_text("int cell;\nint main() { __transaction_atomic { ++cell; } }\n")
    if build(cxx, source, folder / "atomic", MEMORIES["libitm"]).returncode != 0:
        raise Missing(NO_LIBITM, f"{cxx} builds no program with -fgnu-tm: name GCC by CXX, with its libitm (in Debian's g++)")


def build_source(cxx, name, folder, flags=()):
    out = folder / (name + "".join(flags).replace("=", "_"))
    ran = build(cxx, HERE / "cpp" / f"{name}.cpp", out, flags)
    if ran.returncode != 0:
        raise Missing(NO_BUILD, f"{name}.cpp does not compile: {(ran.stderr.splitlines() or ['the compiler prints nothing'])[0]}")
    return out


class Table:
    """Runs the rows, one after another."""

    def __init__(self, checker, folder, seeds):
        self.checker = checker
        self.folder = folder
        self.seeds = seeds
        self.memories = {}

    def ask(self, command, run):
        try:
            ran = subprocess.run([self.checker, command], input=run, capture_output=True, timeout=SECONDS, check=False)
        except OSError as error:
            raise Missing(NO_CHECKER, f"{self.checker} does not run: {error.strerror}") from error
        if ran.returncode not in REPORTED:
            raise Missing(NO_CHECKER, f"{self.checker} ended with {ran.returncode}, which is the status of no report")
        return ran.stdout.decode(errors="replace").splitlines() or ["nothing printed"]

    def record(self, row, seed):
        """The run that a memory writes, and what it says of itself: its commits and what it holds."""
        file = self.folder / f"{row.memory}_{row.schedule}_{row.bug}_{seed}.jsonl"
        command = [self.memories[row.memory], "--schedule", row.schedule, "--bug", row.bug, "--seed", str(seed), "--output", file]
        ran = subprocess.run(command, capture_output=True, text=True, timeout=SECONDS, check=False)
        if ran.returncode != 0:
            return None, [f"{row.memory} ends with {ran.returncode}: {ran.stderr.strip()}"]
        return file.read_bytes(), ran.stderr.splitlines()

    def check(self, row, seed):
        """The first line of the report, and what is wrong about the run, or nothing."""
        run, own_words = self.record(row, seed)
        if run is None:
            return "no run", own_words[0]
        report = self.ask("certify", run)
        return report[0], self.wrong(row, run, report, own_words)

    def wrong(self, row, run, report, own_words):
        rejected = re.fullmatch(r"rejected step \d+ line (\d+) (\w+ \d+)", report[0])
        accepted = re.fullmatch(r"accepted steps \d+ committed (\d+)", report[0])
        if not rejected and not accepted:
            return "no verdict"
        if row.memory == "boosted":
            quick = self.ask("quick", run)[0]
            if not quick.startswith("quick accepted" if accepted else f"quick rejected line {rejected[1]}"):
                return f"quick prints {quick}"
        if rejected:
            return None if rejected[2] in row.criteria else f"to be {' or '.join(row.criteria) or 'accepted'}"
        # The record is complete if it has as many commits as the memory counted, and leaves what the memory holds.
        states = [line for line in report if line.startswith("state ")]
        if [f"committed {accepted[1]}", *states] != own_words and row.bug == "none":
            return f"the memory says {', '.join(own_words)}"
        return None

    def outcome(self, row):
        """The first line of the report that decides the row, and what is wrong, or nothing."""
        if row.is_random:
            return self.random_outcome(row)
        # The two threads of libitm wait for each other, but not for ever: a busy machine may break their schedule.
        for _ in range(3 if row.memory == "libitm" else 1):
            said, wrong = self.scheduled_outcome(row)
            if not wrong:
                break
        return said, wrong

    def scheduled_outcome(self, row):
        said, wrong = self.check(row, 0)
        if not wrong and row.criteria and said.startswith("accepted"):
            wrong = f"to be {' or '.join(row.criteria)}"
        if not wrong and row.example:
            wrong = self.differs_from_example(row)
        return said, wrong

    def random_outcome(self, row):
        said = "no seed"
        for seed in range(1, 1 + (max(self.seeds, MOST_SEEDS) if row.criteria else self.seeds)):
            said, wrong = self.check(row, seed)
            if wrong:
                return said, f"seed {seed}: {wrong}"
            if row.criteria and said.startswith("rejected"):
                return f"{said}, seed {seed}", None
        return (said, "no seed is rejected") if row.criteria else (f"{said}, and {self.seeds - 1} more seeds", None)

    def differs_from_example(self, row):
        example = ROOT / "examples" / f"{row.example}.jsonl"
        recorded = self.folder / f"{row.memory}_{row.schedule}_{row.bug}_0.jsonl"
        if not example.is_file():
            return f"no examples/{example.name}"
        return None if example.read_bytes() == recorded.read_bytes() else f"not the run of examples/{example.name}"

    def show(self, row):
        try:
            said, wrong = self.outcome(row)
        except subprocess.TimeoutExpired as late:
            said, wrong = "no end", f"{pathlib.Path(late.cmd[0]).name} was stopped after {SECONDS} s"
        line = f"{row.memory:8} {row.schedule:31} {row.bug:22} {said}"
        print(f"FAIL {line}: {wrong}" if wrong else f"ok   {line}", flush=True)
        return not wrong


def sanitize(cxx, memories, folder):
    """Whether the correct forms run without a report of the thread sanitizer, which cannot follow libitm."""
    holds = True
    for memory in (name for name in memories if name != "libitm"):
        built = build_source(cxx, memory, folder, ("-g", "-fsanitize=thread"))
        for schedule in sorted({row.schedule for row in ROWS if row.memory == memory and row.is_random}):
            command = [built, "--schedule", schedule, "--output", folder / "sanitized.jsonl"]
            ran = subprocess.run(command, capture_output=True, text=True, timeout=SECONDS, check=False)
            is_clean = ran.returncode == 0 and "ThreadSanitizer" not in ran.stderr
            holds &= is_clean
            found = "no report" if is_clean else next((line for line in ran.stderr.splitlines() if "ThreadSanitizer" in line), ran.stderr.strip())
            print(f"{'ok  ' if is_clean else 'FAIL'} {memory:8} {schedule:31} {'thread sanitizer':22} {found}", flush=True)
    return holds


def arguments():
    parser = argparse.ArgumentParser(description=__doc__, formatter_class=argparse.RawDescriptionHelpFormatter)
    parser.add_argument("memories", metavar="MEMORY", nargs="*", help="tl2, boosted or libitm")
    parser.add_argument("--seeds", type=int, default=6)
    parser.add_argument("--keep", type=pathlib.Path)
    parser.add_argument("--sanitize", action="store_true")
    parsed = parser.parse_args()
    strange = [memory for memory in parsed.memories if memory not in (*MEMORIES, *OTHERS)]
    if strange:
        parser.error(f"no memory {strange[0]}: there are {', '.join((*MEMORIES, *OTHERS))}")
    if parsed.seeds < 1:
        parser.error("--seeds: at least 1")
    return parsed


def check_header(cxx, folder):
    """Whether the header refuses what it must, and writes what it should."""
    built = build_source(cxx, "check_header", folder)
    ran = subprocess.run([built, folder / "header.jsonl"], capture_output=True, text=True, timeout=SECONDS, check=False)
    holds = ran.returncode == 0
    found = "as it should be" if holds else "; ".join((ran.stdout + ran.stderr).splitlines())
    print(f"{'ok  ' if holds else 'FAIL'} pozhiqas.hpp {found}", flush=True)
    return holds


def run_own(options, memories, folder):
    table = Table(checker(), options.keep or folder, options.seeds)
    cxx = compiler()
    if "libitm" in memories:
        require_libitm(cxx, folder)
    table.memories = {memory: build_source(cxx, memory, folder, MEMORIES[memory]) for memory in memories}
    held = [check_header(cxx, folder)]
    held += [table.show(row) for row in ROWS if row.memory in memories]
    if options.sanitize:
        held.append(sanitize(cxx, memories, folder))
    return 0 if all(held) else 1


def run_other(script, options):
    keep = ("--keep", options.keep / script.parent.name) if options.keep else ()
    return subprocess.run([sys.executable, script, *keep], check=False).returncode


def run(options, folder):
    names = options.memories or list(MEMORIES)
    own = [memory for memory in MEMORIES if memory in names]
    statuses = [run_own(options, own, folder)] if own else []
    statuses += [run_other(OTHERS[name], options) for name in OTHERS if name in names]
    return next((status for status in statuses if status != 0), 0)


def main():
    options = arguments()
    try:
        if options.keep:
            options.keep.mkdir(parents=True, exist_ok=True)
        with tempfile.TemporaryDirectory() as folder:
            return run(options, pathlib.Path(folder))
    except Missing as missing:
        print(f"run_all: {missing}", file=sys.stderr)
        return missing.status
    except OSError as error:
        print(f"run_all: {error.filename or 'the output'}: {error.strerror}", file=sys.stderr)
        return NO_FOLDER


if __name__ == "__main__":
    sys.exit(main())
