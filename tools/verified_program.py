"""Finds the verified program, runs it, and reads what it prints.

    program = find_program()
    answer = ask(program, ["certify"], run_bytes)
    answer.status, answer.text           # as the program gave them
    report = read_report(answer)
    report.verdict, report.step, report.line, report.rule, report.criterion, report.evidence

No other module runs the program. Nothing here makes a verdict: a report holds what the program printed.
"""
import contextlib
import os
import pathlib
import re
import subprocess

from recorded_run import NAME

TOOLS = pathlib.Path(__file__).resolve().parent
ROOT = TOOLS.parent
# Where a build leaves the program: `rt ci` and `rt run`, a copy by hand, and tools/build_unproved.
PLACES = (
    ROOT / "crates/pp_cli/out/pp_cli",
    TOOLS / "pp_cli",
    ROOT / "pp_cli",
    TOOLS / "pozhiqas-unproved",
    ROOT / "pozhiqas-unproved",
)
HOW_TO_BUILD = ("no built program: run `rt ci`, which proves it, or `tools/build_unproved`, which does not, in the "
                "repository, or name the program by the variable POZHIQAS")

# What each status of the program means that is no answer to the question asked.
FAILURES = {
    2: "the program does not take these arguments",
    4: "the program could not read its input",
    5: "the program could not write its output",
    6: "the program ran out of memory",
    8: "the program got no arguments from the system",
}

ACCEPTED = re.compile(r"accepted steps (?P<steps>\d+) committed (?P<committed>\d+)")
QUICK_ACCEPTED = re.compile(r"quick accepted records (?P<records>\d+) committed (?P<committed>\d+)")
REJECTED = re.compile(r"rejected step (?P<step>\d+) line (?P<line>\d+) (?P<rule>[A-Z]+) (?P<criterion>\d+)")
QUICK_REJECTED = re.compile(r"quick rejected line (?P<line>\d+)")
FAULT = re.compile(r"fault line (?P<line>\d+) (?P<cause>[A-Za-z]+(?:\([a-z]+\))?)")
OPAQUE = re.compile(r"opaque steps (?P<steps>\d+) committed (?P<committed>\d+)")
ZOMBIE = re.compile(r"zombie step (?P<step>\d+) line (?P<line>\d+)")
HOLDS = re.compile(r"holds operations (?P<operations>\d+) swaps (?P<swaps>\d+) serial (?P<serial>\d+)")
REFUSED = re.compile(r"refused line (?P<line>\d+) (?P<reason>.+)")
TOO_LARGE = re.compile(r"toolarge (?P<what>\w+) (?P<number>\d+)")
DRILL = re.compile(r"drill (?P<number>\d+)")
VERDICT_LINES = (
    ("accepted", ACCEPTED), ("accepted", QUICK_ACCEPTED), ("rejected", REJECTED), ("rejected", QUICK_REJECTED),
    ("opaque", OPAQUE), ("zombie", ZOMBIE), ("fault", FAULT), ("holds", HOLDS), ("refused", REFUSED), ("toolarge", TOO_LARGE),
)
# The faults of `certify` by limits that `judge` does not have, or has only for a larger run.
LIMITS_OF_CERTIFY = ("TooManySteps", "TooManyLines", "TooManyTransactions", "TooLong")
# The faults of `judge` on an input that is no run.
NO_JUDGED_RUN = ("NoHeader",)
# The status that the program ends with, by its verdict.
STATUSES = {"accepted": (0,), "rejected": (1,), "opaque": (0,), "zombie": (1,), "fault": (3,), "holds": (0,), "refused": (1,),
            "toolarge": (7,)}
# The statuses of the commands that print lines of JSON and no verdict.
STATUSES_OF_LINES = {"expand": (0, 1), "swaps": (0,), "focus": (0,)}
ENTRY = re.compile(r"entry (?P<entry>\d+)(?: gives (?P<gives>\S+))?")
OPERATION = re.compile(rf"(?P<on>{NAME.pattern})\.(?P<call>\w+)\((?P<args>[-\d,]*)\)=(?P<result>[-\w]+)")
# How many bytes are read at once, and kept, of an output that is not wanted whole.
KEPT = 1 << 16
NAMED_RESULTS = {"none": None, "true": True, "false": False}


class NoProgram(Exception):
    """There is no program to run. The message is one line that says how to get one."""


class ProgramFailed(Exception):
    """The program gave no answer. `status` is its own, or None if it did not end by itself."""

    def __init__(self, message, status=None):
        super().__init__(message)
        self.status = status


class Answer:
    """What the program printed for a command, as bytes, and its status."""

    def __init__(self, command, output, status):
        self.command = command
        self.output = output
        self.status = status

    @property
    def text(self):
        return self.output.decode("utf-8", "replace")


class Evidence:
    """What shows a criterion false: the entry's id, and perhaps what it returns there, or the operations around a pair.

    `gives` is that result as the program prints it, or None. `before` and `after` are None, or
    lists of operations as the program prints them.
    """

    def __init__(self, entry, gives, before, after):
        self.entry = entry
        self.gives = gives
        self.before = before
        self.after = after

    def fields(self):
        given = {"entry": self.entry, "gives": self.gives, "before": self.before, "after": self.after}
        return {name: value for name, value in given.items() if value is not None}


class Report:
    """An answer, line by line, and the fields of its verdict line.

    `verdict_line` is the first line, or after `drill N` the second.
    `is_of_judge` says whether `judge` made it.
    `verdict` is accepted, rejected, opaque, zombie, fault, holds, refused, toolarge, or None if that line is none of these.
    `line`, `step`, `rule`, `criterion` and `cause` are None if that line does not have them.
    `fields` has all fields of that line, numbers as int.
    """

    def __init__(self, answer):
        self.answer = answer
        self.is_of_judge = answer.command == "judge"
        self.lines = answer.text.splitlines()
        place = 1 if self.lines and DRILL.fullmatch(self.lines[0]) else 0
        self.verdict_line = self.lines[place] if place < len(self.lines) else ""
        self.verdict, self.fields = verdict_fields(self.verdict_line)
        self.step, self.line = self.fields.get("step"), self.fields.get("line")
        self.rule, self.criterion = self.fields.get("rule"), self.fields.get("criterion")
        self.cause = self.fields.get("cause")

    @property
    def evidence(self):
        """The evidence of a rejection, or None."""
        if self.verdict != "rejected" or len(self.lines) < 2:
            return None
        entry = ENTRY.fullmatch(self.lines[1])
        if entry is None:
            return None
        around = {line.partition(" ")[0]: line.split()[1:] for line in self.lines[2:4]}
        return Evidence(int(entry["entry"]), entry["gives"], around.get("before"), around.get("after"))

    def lines_of(self, word):
        """The lines after the first that begin with a word."""
        return [line for line in self.lines[1:] if line.startswith(word + " ")]


def verdict_fields(line):
    """The verdict of a line, and its fields."""
    for verdict, pattern in VERDICT_LINES:
        match = pattern.fullmatch(line)
        if match:
            given = match.groupdict()
            return verdict, {name: int(value) if value.isdecimal() else value for name, value in given.items()}
    return None, {}


def read_report(answer):
    """The report in an answer. Raises ProgramFailed if its status is not that of its verdict: another program ran."""
    report = Report(answer)
    if answer.status not in (STATUSES[report.verdict] if report.verdict else statuses_of_lines(report)):
        raise ProgramFailed("what was run printed no verdict: it is not the program")
    return report


def decide(program, data):
    """The report of `certify` on a run, given as bytes. If the run is too large for it, that of `judge`."""
    report = read_report(ask(program, ["certify"], data))
    if report.cause not in LIMITS_OF_CERTIFY:
        return report
    judged = read_report(ask(program, ["judge"], data))
    is_no_better = judged.cause in NO_JUDGED_RUN or judged.verdict_line == report.verdict_line
    return report if is_no_better else judged


def statuses_of_lines(report):
    """The statuses that fit lines without a verdict: `expand`, `swaps` and `focus` print lines of JSON, `focus` blank ones too."""
    has_lines = report.answer.text.lstrip().startswith("{")
    return STATUSES_OF_LINES.get(report.answer.command, ()) if has_lines else ()


def result_of(text):
    """The result that the program prints as a text."""
    return NAMED_RESULTS[text] if text in NAMED_RESULTS else int(text)


def operation_members(text):
    """The members `on`, `call`, `args` and `result` of an operation that the program printed, such as m.read(0)=6."""
    match = OPERATION.fullmatch(text)
    arguments = [int(number) for number in match["args"].split(",")] if match["args"] else []
    return {"on": match["on"], "call": match["call"], "args": arguments, "result": result_of(match["result"])}


def find_program(environment=os.environ, places=PLACES):
    """The path of the program: what POZHIQAS names, or else the first place that has one. Raises NoProgram."""
    named = environment.get("POZHIQAS")
    if named:
        if not is_program(named):
            raise NoProgram(f"POZHIQAS names {named}, which is no program that can be run")
        return os.path.abspath(named)
    for place in places:
        if is_program(place):
            return str(place)
    raise NoProgram(HOW_TO_BUILD)


def is_program(path):
    return os.path.isfile(path) and os.access(path, os.X_OK)


def ask(program, arguments, source=None):
    """What the program prints. `source` is its input: bytes, an open file, or None for none.

    Raises ProgramFailed if it ends without an answer.
    """
    given = {"input": source} if isinstance(source, bytes) else {"stdin": source or subprocess.DEVNULL}
    try:
        ran = subprocess.run([program, *arguments], stdout=subprocess.PIPE, check=False, **given)
    except OSError as error:
        raise NoProgram(f"{program} cannot be run: {error.strerror}") from None
    return answer_of(arguments, ran.stdout, ran.returncode)


def ask_in_pieces(program, arguments, pieces):
    """What the program prints for an input that comes in pieces. Only the first bytes of a long output are kept.

    Raises ProgramFailed if it ends without an answer.
    """
    pipes = {"stdin": subprocess.PIPE, "stdout": subprocess.PIPE}
    try:
        process = subprocess.Popen([program, *arguments], **pipes)
    except OSError as error:
        raise NoProgram(f"{program} cannot be run: {error.strerror}") from None
    with process:
        with contextlib.suppress(BrokenPipeError), process.stdin:
            for piece in pieces:
                process.stdin.write(piece)
        output = process.stdout.read(KEPT)
        while process.stdout.read(KEPT):
            pass
    return answer_of(arguments, output, process.returncode)


def answer_of(arguments, output, status):
    """The answer of a program that has ended. Raises ProgramFailed if it is none."""
    if status < 0:
        raise ProgramFailed(f"the program was ended by signal {-status}")
    if status in FAILURES:
        raise ProgramFailed(FAILURES[status], status)
    return Answer(arguments[0], output, status)
