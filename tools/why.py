"""Explains a rejection: the rule in words, who left which value, and a timeline.

The verdict and its evidence are the program's own, printed word for word before the explanation. The explanation is
made by this script, and nothing of it is proved.
"""
import boosted_replay
import optimistic_replay
from case import Case, first_calls
from explanation import attempt_at
from recorded_run import read_run
from replay import Logs, expanded_steps, logs_before
from rule_words import criterion_words, fault_words
from timeline import Timeline
from verified_program import ask, decide
from why_pairs import Pair
from why_results import wrong_result
from why_steps import EXPLAINED

RESULT_CRITERIA = (("APP", 4), ("PUSH", 5), ("PULL", 4), ("UNPUSH", 4), ("UNPULL", 3), ("START", 2))
PAIR_CRITERIA = (("PUSH", 3), ("PUSH", 4), ("UNPUSH", 3), ("PULL", 5))
# What finds the rejected step of a run that `judge` rejects, in the styles in which `expand` prints too few steps.
REPLAYS = {"boosted": boosted_replay.rejected_step, "optimistic": optimistic_replay.rejected_step}
# The criteria whose timeline shows all calls, since no place is at fault.
WHOLE_CRITERIA = (("APP", 3), ("CMT", 2))
SHOWN_OF_A_LINE = 160
TOO_LONG = "the steps of this run are too many to explain: cut the run where no transaction is open, or keep one object by `focus`"
JUDGED = "this is the report of `judge`, since the run is too large for `certify`"


class Why:
    """What `why` says of a run. `report` is the program's, `words` the rule or the fault in words.

    `case` and `explanation` are those of a rejection, and else None. `lines` begins with `JUDGED` if the report is that of
    `judge`.
    """

    def __init__(self, report, words, lines, timeline=None):
        self.report = report
        self.words = words
        self.lines = [JUDGED, *lines] if report.is_of_judge else lines
        self.timeline = timeline
        self.case = self.explanation = None

    def text(self):
        shown = [*self.report.lines[:1 if self.report.verdict == "accepted" else None], "", self.words]
        shown += ["  " + line for line in self.lines]
        if self.timeline is not None and self.timeline.rows:
            shown += self.timeline.lines()
        return "\n".join(shown) + "\n"

    def fields(self):
        """What `--json` adds to the fields of the report."""
        rows = self.timeline.rows if self.timeline is not None else []
        return {"words": self.words, "explanation": self.lines, "timeline": [row.fields() for row in rows]}


def why(program, data):
    """Why the program says of a run, given as bytes, what it says. Raises UnreadableRun if it cannot be read."""
    report = decide(program, data)
    if report.verdict == "accepted":
        return Why(report, "The program accepts this run, so there is nothing to explain.", [])
    if report.verdict == "fault":
        return explain_fault(data, report)
    return explain_rejection(program, data, report)


def explain_fault(data, report):
    """Why the program takes the input for no run, or for one that is too long."""
    words = f"FAULT on line {report.line}, {report.cause}: {fault_words(report.cause)}"
    if report.cause == "TooManySteps":
        return Why(report, words, ["cut the run where no transaction is open, and give what is there as a start"])
    line, lines = line_of(data, report.line), shown_lines(data, report.line)
    if report.cause == "Missing(run)" and b'"certificate"' in line:
        lines.append("a certificate is read by `pozhiqas recheck`")
    return Why(report, words, lines)


def line_of(data, number):
    """The line with this number, from 1, or an empty one."""
    start = 0
    for _ in range(number - 1):
        start = data.find(b"\n", start) + 1
        if not start:
            return b""
    end = data.find(b"\n", start)
    return data[start:end if end >= 0 else None]


def shown_lines(data, number):
    """What says which line this is, unless it is empty."""
    line = line_of(data, number)
    return [f"line {number} is {shown_line(line)}"] if line else []


def shown_line(line):
    """A line as text, without bytes that a terminal takes for orders, and cut if it is long."""
    text = line[:SHOWN_OF_A_LINE].decode("utf-8", "replace")
    shown = "".join(letter if letter.isprintable() else "\N{REPLACEMENT CHARACTER}" for letter in text)
    return shown if len(line) <= SHOWN_OF_A_LINE else f"{shown}.. ({len(line)} bytes)"


def explain_rejection(program, data, report):
    run = read_run(data)
    if report.step == 0:
        step, logs = None, Logs(run, first_calls(run))
    elif report.is_of_judge and run.style in REPLAYS:
        step, logs = REPLAYS[run.style](run, report)
    elif report.is_of_judge and run.style != "rules":
        return Why(report, rejection_text(report.line, report.rule, report.criterion), [*shown_lines(data, report.line), TOO_LONG])
    else:
        *before, step = steps_of(program, data, run, report)
        logs = logs_before(run, first_calls(run), before)
    return explain_case(Case(run, report, step, logs))


def steps_of(program, data, run, report):
    """The steps that the records of a run stand for, up to and with the rejected one."""
    if run.style == "rules":
        return [record.members for record in run.records[:report.step]]
    return expanded_steps(ask(program, ["expand"], data).text.splitlines())


def explain_case(case):
    explanation = explain(case)
    explained = Why(case.report, criterion_text(case), explanation.lines, timeline_of(case, explanation))
    explained.case, explained.explanation = case, explanation
    return explained


def criterion_text(case):
    """What the program says that the step breaks, in words."""
    return rejection_text(case.line, *case.criterion)


def rejection_text(line, rule, criterion):
    return f"REJECTED at line {line}, {rule} {criterion}: {criterion_words(rule, criterion)}"


def explain(case):
    """The explanation of a rejection, which also names the attempt that takes the step."""
    if case.criterion in RESULT_CRITERIA:
        explanation = wrong_result(case)
    else:
        explanation = Pair(case) if case.criterion in PAIR_CRITERIA else EXPLAINED[case.criterion](case)
    own = attempt_at(case.run, case.transaction, case.line)
    if own is not None:
        explanation.attempts.append(own)
    return explanation


def timeline_of(case, explanation):
    call = case.entry or case.call
    place = None if call is None or case.criterion in WHOLE_CRITERIA else call.place
    return Timeline(case.run, case.logs, explanation, case.line, place)
