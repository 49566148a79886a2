"""Sentences about calls and what became of them, for `why` and `order`."""
from recorded_run import COMMITTED

ENDS = {"commit": "committed", "cmt": "committed", "abort": "ABORTED", "retry": "RETRIED", "quit": "QUIT"}
LATER_ENDS = {"commit": "commits", "cmt": "commits", "abort": "ABORTS", "retry": "RETRIES", "quit": "QUITS"}


def is_of_start(call):
    """Whether a call is of the start: its attempt is committed without a step."""
    return call.attempt.end == COMMITTED and call.attempt.end_step is None


def named(call):
    """A call with its transaction and line."""
    where = "in the start" if is_of_start(call) else f"line {call.line}"
    return f"{call.text} of {call.transaction} ({where})"


def fate(call, line):
    """What had become of a call by a line: a clause that begins with "which", or nothing for a call of the start."""
    attempt = call.attempt
    if is_of_start(call):
        return ""
    back, end = call.taken_back_line, attempt.end_line
    if back is not None and back < line and back != end:
        return f"which took it back on line {back}"
    if end is None:
        return "which was still open, and never ends"
    if end == line:
        return f"whose {attempt.end_step} this line is"
    if end < line:
        return f"which {ENDS[attempt.end_step]} on line {end}"
    return f"which was still open, and {LATER_ENDS[attempt.end_step]} on line {end}"


def by_whom(call, failing_call):
    """The transaction of a call, seen from the call that fails."""
    itself = " itself" if failing_call is not None and call.transaction == failing_call.transaction else ""
    where = "in the start" if is_of_start(call) else f"on line {call.line}"
    return f"{call.transaction}{itself} {where}"


def with_fate(text, call, line):
    """A clause, followed by what became of the call."""
    end = fate(call, line)
    return f"{text}, {end}" if end else text
