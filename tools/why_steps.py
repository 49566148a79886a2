"""Why a step is not possible at all: its transaction is not open, a name or an id is used twice, a body is broken, an
entry is not where the step needs it, or something is left undone at the end of a transaction."""
import json

from explanation import Explanation
from phrases import ENDS, named, with_fate
from replay import PULLED

MOST_CALLS = 12
MOST_BODY = 400


def explained(line, *calls):
    """An explanation of one sentence, which names these calls."""
    explanation = Explanation()
    explanation.add(line, *calls)
    return explanation


def not_open(case):
    """The transaction of the step is not open."""
    transaction = case.run.transactions.get(case.transaction)
    begun = [attempt for attempt in transaction.attempts if attempt.begin_line is not None] if transaction else []
    ended = [attempt for attempt in begun if attempt.end_line is not None and attempt.end_line < case.line]
    if ended:
        end = ended[-1]
        how = "is the transaction of the start" if end.end_step is None else f"{ENDS[end.end_step]} on line {end.end_line}"
        explanation = explained(f"{case.transaction} {how}, and is not open on line {case.line}")
        explanation.attempts.append(end)
        return explanation
    if begun:
        return explained(f"{case.transaction} begins only on line {begun[0].begin_line}, after line {case.line}")
    return explained(f"no line of this run begins {case.transaction}")


def name_used(case):
    """BEGIN 1."""
    first, start = case.run.transactions[case.transaction].attempts[0], case.run.start
    is_of_start = start is not None and start.name == case.transaction
    used = "is that of the start's transaction" if is_of_start else f"was used on line {first.begin_line}"
    explanation = explained(f"the name {case.transaction} {used}")
    explanation.attempts.append(first)
    return explanation


def thread_taken(case):
    """BEGIN 2."""
    thread = case.step["thread"]
    for transaction in case.run.transactions.values():
        for attempt in transaction.attempts:
            is_open = attempt.end_line is None or attempt.end_line > case.line
            if attempt.thread == thread and is_open and attempt.begin_line is not None and attempt.begin_line < case.line:
                end = "has no end in this run" if attempt.end_line is None else f"ends only on line {attempt.end_line}"
                line = f"{transaction.name} is open on thread {thread} since line {attempt.begin_line}, and {end}"
                explanation = explained(line)
                explanation.attempts.append(attempt)
                return explanation
    return explained(f"a transaction is open on thread {thread}")


def id_used(case):
    """APP 2."""
    first = case.logs.calls[case.step["id"]]
    return explained(f"the id {first.id} is that of {named(first)}", first)


def body_broken(case):
    """APP 3 and CMT 2."""
    calls = case.logs.own_calls(case.transaction)
    texts = [call.text for call in calls][-MOST_CALLS:]
    left_out = len(calls) - len(texts)
    first = f"{left_out} calls, " if left_out else ""
    line = f"the calls of {case.transaction} are {first}{', '.join(texts) or 'none'}"
    explanation = explained(line, *calls[-MOST_CALLS:])
    if case.criterion[0] == "APP":
        explanation.add(f"the next one is {named(case.call)}", case.call)
    body = json.dumps(case.run.transactions[case.transaction].body, separators=(",", ":"))
    explanation.add(f"its body is {body if len(body) <= MOST_BODY else body[:MOST_BODY] + '..'}")
    return explanation


def entry_not_there(case):
    """UNAPP 2, PUSH 2, UNPUSH 2, PULL 2, PULL 3 and UNPULL 2: the entry is not where the step needs it."""
    number, log = case.step["id"], case.logs.local.get(case.transaction, {})
    if case.call is None or case.call.line > case.line:
        return explained(f"no call before line {case.line} has the id {number}")
    name = f"entry {number}, {named(case.call)},"
    if number not in log:
        shared = "in the shared log" if number in case.logs.shared else "not in the shared log"
        line = f"{name} is not in the local log of {case.transaction}, and {shared}"
    else:
        line = f"{name} is {log[number]} in the local log of {case.transaction}"
        if case.criterion == ("UNAPP", 2) and next(reversed(log)) != number:
            last = case.logs.calls[next(reversed(log))]
            return explained(f"{line}, whose last entry is {named(last)}", case.call, last)
    return explained(line, case.call)


def not_published(case):
    """CMT 3."""
    return explained(f"entry {case.entry.id} is {named(case.entry)}, which was never published", case.entry)


def not_committed(case):
    """CMT 4."""
    line = f"entry {case.entry.id}, which {case.transaction} took over, is {named(case.entry)}"
    return explained(with_fate(line, case.entry, case.line), case.entry)


def left_in_log(case):
    """QUIT 2."""
    mark = case.logs.local[case.transaction][case.entry.id]
    how = "took over and did not give up" if mark == PULLED else "did not take back"
    return explained(f"entry {case.entry.id} is {named(case.entry)}, which {case.transaction} {how}", case.entry)


def repeated_in_start(case):
    """START 1."""
    calls = [call for call in case.run.start.attempts[0].calls if call.id == case.entry.id]
    return explained(f"the id {case.entry.id} is that of {', and of '.join(call.text for call in calls)}", *calls)


EXPLAINED = {
    ("BEGIN", 1): name_used, ("BEGIN", 2): thread_taken, ("APP", 2): id_used, ("APP", 3): body_broken,
    ("CMT", 2): body_broken, ("UNAPP", 2): entry_not_there, ("PUSH", 2): entry_not_there, ("UNPUSH", 2): entry_not_there,
    ("PULL", 2): entry_not_there, ("PULL", 3): entry_not_there, ("UNPULL", 2): entry_not_there, ("CMT", 3): not_published,
    ("CMT", 4): not_committed, ("QUIT", 2): left_in_log, ("START", 1): repeated_in_start,
    **{(rule, 1): not_open for rule in ("APP", "UNAPP", "PUSH", "UNPUSH", "PULL", "UNPULL", "CMT", "QUIT", "NOTE")},
}
