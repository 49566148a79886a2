"""The step of a boosted run that `judge` rejects, and the logs before it, without all the steps of the run.

A boosted run may have a thousand times more steps than records, since each call pulls what is committed on its object.
So `expand` prints them only up to the limit of `certify`. But who pulled what is clear from the lines: a call pulls what
was committed since its attempt's last call on the object. As in `replay`, the records before the rejected one are taken
to meet their criteria.
"""
from collections import Counter

from case import first_calls
from recorded_run import COMMITTED
from replay import PULLED, PUSHED, Logs


class Refreshes:
    """The calls that one attempt pulls, call after call."""

    def __init__(self, run):
        self.committed = {name: [] for name in run.objects}     # the committed calls of each object, by their commits
        self.counts = Counter()                                 # how many of them are pulled
        ended = [call for call in run.calls if call.attempt.end == COMMITTED]
        for call in sorted(ended, key=lambda call: call.attempt.end_line):
            self.committed[call.object_name].append(call)

    def before(self, call):
        """What is pulled before the next call of the attempt, in the order of the shared log."""
        committed, first = self.committed[call.object_name], self.counts[call.object_name]
        last = first
        while last < len(committed) and committed[last].attempt.end_line < call.line:
            last += 1
        self.counts[call.object_name] = last
        return sorted(committed[first:last], key=lambda pulled: pulled.line)


class StepCount:
    """How many steps the records of a boosted run are, record after record."""

    def __init__(self, run):
        self.count = 0
        self.committed = Counter(call.object_name for call in first_calls(run))
        self.pulled = {}        # by transaction: how many calls of each object it pulled
        self.own = {}           # by transaction: how many calls of each object it made
        self.methods = {"begin": self.begin, "op": self.call, "commit": self.commit, "abort": self.undo, "retry": self.undo}

    def take(self, record):
        """Counts the steps of one record."""
        self.methods[record.step](record)

    def begin(self, record):
        self.count += 1
        self.forget(record)

    def forget(self, record):
        self.pulled[record.transaction], self.own[record.transaction] = Counter(), Counter()

    def call(self, record):
        name, pulled = record.members["on"], self.pulled[record.transaction]
        self.count += self.committed[name] - pulled[name] + 2
        pulled[name] = self.committed[name]
        self.own[record.transaction][name] += 1

    def commit(self, record):
        self.count += 1
        self.committed.update(self.own[record.transaction])

    def undo(self, record):
        pulled, own = self.pulled[record.transaction], self.own[record.transaction]
        self.count += sum(pulled.values()) + 2 * sum(own.values()) + 1
        self.forget(record)


def rejected_step(run, report):
    """The rejected step, as a record of style rules, and the logs before it. The start must not be rejected."""
    counted = StepCount(run)
    for record in run.records:
        if record.line == report.line:
            break
        counted.take(record)
    refreshes, logs = Refreshes(run), shared_before(run, record.line)
    attempt = open_attempt(run, record)
    if attempt is not None:
        logs.local[record.transaction] = local_before(attempt, record.line, refreshes)
    steps = steps_of_record(run, record, refreshes, logs)
    place = report.step - counted.count - 1
    for step in steps[:place]:
        logs.take(step)
    return steps[place], logs


def open_attempt(run, record):
    """The attempt of a record's transaction that is open before the record, or None."""
    for attempt in run.transactions[record.transaction].attempts:
        has_begun = attempt.begin_line is not None and attempt.begin_line < record.line
        if has_begun and (attempt.end_line is None or attempt.end_line >= record.line):
            return attempt
    return None


def shared_before(run, line):
    """The shared log before a line, and no local logs."""
    logs = Logs(run, first_calls(run))
    for call in run.calls:
        if call.line < line and (call.taken_back_line is None or call.taken_back_line >= line):
            logs.shared[call.id] = call
            if call.attempt.end == COMMITTED and call.attempt.end_line < line:
                logs.committed.add(call.id)
    return logs


def local_before(attempt, line, refreshes):
    """The local log of an attempt before a line."""
    log = {}
    for call in attempt.calls:
        if call.line < line:
            log.update((pulled.id, PULLED) for pulled in refreshes.before(call))
            log[call.id] = PUSHED
    return log


def steps_of_record(run, record, refreshes, logs):
    """The steps of the rejected record. If its transaction is not open, only the first of them counts."""
    name = record.transaction
    if record.step == "begin":
        return [record.members]
    if record.step == "commit":
        return [{"step": "cmt", "tx": name}]
    if record.step == "op":
        return steps_of_call(run, record, refreshes if name in logs.local else None)
    back = [{"step": step, "tx": name, "id": number} for number, mark in reversed(list(logs.local.get(name, {}).items()))
            for step in (("unpull",) if mark == PULLED else ("unpush", "unapp"))]
    return [*back, {"step": "quit", "tx": name}] if record.step == "abort" else [{"step": "note", "tx": name}, *back]


def steps_of_call(run, record, refreshes):
    """The steps of a call. Without `refreshes` it pulls nothing."""
    name, call = record.transaction, next(call for call in run.calls if call.line == record.line)
    pulled = [] if refreshes is None else refreshes.before(call)
    pulls = [{"step": "pull", "tx": name, "id": before.id} for before in pulled]
    return [*pulls, {**record.members, "step": "app"}, {"step": "push", "tx": name, "id": call.id}]
