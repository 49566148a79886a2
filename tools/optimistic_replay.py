"""The step of an optimistic run that `judge` rejects, and the logs before it, without all the steps of the run.

An optimistic run may have a thousand times more steps than records, since the first call of an attempt on an object pulls
what is committed there. So `expand` prints them only up to the limit of `certify`. But who pulled what is clear from the
lines: what was committed before the first call of the attempt on the object, or before its last `refresh` there. As in
`replay`, the records before the rejected one are taken to meet their criteria.
"""
from boosted_replay import StepCount, open_attempt
from case import first_calls
from recorded_run import COMMITTED
from replay import PULLED, UNPUSHED, Logs


class OptimisticStepCount(StepCount):
    """How many steps the records of an optimistic run are, record after record."""

    def __init__(self, run):
        super().__init__(run)
        self.methods["refresh"] = self.refresh

    def call(self, record):
        name = record.members["on"]
        pulled, own = self.pulled[record.transaction], self.own[record.transaction]
        if not pulled[name] and not own[name]:
            self.count += self.committed[name]
            pulled[name] = self.committed[name]
        self.count += 1
        own[name] += 1

    def refresh(self, record):
        name, pulled = record.members["on"], self.pulled[record.transaction]
        self.count += self.committed[name] - pulled[name] + 1
        pulled[name] = self.committed[name]

    def commit(self, record):
        own = self.own[record.transaction]
        self.count += sum(own.values()) + 1
        self.committed.update(own)

    def undo(self, record):
        self.count += sum(self.pulled[record.transaction].values()) + sum(self.own[record.transaction].values()) + 1
        self.forget(record)


def rejected_step(run, report):
    """The rejected step, as a record of style rules, and the logs before it. The start must not be rejected."""
    counted = OptimisticStepCount(run)
    for record in run.records:
        if record.line == report.line:
            break
        counted.take(record)
    logs = shared_before(run, record.line)
    attempt = open_attempt(run, record)
    if attempt is not None:
        logs.local[record.transaction] = local_before(run, logs, attempt, record.line)
    steps = steps_of_record(record, logs)
    place = report.step - counted.count - 1
    for step in steps[:place]:
        logs.take(step)
    return steps[place], logs


def shared_before(run, line):
    """The shared log before a line, and no local logs."""
    logs = Logs(run, first_calls(run))
    attempts = [attempt for transaction in run.transactions.values() for attempt in transaction.attempts]
    ended = [attempt for attempt in attempts if attempt.end == COMMITTED and attempt.end_line < line]
    for attempt in sorted(ended, key=lambda attempt: attempt.end_line or 0):
        for call in attempt.calls:
            logs.shared[call.id] = call
            logs.committed.add(call.id)
    return logs


def local_before(run, logs, attempt, line):
    """The local log of an attempt before a line."""
    log = {}
    for record in run.records:
        if record.transaction == attempt.transaction and attempt.begin_line < record.line < line:
            if record.step in ("op", "refresh"):
                log.update((call.id, PULLED) for call in pulled_by(record, log, logs))
            if record.step == "op":
                log[record.members["id"]] = UNPUSHED
    return log


def pulled_by(record, log, logs):
    """What a call or a refresh pulls, in the order of the shared log. `log` is the local log before it."""
    name = record.members["on"]
    if record.step == "op" and any(logs.calls[number].object_name == name for number in log):
        return []
    return [call for call in logs.shared.values() if call.object_name == name and call.id not in log
            and is_committed_before(call, record.line)]


def is_committed_before(call, line):
    """Whether a call of the shared log was committed before a line. Those of the start always were."""
    return call.attempt.end_line is None or call.attempt.end_line < line


def steps_of_record(record, logs):
    """The steps of the rejected record. If its transaction is not open, only the last of them counts."""
    name = record.transaction
    log = logs.local.get(name)
    own = {"begin": record.members, "op": {**record.members, "step": "app"}, "commit": {"step": "cmt", "tx": name},
           "abort": {"step": "quit", "tx": name}}.get(record.step, {"step": "note", "tx": name})
    if log is None or record.step == "begin":
        return [own]
    if record.step == "commit":
        return [*({"step": "push", "tx": name, "id": number} for number, mark in log.items() if mark == UNPUSHED), own]
    if record.step in ("op", "refresh"):
        pulls = [{"step": "pull", "tx": name, "id": call.id} for call in pulled_by(record, log, logs)]
        return [*pulls, own] if record.step == "op" else [own, *pulls]
    back = [{"step": "unpull" if mark == PULLED else "unapp", "tx": name, "id": number}
            for number, mark in reversed(list(log.items()))]
    return [*back, own] if record.step == "abort" else [own, *back]
