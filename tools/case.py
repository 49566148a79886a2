"""A rejection, with all that `why` needs to explain it."""
from recorded_run import ENTRY_STEPS


class Case:
    """A rejected run, before the step that the program rejects.

    It is made of the run and the report on it.
    `step` is that step as a record of style rules, or None for the start. `transaction` is who takes it.
    `logs` are the shared log there and at least the local log of this transaction.
    `call` is the call that the step makes, takes back, publishes, withdraws, takes over or gives up, or None.
    `entry` is the call that the evidence names, or None.
    """

    def __init__(self, run, report, step, logs):
        self.run = run
        self.report = report
        self.line = report.line
        self.criterion = report.rule, report.criterion
        self.evidence = report.evidence
        self.step = step
        self.logs = logs
        self.transaction = run.start.name if step is None else step["tx"]
        self.call = self.find_call()
        self.entry = None if self.evidence is None else self.find_entry(self.evidence.entry)

    def find_call(self):
        if self.step is not None and self.step["step"] == "app":
            return self.call_of_step()
        if self.step is not None and self.step["step"] in ENTRY_STEPS:
            return self.logs.calls.get(self.step["id"])
        return None

    def call_of_step(self):
        """The call with the step's id on the rejected line: no other call can have an id twice before."""
        for call in reversed(self.run.calls_with_id(self.step["id"])):
            if call.line == self.line:
                return call
        return None

    def find_entry(self, number):
        """The call with an id: that of the step, or else the first one."""
        if self.call is not None and self.call.id == number:
            return self.call
        return self.logs.calls.get(number)


def first_calls(run):
    """The calls of the start."""
    return [] if run.start is None else run.start.attempts[0].calls
