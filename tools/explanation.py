"""What an explanation of a rejection has: sentences, and the calls and attempts that they name."""


class Explanation:
    """`lines` are sentences, and `calls` has for each of them the calls that it names. `named` are all these calls, and
    `attempts` the attempts that have no call among them.

    `recorded_by` left what the failing call found by its recorded result, and `right_by` what it should have found. Both
    are None if the sentences name no such call.
    """

    def __init__(self):
        self.lines = []
        self.calls = []
        self.named = []
        self.recorded_by = self.right_by = None
        self.attempts = []

    def add(self, line, *calls):
        self.lines.append(line)
        self.calls.append(calls)
        self.named.extend(calls)

    def involved_attempts(self):
        """Each attempt once."""
        seen = {}
        for attempt in [*self.attempts, *(call.attempt for call in self.named)]:
            seen[id(attempt)] = attempt
        return list(seen.values())


def first_line(attempt):
    """The line of the first record that shows an attempt, or None if only other records do."""
    if attempt.begin_line is not None:
        return attempt.begin_line
    return attempt.calls[0].line if attempt.calls else attempt.end_line


def attempt_at(run, transaction, line):
    """The attempt of a transaction that the record on a line belongs to, or None. A retry belongs to the one it ends."""
    attempts = run.transactions[transaction].attempts if transaction in run.transactions else []
    for attempt in attempts:
        if attempt.end_line == line:
            return attempt
    begun = [attempt for attempt in attempts if first_line(attempt) is not None and first_line(attempt) <= line]
    return begun[-1] if begun else None
