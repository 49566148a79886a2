"""A table of lines: one column for each transaction that an explanation names, only the lines on one place."""
from explanation import first_line
from phrases import is_of_start
from recorded_run import ENTRY_STEPS

MOST_ROWS = 40
# Steps that are shown for what they do to a whole transaction, with the member that is shown beside them.
WHOLE_STEPS = {"begin": None, "commit": None, "abort": None, "retry": None, "cmt": None, "quit": None, "publish": None,
               "xbegin": None, "xend": None, "xabort": None, "depend": "source", "drop": "source", "refresh": "on"}
CALL_STEPS = ("app", "op")


class Row:
    """One line of the run, in the column of its transaction."""

    def __init__(self, line, transaction, text, is_failing=False, is_needed=False):
        self.line = line
        self.transaction = transaction
        self.text = text
        self.is_failing = is_failing
        self.is_needed = is_needed or is_failing

    def fields(self):
        return {"line": self.line, "transaction": self.transaction, "text": self.text, "failing": self.is_failing}


class Timeline:
    """The rows about some attempts: their calls on one place, and those that are named. If `place` is None, all calls."""

    def __init__(self, run, logs, explanation, line, place):
        self.run, self.line, self.place = run, line, place
        self.calls_by_id = logs.calls
        self.calls_by_line = {call.line: call for call in run.calls}
        self.spans = {}     # the first and the last line of each attempt, by the name of its transaction
        for attempt in explanation.involved_attempts():
            begin, end = first_line(attempt) or 0, attempt.end_line or float("inf")
            self.spans.setdefault(attempt.transaction, []).append((begin, end))
        self.named_lines = {call.line for call in explanation.named}
        self.rows = self.start_rows(explanation.named)
        for record in run.records:
            if record.transaction in self.spans or record.line == line:
                self.add_row(record)
        self.left_out = self.cut()

    def start_rows(self, named):
        if self.run.start is None:
            return []
        shown = {id(call) for call in named if is_of_start(call)}
        calls = [call for call in self.run.start.attempts[0].calls if id(call) in shown]
        return [Row(call.line, call.transaction, call.text, call.line == self.line, is_needed=True) for call in calls]

    def add_row(self, record):
        is_failing = record.line == self.line
        text = self.text_of(record)
        if text is None and is_failing:
            text = record.step.upper()
        if text is None or not (is_failing or self.is_involved(record)):
            return
        is_needed = record.line in self.named_lines or record.step in WHOLE_STEPS
        self.rows.append(Row(record.line, record.transaction, text, is_failing, is_needed))

    def is_involved(self, record):
        """Whether a record belongs to one of the attempts. A retry belongs to the one that it ends and to the next."""
        return any(begin <= record.line <= end for begin, end in self.spans[record.transaction])

    def text_of(self, record):
        """What a row shows of a record, or None if it is not about the place."""
        members = record.members
        if record.step in WHOLE_STEPS:
            if record.step == "refresh" and self.place is not None and members["on"] != self.place[0]:
                return None
            shown = WHOLE_STEPS[record.step]
            return record.step.upper() + (f" {members[shown]}" if shown else "")
        if record.step in CALL_STEPS:
            call = self.calls_by_line[record.line]
            is_shown = record.line in self.named_lines or self.place in (None, call.place)
            return call.text if is_shown else None
        call = self.calls_by_id.get(members["id"]) if record.step in ENTRY_STEPS else None
        is_shown = call is not None and self.place in (None, call.place)
        return f"{record.step.upper()} {call.text}" if is_shown else None

    def cut(self):
        """Leaves out rows that are not needed, the earliest first, if there are too many. Returns how many."""
        spare = [row for row in self.rows if not row.is_needed]
        drop = {id(row) for row in spare[:max(0, len(spare) - MOST_ROWS)]}
        self.rows = [row for row in self.rows if id(row) not in drop]
        return len(drop)

    def columns(self):
        """The transactions with a row, in the order of their first rows."""
        return list(dict.fromkeys(row.transaction for row in self.rows))

    def lines(self):
        """The table as text."""
        columns, width = self.columns(), max([5, *(len(str(row.line)) for row in self.rows)])
        widths = {name: max(len(name), *(len(row.text) for row in self.rows if row.transaction == name)) for name in columns}
        table = ["line".rjust(width) + "  " + "  ".join(name.ljust(widths[name]) for name in columns)]
        for row in self.rows:
            cells = [(row.text if name == row.transaction else "").ljust(widths[name]) for name in columns]
            table.append(f"{row.line:{width}}{'*' if row.is_failing else ' '} " + "  ".join(cells))
        if self.left_out:
            table.append(" " * (width + 2) + f"{self.left_out} earlier lines on this place are left out")
        return [line.rstrip() for line in table]
