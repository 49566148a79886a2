"""The lines and the attempts of a run, as the page of `picture` draws them: in columns of numbers.

A *mark* is one recorded line, or one call of the start. Marks are numbered from 0 in the order of their lines.
"""
import heapq
import re

import read_from

# With more threads than these, threads share lanes.
MOST_LANES = 64
STRAY, START_LANE = "not open", "(start)"
COLUMNS = ("line", "attempt", "step", "text", "place", "about", "source", "gone", "changes")
CALLING, COMMITTING = ("app", "op"), ("cmt", "commit")
# The steps that name a call by its id, and those that name an object or a transaction, by which member.
NAMING_CALLS = ("unapp", "push", "unpush", "pull", "unpull")
NAMING_OTHERS = {"refresh": "on", "depend": "source", "drop": "source"}


class Names:
    """Numbers for names, from 0 in the order in which they came."""

    def __init__(self):
        self.names = []
        self.numbers = {}

    def number(self, name):
        if name not in self.numbers:
            self.numbers[name] = len(self.names)
            self.names.append(name)
        return self.numbers[name]


class Drawn:
    """An attempt as it is drawn: from its first mark to its last one."""

    __slots__ = ("transaction", "number", "thread", "end", "first", "last", "order", "lane")

    def __init__(self, transaction, number, thread, end, first):
        self.transaction = transaction
        self.number = number
        self.thread = thread
        self.end = end
        self.first = self.last = first
        self.order = 0
        self.lane = 0


class Marks:
    """The marks of a run and its attempts, in columns. `judged_before` is the line that the program rejected, or None.

    Of each mark: its `line`, its `attempt`, its `step`, the `text` of its call, its `place`, the mark of the call that
    it is `about` if it is no call itself, the mark of the call that wrote what it found (`source`), the mark that took
    the call back (`gone`), and whether the call `changes` its object. A number that there is not is -1.
    """

    def __init__(self, run, judged_before):
        self.run = run
        self.judged_before = judged_before
        self.rows = []
        self.steps, self.texts, self.places = Names(), Names(), Names()
        self.transactions, self.threads = Names(), Names()
        self.drawn = []
        self.drawn_numbers = {}         # by attempt
        self.mark_of_call = {}
        self.mark_of_line = {}
        self.current = {}               # by transaction: the place of its attempt among those of the transaction
        self.start = run.start.attempts[0] if run.start else None
        self.commits = 1 if run.start else 0
        self.add_all()
        self.columns = dict(zip(COLUMNS, map(list, zip(*self.rows)))) if self.rows else {name: [] for name in COLUMNS}
        self.add_links()
        self.lanes = lay_out(self.drawn)

    def add_all(self):
        start = self.start.calls if self.start else []
        for call in start:
            self.add_mark(call.line, "start", self.attempt_number(call.attempt), call, -1)
        calls = iter(self.run.calls[len(start):])
        by_id = {call.id: call for call in start}
        for record in self.run.records:
            attempt = self.number_at(record)
            if record.step in CALLING:
                call = next(calls)
                by_id[call.id] = call
                self.add_mark(record.line, record.step, attempt, call, -1)
            else:
                self.add_step(record, attempt, by_id)

    def add_mark(self, line, step, attempt, call, about):
        """A call, or, with the mark of the call that it is about, a step."""
        mark = len(self.rows)
        text = place = -1
        if call is not None:
            place = self.places.number(place_text(call))
            if about < 0:
                text = self.texts.number(call.text)
                self.mark_of_call[call] = mark
        changes = int(call is not None and about < 0 and read_from.changes(call))
        self.rows.append((line, attempt, self.steps.number(step), text, place, about, -1, -1, changes))
        self.mark_of_line.setdefault(line, mark)
        self.drawn[attempt].last = mark

    def add_step(self, record, attempt, by_id):
        """A step that is no call: it may name a call by its id, or an object or a transaction by its name."""
        call = by_id.get(record.members["id"]) if record.step in NAMING_CALLS else None
        step = record.step
        if record.step in NAMING_OTHERS:
            step += " " + record.members[NAMING_OTHERS[record.step]]
        self.add_mark(record.line, step, attempt, call, -1 if call is None else self.mark_of_call[call])
        if record.step in COMMITTING and (self.judged_before is None or record.line < self.judged_before):
            self.commits += 1
            self.drawn[attempt].order = self.commits

    def number_at(self, record):
        """The number of the attempt to which a record belongs."""
        transaction = self.run.transactions.get(record.transaction)
        attempts = transaction.attempts if transaction else []
        place = self.current.get(record.transaction, 0)
        while place + 1 < len(attempts) and has_moved_on(attempts[place], attempts[place + 1], record.line):
            place += 1
        self.current[record.transaction] = place
        if place < len(attempts) and covers(attempts[place], record.line):
            return self.attempt_number(attempts[place])
        return self.add_drawn(record.transaction, 0, None, STRAY)

    def attempt_number(self, attempt):
        if attempt not in self.drawn_numbers:
            end = STRAY if attempt.begin_line is None else attempt.end
            self.drawn_numbers[attempt] = self.add_drawn(attempt.transaction, attempt.number, attempt.thread, end)
            if attempt is self.start:
                self.drawn[-1].order = 1
        return self.drawn_numbers[attempt]

    def add_drawn(self, transaction, number, thread, end):
        self.drawn.append(Drawn(transaction, number, thread, end, len(self.rows)))
        return len(self.drawn) - 1

    def of_call(self, call):
        """The mark of a call, or -1 if there is none."""
        return self.mark_of_call.get(call, -1)

    def add_links(self):
        """The sources of the calls, and what took them back."""
        for call, source in read_from.sources_of(self.run).items():
            self.columns["source"][self.mark_of_call[call]] = self.mark_of_call[source]
        for call, mark in self.mark_of_call.items():
            if call.taken_back_line is not None:
                self.columns["gone"][mark] = self.mark_of_line[call.taken_back_line]

    def attempt_columns(self):
        return {
            "transaction": [self.transactions.number(drawn.transaction) for drawn in self.drawn],
            "number": [drawn.number for drawn in self.drawn],
            "thread": [-1 if drawn.thread is None else self.threads.number(drawn.thread) for drawn in self.drawn],
            "lane": [drawn.lane for drawn in self.drawn],
            "first": [drawn.first for drawn in self.drawn],
            "last": [drawn.last for drawn in self.drawn],
            "end": [drawn.end for drawn in self.drawn],
            "order": [drawn.order for drawn in self.drawn],
        }


def covers(attempt, line):
    return (attempt.begin_line or 0) <= line and (attempt.end_line is None or line <= attempt.end_line)


def has_moved_on(attempt, following, line):
    """Whether a line belongs no more to an attempt, but perhaps to the one that follows. A retry belongs to the attempt
    that it ends.
    """
    if attempt.end_line is not None:
        return attempt.end_line < line
    return following.begin_line is not None and following.begin_line <= line


def place_text(call):
    """The object, and the key if its kind has keys: acct(12)."""
    return call.object_name if call.key is None else f"{call.object_name}({call.key})"


def lane_name(drawn):
    if drawn.thread is not None:
        return drawn.thread
    return START_LANE if drawn.end != STRAY else "(no thread)"


def natural(name):
    """A key that sorts p2 before p10, and the start first."""
    parts = re.split(r"(\d+)", name)
    return name != START_LANE, [(int(part), "") if part.isdecimal() else (-1, part) for part in parts]


def lay_out(drawn):
    """Gives each attempt its lane, and returns the lanes' names: one for each thread, or shared ones for many threads."""
    names = sorted({lane_name(attempt) for attempt in drawn}, key=natural)
    lanes = {name: lane for lane, name in enumerate(names)}
    if len(names) <= MOST_LANES:
        for attempt in drawn:
            attempt.lane = lanes[lane_name(attempt)]
        return names
    return [f"row {lane + 1}" for lane in range(share_lanes(drawn))]


def share_lanes(drawn):
    """Gives each attempt the first lane in which none is drawn at its first mark, and returns how many lanes there are."""
    count, busy, free = 0, [], []
    for attempt in sorted(drawn, key=lambda attempt: attempt.first):
        while busy and busy[0][0] < attempt.first:
            heapq.heappush(free, heapq.heappop(busy)[1])
        if not free:
            free.append(count)
            count += 1
        attempt.lane = heapq.heappop(free)
        heapq.heappush(busy, (attempt.last, attempt.lane))
    return count
