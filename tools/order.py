"""Looks for another serial order of the committed transactions, and has the program certify it.

For memories whose commit order is none, such as serializable snapshot isolation. The search makes a proposal, and is
not trusted: what counts is the program's verdict on the run that has the transactions in the order that was found.
"""
import collections
import heapq
import json

from dependencies import ORDER_KINDS, Dependencies, call_of_other_kind
from recorded_run import read_run
from verified_program import decide

# A search ends after so many tries, and earlier if these have that many reads together.
MOST_TRIES = 200
MOST_READS = 1_000_000
MOST_NAMED = 20
STARTS_OF_CYCLES = 30


class NotTaken(Exception):
    """`order` does not take this run. The message is one line."""


class Search:
    """The result of a search: `order` is a list of committed transactions, or None.

    Without an order `cycle` has edges, each of which ends where the next begins, or is empty if a read has no version.
    `lines` says what was found, and `is_complete` whether all choices of versions were tried.
    """

    def __init__(self, order, cycle, lines, is_complete=True):
        self.order = order
        self.cycle = cycle
        self.lines = lines
        self.is_complete = is_complete


def search(dependencies):
    """Looks for an order. A read that several versions fit is tried with each, as long as there are cycles through it."""
    read = dependencies.unexplained_read()
    if read is not None:
        found = ", ".join(f"{call.text} (line {call.line})" for call in read.calls[:MOST_NAMED])
        return Search(None, [], [f"no version fits what {read.reader.name} found: {found}"])
    numbers = {id(read): number for number, read in enumerate(dependencies.reads)}
    waiting, seen, first_cycle, tries = [{}], set(), None, 0
    most_tries = min(MOST_TRIES, MOST_READS // (len(numbers) + 1) + 1)
    while waiting and tries < most_tries:
        ranks, tries = waiting.pop(), tries + 1
        order, cycle = sorted_or_cycle(dependencies.transactions, dependencies.edges(ranks))
        if order is not None:
            return Search(order, [], moved_lines(order))
        first_cycle = first_cycle or cycle
        for choice in other_choices(dependencies, ranks, [numbers[id(edge.read)] for edge in cycle if edge.read]):
            key = frozenset(choice.items())
            if key not in seen:
                seen.add(key)
                waiting.append(choice)
    return Search(None, first_cycle, cycle_lines(first_cycle, tries, not waiting), not waiting)


def other_choices(dependencies, ranks, reads):
    """The choices in which one of these reads takes its next candidate."""
    for number in dict.fromkeys(reads):
        rank = ranks.get(number, 0) + 1
        if dependencies.reads[number].candidate(rank) is not None:
            yield {**ranks, number: rank}


def sorted_or_cycle(transactions, edges):
    """An order of the transactions that has no edge against it, and None; or None and a cycle."""
    after = collections.defaultdict(dict)
    for edge in edges:
        after[edge.before.number].setdefault(edge.after.number, edge)
    missing = collections.Counter(number for edges_after in after.values() for number in edges_after)
    ready = [transaction.number for transaction in transactions if not missing[transaction.number]]
    order = []
    while ready:
        number = heapq.heappop(ready)
        order.append(transactions[number])
        for next_number in after.get(number, ()):
            missing[next_number] -= 1
            if not missing[next_number]:
                heapq.heappush(ready, next_number)
    if len(order) == len(transactions):
        return order, None
    return None, short_cycle(after, {number for number, count in missing.items() if count})


def short_cycle(after, left):
    """A cycle of edges among the transactions that are left: the shortest through some of those on one cycle."""
    before = {}
    for number in left:
        for next_number in after.get(number, ()):
            if next_number in left:
                before[next_number] = number
    number, walked = next(iter(left)), set()
    while number not in walked:
        walked.add(number)
        number = before[number]
    on_cycle = [number]
    while before[on_cycle[-1]] != number:
        on_cycle.append(before[on_cycle[-1]])
    cycles = (cycle_through(start, after, left) for start in on_cycle[:STARTS_OF_CYCLES])
    return min(cycles, key=len)


def cycle_through(start, after, left):
    """A shortest cycle through a transaction that is on one."""
    came_by, waiting = {}, collections.deque([start])
    while start not in came_by:
        number = waiting.popleft()
        for next_number, edge in after.get(number, {}).items():
            if next_number in left and next_number not in came_by:
                came_by[next_number] = edge
                waiting.append(next_number)
    cycle = [came_by[start]]
    while cycle[-1].before.number != start:
        cycle.append(came_by[cycle[-1].before.number])
    return cycle[::-1]


def cycle_lines(cycle, tries, is_complete):
    lines = [f"a cycle of {len(cycle)} transactions:", *("  " + edge.words for edge in cycle)]
    if not is_complete:
        lines.append(f"{tries} choices of who left an equal value were tried, and not all")
    elif tries > 1:
        lines.append(f"all {tries} choices of who left an equal value have a cycle; this is the first")
    return lines


def moved_lines(order):
    """Which transactions come after one that committed later, and how many the order takes against real time."""
    latest, moved = None, []
    for transaction in order:
        if latest is not None and transaction.number < latest.number:
            moved.append(f"{ended(transaction)}, comes after {ended(latest)}")
        else:
            latest = transaction
    lines = moved[:MOST_NAMED] or ["the order is that of the commit lines"]
    if len(moved) > MOST_NAMED:
        lines.append(f"and {len(moved) - MOST_NAMED} more")
    against = against_real_time(order)
    if against:
        lines.append(f"{against} of {len(order)} transactions come before one that had ended before they began")
    return lines


def ended(transaction):
    return f"{transaction.name}, which committed on line {transaction.attempt.end_line}"


def against_real_time(order):
    """How many transactions come before one that had committed before they began."""
    first_end, count = float("inf"), 0
    for transaction in reversed(order):
        begin = transaction.attempt.begin_line
        count += begin is not None and first_end < begin
        first_end = min(first_end, transaction.attempt.end_line)
    return count


def serial_run(run, order):
    """The text of a run of style boosted in which the transactions run one after another, in this order."""
    header = {name: run.header[name] for name in ("run", "objects", "start") if name in run.header}
    lines = [{**header, "style": "boosted"}]
    for transaction in order:
        begin = {"step": "begin", "tx": transaction.name, "thread": transaction.attempt.thread or transaction.name}
        lines.append(begin if transaction.body is None else {**begin, "body": transaction.body})
        lines += [{"step": "op", "tx": transaction.name, "id": call.id, "on": call.object_name, "call": call.name,
                   "args": call.arguments, "result": call.result} for call in transaction.calls]
        lines.append({"step": "commit", "tx": transaction.name})
    return "".join(json.dumps(line, separators=(",", ":")) + "\n" for line in lines).encode()


class Order:
    """What `order` says of a run.

    `recorded` is the program's report on the run, and `reordered` that on the run in the order that was found, or None.
    `text` is the run in that order.
    """

    def __init__(self, recorded, found=None, text=None, reordered=None):
        self.recorded = recorded
        self.found = found
        self.text = text
        self.reordered = reordered

    def lines(self):
        shown = ["as recorded:", *shown_lines(self.recorded)]
        if self.found is None:
            return shown
        if self.reordered is None:
            return [*shown, "", "no order was found:", *self.found.lines]
        shown += ["reordered:", *shown_lines(self.reordered), "", *self.found.lines]
        if self.reordered.verdict != "accepted":
            shown.append("the program does not accept the run in this order")
        return shown

    def fields(self):
        """What `--json` adds to the fields of the report on the run as it was recorded."""
        if self.found is None:
            return {}
        order = None if self.found.order is None else [transaction.name for transaction in self.found.order]
        cycle = [{"before": edge.before.name, "after": edge.after.name, "words": edge.words} for edge in self.found.cycle]
        return {"order": order, "cycle": cycle, "all_choices_tried": self.found.is_complete, "lines": self.found.lines}


def shown_lines(report):
    """The lines of a report but for the serial run of an accepted one."""
    return report.lines[:1] if report.verdict == "accepted" else report.lines


def order(program, data):
    """Another serial order of a run, given as bytes. Raises NotTaken, and UnreadableRun."""
    recorded = decide(program, data)
    if recorded.verdict == "fault" and recorded.cause != "TooManySteps":
        return Order(recorded)
    run = read_run(data)
    other = call_of_other_kind(run)
    if other is not None:
        kinds = ", ".join(ORDER_KINDS)
        raise NotTaken(f"line {other.line} calls a {other.kind}, and order takes calls of the kinds {kinds} alone")
    found = search(Dependencies(run))
    if found.order is None:
        return Order(recorded, found)
    text = serial_run(run, found.order)
    return Order(recorded, found, text, decide(program, text))
