"""The machine of docs/RULES.md: logs, the criteria of each step in their order, and the effects of the steps.

A criterion is a function of the configuration and the step. It returns None if it is true. If it is false, it returns the
lines of its evidence, which may be none.
"""
from typing import NamedTuple

from definition_objects import START, context, perform, result_text, same, swaps

UNPUSHED, PUSHED, PULLED, UNCOMMITTED, COMMITTED = "unpushed", "pushed", "pulled", "uncommitted", "committed"
OWN = (UNPUSHED, PUSHED)
FALSE = ()


class Step(NamedTuple):
    """A step of a transaction: its rule, and what the rule needs."""

    rule: str
    tx: str
    id: int = None
    operation: object = None
    thread: str = None
    body: object = None


class Entry:
    """An operation under an id in a log, with the transaction that owns it and its mark."""

    def __init__(self, number, owner, operation, mark):
        self.id, self.owner, self.operation, self.mark = number, owner, operation, mark


class Log:
    """The entries of a log in their order, by their ids: all of them, those on each object and those at each place."""

    def __init__(self):
        self.entries, self.objects, self.places, self.states = {}, {}, {}, {}

    def at(self, place):
        return self.places.get(place, {})

    def on(self, name):
        return self.objects.get(name, {})

    def state(self, operation):
        """What the log leaves at the place of an operation. It is kept until an entry leaves that place."""
        place = operation.place
        if place not in self.states:
            there = START[operation.kind]
            for entry in self.at(place).values():
                there = perform(there, entry.operation)[0]
            self.states[place] = there
        return self.states[place]

    def wrong_next(self, entry):
        """The evidence that the log, followed by this entry, is not allowed, or None."""
        result = perform(self.state(entry.operation), entry.operation)[1]
        return None if same(result, entry.operation.result) else gives(entry, result)

    def wrong_without(self, left_out):
        """The evidence that the log without this entry is not allowed, or None. Other places stay as they are."""
        entries = self.at(left_out.operation.place)
        if next(reversed(entries)) == left_out.id:
            return None
        there, is_later = START[left_out.operation.kind], False
        for entry in entries.values():
            if entry.id == left_out.id:
                is_later = True
                continue
            there, result = perform(there, entry.operation)
            if is_later and not same(result, entry.operation.result):
                return gives(entry, result)
        return None

    def append(self, entry):
        operation = entry.operation
        self.states[operation.place] = perform(self.state(operation), operation)[0]
        self.entries[entry.id] = entry
        self.objects.setdefault(operation.on, {})[entry.id] = entry
        self.places.setdefault(operation.place, {})[entry.id] = entry

    def remove(self, number):
        operation = self.entries.pop(number).operation
        del self.objects[operation.on][number], self.places[operation.place][number]
        self.states.pop(operation.place, None)


class Transaction:
    """An open transaction."""

    def __init__(self, thread, body):
        self.thread, self.body, self.log = thread, body, Log()

    def own(self):
        return [entry for entry in self.log.entries.values() if entry.mark in OWN]

    def calls(self):
        """The calls of its own entries."""
        return [entry.operation for entry in self.own()]


class Configuration:
    """The state between two steps."""

    def __init__(self):
        self.shared, self.open, self.commits = Log(), {}, []
        self.names, self.ids = set(), set()
        self.uncommitted = {}       # the uncommitted entries of the shared log at each place, in its order

    def local(self, step):
        return self.open[step.tx].log


def gives(entry, result):
    return (f"entry {entry.id} gives {result_text(result)}",)


def not_swapping(entries, pair_of):
    """The evidence of the first of these entries whose pair does not swap, or None."""
    for entry in entries:
        pair = pair_of(entry.operation)
        if not swaps(*pair):
            before, after = (" ".join(["", *map(str, operations)]) for operations in context(*pair))
            return f"entry {entry.id}", f"before{before}", f"after{after}"
    return None


def first_entry(entries, is_wrong):
    """The evidence of the first of these entries that is wrong, or None."""
    return next(((f"entry {entry.id}",) for entry in entries if is_wrong(entry)), None)


def between(entries, number, is_after):
    """The entries before, or after, the one with this id."""
    listed = list(entries.values())
    position = list(entries).index(number)
    return listed[position + 1:] if is_after else listed[:position]


# START

def start_1(items):
    """No id is in the items twice."""
    return next(((f"entry {item.id}",) for k, item in enumerate(items) if item.id in [one.id for one in items[:k]]), None)


def start_2(items):
    """Their operations are allowed."""
    log = Log()
    for item in items:
        wrong = log.wrong_next(item)
        if wrong is not None:
            return wrong
        log.append(item)
    return None


# The criteria of the steps, each with its number

def is_open(now, step):
    """t is open: criterion 1 of every step but START and BEGIN."""
    return None if step.tx in now.open else FALSE


def begin_1(now, step):
    """No transaction t was begun before."""
    return FALSE if step.tx in now.names else None


def begin_2(now, step):
    """No open transaction runs on p."""
    return FALSE if any(one.thread == step.thread for one in now.open.values()) else None


def app_2(now, step):
    """The id was never applied."""
    return FALSE if step.id in now.ids else None


def app_3(now, step):
    """The calls of t's own entries followed by this one begin a word of its body."""
    body = now.open[step.tx].body
    if body is None:
        return None
    calls = [*now.open[step.tx].calls(), step.operation]
    return None if len(calls) in ends(body, calls, 0, True) else FALSE


def app_4(now, step):
    """L·op is allowed."""
    return now.local(step).wrong_next(Entry(step.id, step.tx, step.operation, UNPUSHED))


def unapp_2(now, step):
    """The last entry of L has this id, and is unpushed."""
    last = next(reversed(now.local(step).entries.values()), None)
    return None if last is not None and last.id == step.id and last.mark == UNPUSHED else FALSE


def has_mark(mark):
    """The id is an entry of L with this mark: criterion 2 of PUSH, UNPUSH and UNPULL."""
    def criterion(now, step):
        entry = now.local(step).entries.get(step.id)
        return None if entry is not None and entry.mark == mark else FALSE
    return criterion


def push_3(now, step):
    """swaps(op, a) for each unpushed a before it in L."""
    entry = now.local(step).entries[step.id]
    earlier = between(now.local(step).at(entry.operation.place), step.id, False)
    return not_swapping([a for a in earlier if a.mark == UNPUSHED], lambda a: (entry.operation, a))


def push_4(now, step):
    """swaps(u, op) for each uncommitted u of another transaction in G."""
    operation = now.local(step).entries[step.id].operation
    uncommitted = now.uncommitted.get(operation.place, {}).values()
    return not_swapping([u for u in uncommitted if u.owner != step.tx], lambda u: (u, operation))


def push_5(now, step):
    """G·op is allowed."""
    return now.shared.wrong_next(now.local(step).entries[step.id])


def unpush_3(now, step):
    """swaps(b, op) for each pushed b after it in L."""
    entry = now.local(step).entries[step.id]
    later = between(now.local(step).at(entry.operation.place), step.id, True)
    return not_swapping([b for b in later if b.mark == PUSHED], lambda b: (b, entry.operation))


def unpush_4(now, step):
    """G without it is allowed."""
    return now.shared.wrong_without(now.shared.entries[step.id])


def pull_2(now, step):
    """The id is in G and owned by another."""
    entry = now.shared.entries.get(step.id)
    return None if entry is not None and entry.owner != step.tx else FALSE


def pull_3(now, step):
    """It is not in L."""
    return FALSE if step.id in now.local(step).entries else None


def pull_4(now, step):
    """L·op is allowed."""
    return now.local(step).wrong_next(now.shared.entries[step.id])


def pull_5(now, step):
    """swaps(a, op) for each own a in L."""
    operation = now.shared.entries[step.id].operation
    there = now.local(step).at(operation.place).values()
    return not_swapping([a for a in there if a.mark in OWN], lambda a: (a, operation))


def unpull_3(now, step):
    """L without it is allowed."""
    return now.local(step).wrong_without(now.local(step).entries[step.id])


def cmt_2(now, step):
    """The calls of t's own entries are a word of its body."""
    body = now.open[step.tx].body
    if body is None:
        return None
    calls = now.open[step.tx].calls()
    return None if len(calls) in ends(body, calls, 0, False) else FALSE


def cmt_3(now, step):
    """All own entries are pushed."""
    return first_entry(now.open[step.tx].own(), lambda entry: entry.mark != PUSHED)


def cmt_4(now, step):
    """Each pulled entry of L is committed in G."""
    pulled = [entry for entry in now.local(step).entries.values() if entry.mark == PULLED]
    there = now.shared.entries
    return first_entry(pulled, lambda entry: entry.id not in there or there[entry.id].mark != COMMITTED)


def quit_2(now, step):
    """L is empty."""
    return first_entry(now.local(step).entries.values(), lambda entry: True)


CRITERIA = {
    "BEGIN": (begin_1, begin_2),
    "APP": (is_open, app_2, app_3, app_4),
    "UNAPP": (is_open, unapp_2),
    "PUSH": (is_open, has_mark(UNPUSHED), push_3, push_4, push_5),
    "UNPUSH": (is_open, has_mark(PUSHED), unpush_3, unpush_4),
    "PULL": (is_open, pull_2, pull_3, pull_4, pull_5),
    "UNPULL": (is_open, has_mark(PULLED), unpull_3),
    "CMT": (is_open, cmt_2, cmt_3, cmt_4),
    "QUIT": (is_open, quit_2),
    "NOTE": (is_open,),
}


def first_false(now, step):
    """The number and the evidence of the first criterion of a step that is false, or None."""
    for number, criterion in enumerate(CRITERIA[step.rule], 1):
        evidence = criterion(now, step)
        if evidence is not None:
            return number, evidence
    return None


def start_false(items):
    """The same for START."""
    for number, criterion in enumerate((start_1, start_2), 1):
        evidence = criterion(items)
        if evidence is not None:
            return number, evidence
    return None


# Bodies (docs/FORMAT.md)

def ends(body, calls, begin, may_go_on):
    """Where a word of the body can end that begins at this position of the calls.

    If `may_go_on`, a word may go on past the last call: each body has a word, so any rest can follow. It then ends there.
    """
    if may_go_on and begin == len(calls):
        return {begin}
    (form,) = (name for name in ("skip", "seq", "alt", "star", "on") if name in body)
    if form == "on":
        return {begin + 1} if begin < len(calls) and is_call(body, calls[begin]) else set()
    if form == "alt":
        return {end for part in body["alt"] for end in ends(part, calls, begin, may_go_on)}
    positions = {begin}
    if form == "seq":
        for part in body["seq"]:
            positions = {end for position in positions for end in ends(part, calls, position, may_go_on)}
    if form == "star":
        reached = positions
        while reached:
            reached = {end for position in reached for end in ends(body["star"], calls, position, may_go_on)} - positions
            positions = positions | reached
    return positions


def is_call(body, operation):
    """Whether a call is this one, in which null means any number."""
    return ((body["on"], body["call"]) == (operation.on, operation.call)
            and all(given in (None, number) for given, number in zip(body["args"], operation.args)))


# The effects

def start(now, tx, items):
    now.names.add(tx)
    now.commits.append((tx, items))
    for item in items:
        now.ids.add(item.id)
        now.shared.append(item)


def begin(now, step):
    now.names.add(step.tx)
    now.open[step.tx] = Transaction(step.thread, step.body)


def app(now, step):
    now.ids.add(step.id)
    now.local(step).append(Entry(step.id, step.tx, step.operation, UNPUSHED))


def remove_local(now, step):
    now.local(step).remove(step.id)


def push(now, step):
    entry = now.local(step).entries[step.id]
    entry.mark = PUSHED
    published = Entry(entry.id, step.tx, entry.operation, UNCOMMITTED)
    now.shared.append(published)
    now.uncommitted.setdefault(entry.operation.place, {})[entry.id] = published


def unpush(now, step):
    entry = now.local(step).entries[step.id]
    entry.mark = UNPUSHED
    now.shared.remove(step.id)
    del now.uncommitted[entry.operation.place][step.id]


def pull(now, step):
    entry = now.shared.entries[step.id]
    now.local(step).append(Entry(entry.id, entry.owner, entry.operation, PULLED))


def commit(now, step):
    own = now.open.pop(step.tx).own()
    for entry in own:
        now.shared.entries[entry.id].mark = COMMITTED
        del now.uncommitted[entry.operation.place][entry.id]
    now.commits.append((step.tx, own))


def close(now, step):
    del now.open[step.tx]


EFFECTS = {
    "BEGIN": begin, "APP": app, "UNAPP": remove_local, "PUSH": push, "UNPUSH": unpush, "PULL": pull, "UNPULL": remove_local,
    "CMT": commit, "QUIT": close, "NOTE": lambda now, step: None,
}
