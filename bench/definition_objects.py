"""The kinds of objects: what each call returns and leaves (docs/FORMAT.md), and which pairs of operations swap (docs/RULES.md).

A *place* is a key of a mem, set or map, and else a whole object. Operations of different places always swap. So all that
this module says is about one place. What is at a place is a number, true or false, None, or a tuple of items.
"""
from typing import NamedTuple

LEAST, MOST = -10**18, 10**18
KEYED = ("mem", "set", "map")

# What is at a place at first, and each call: the number of its arguments, the form of its result, and what it makes of
# what is there and of its arguments other than a key: what is there next, and the result.
START = {"mem": 0, "set": False, "map": None, "counter": 0, "queue": (), "stack": (), "prio": ()}
CALLS = {
    "mem": {
        "read": (1, "number", lambda there: (there, there)),
        "write": (2, "null", lambda there, new: (new, None)),
        "cas": (3, "truth", lambda there, old, new: (new, True) if there == old else (there, False)),
    },
    "set": {
        "add": (1, "truth", lambda there: (True, not there)),
        "remove": (1, "truth", lambda there: (False, there)),
        "contains": (1, "truth", lambda there: (there, there)),
    },
    "map": {
        "put": (2, "number or null", lambda there, new: (new, there)),
        "get": (1, "number or null", lambda there: (there, there)),
        "remove": (1, "number or null", lambda there: (None, there)),
    },
    "counter": {
        "add": (1, "null", lambda there, more: (there + more, None)),
        "get": (0, "number", lambda there: (there, there)),
        "fetch_add": (1, "number", lambda there, more: (there + more, there)),
    },
    "queue": {
        "enq": (1, "null", lambda there, item: ((*there, item), None)),
        "deq": (0, "number or null", lambda there: (there[1:], there[0]) if there else (there, None)),
    },
    "stack": {
        "push": (1, "null", lambda there, item: ((*there, item), None)),
        "pop": (0, "number or null", lambda there: (there[:-1], there[-1]) if there else (there, None)),
    },
    "prio": {
        "insert": (1, "null", lambda there, item: (tuple(sorted((*there, item))), None)),
        "take": (0, "number or null", lambda there: (there[1:], there[0]) if there else (there, None)),
        "least": (0, "number or null", lambda there: (there, there[0] if there else None)),
    },
}


class Operation(NamedTuple):
    """A call with its recorded result."""

    on: str
    kind: str
    call: str
    args: tuple
    result: object

    @property
    def place(self):
        return (self.on, self.args[0]) if self.kind in KEYED else (self.on,)

    @property
    def numbers(self):
        """The arguments other than a key."""
        return self.args[1:] if self.kind in KEYED else self.args

    @property
    def number(self):
        """The last argument: what is put, added or inserted."""
        return self.args[-1]

    def __str__(self):
        return f"{self.on}.{self.call}({','.join(map(str, self.args))})={result_text(self.result)}"


def result_text(result):
    """A result as reports print it."""
    return {None: "none", True: "true", False: "false"}[result] if result is None or type(result) is bool else str(result)


def perform(there, operation):
    """What is at the place after a call, and what the call returns."""
    return CALLS[operation.kind][operation.call][2](there, *operation.numbers)


def same(result, other):
    """Whether two results are equal: true and 1 are not."""
    return type(result) is type(other) and result == other


def swaps(a, b):
    """Whether the order a, b may be replaced by b, a in every context."""
    return a.place != b.place or MOVERS[a.kind](a, b)


# The tables of docs/RULES.md. The row is the first operation, and the column is the second.

def always(_a, _b):
    return True


def never(_a, _b):
    return False


MEMORY = {
    ("read", "read"): always,
    ("read", "write"): lambda a, b: a.result == b.number,
    ("read", "cas true"): lambda a, b: not (b.args[1] == a.result and b.number != a.result),
    ("read", "cas false"): always,
    ("write", "read"): lambda a, b: a.number != b.result,
    ("write", "write"): lambda a, b: a.number == b.number,
    ("write", "cas true"): lambda a, b: b.args[1] != a.number,
    ("write", "cas false"): lambda a, b: b.args[1] == a.number,
    ("cas true", "read"): lambda a, b: not (b.result == a.number and a.number != a.args[1]),
    ("cas true", "write"): lambda a, b: b.number == a.number and a.number == a.args[1],
    ("cas true", "cas true"): lambda a, b: not (b.args[1] == a.number and len({*a.numbers, *b.numbers}) > 1),
    ("cas true", "cas false"): lambda a, b: b.args[1] != a.args[1] or b.args[1] == a.number,
    ("cas false", "read"): always,
    ("cas false", "write"): lambda a, b: b.number != a.args[1],
    ("cas false", "cas true"): lambda a, b: b.number != a.args[1] or b.args[1] == a.args[1],
    ("cas false", "cas false"): always,
}


def memory_form(operation):
    return f"cas {result_text(operation.result)}" if operation.call == "cas" else operation.call


def memory_movers(a, b):
    return MEMORY[memory_form(a), memory_form(b)](a, b)


def was_there(operation):
    """Whether the key of a set was there before the call."""
    return operation.result != (operation.call == "add")


def is_there(operation):
    """Whether the key of a set is there after the call."""
    return perform(was_there(operation), operation)[0]


def set_movers(a, b):
    changes = any(was_there(one) != is_there(one) for one in (a, b))
    return not changes or is_there(a) != was_there(b)


def left_by(operation):
    """What a call of a map leaves at its key, or a `get` or `fetch_add` of a counter leaves there."""
    return perform(operation.result, operation)[0]


def chain(a, b):
    """Unless b finds the value that a leaves, and the values before and after the two calls are not all equal."""
    return not (b.result == left_by(a) and not a.result == left_by(a) == left_by(b))


def not_put(a, b):
    """Unless b finds what a put."""
    return b.result != a.number


def not_found(a, b):
    """Unless b finds what a found."""
    return b.result != a.result


MAP_COLUMNS = ("put 0", "put 1", "get 0", "get 1", "remove 0", "remove 1")
MAP = {
    "put 0": (always, not_put, always, not_put, always, not_put),
    "put 1": (always, chain, always, chain, always, not_put),
    "get 0": (never, always, always, always, always, always),
    "get 1": (always, chain, always, chain, always, not_found),
    "remove 0": (never, always, always, always, always, always),
    "remove 1": (never, always, never, always, never, always),
}


def map_movers(a, b):
    form = lambda one: f"{one.call} {int(one.result is not None)}"
    return MAP[form(a)][MAP_COLUMNS.index(form(b))](a, b)


def counter_movers(a, b):
    if a.call == "add":
        return b.call == "add" or a.number == 0
    return b.number == 0 if b.call == "add" else chain(a, b)


def equal_items(a, b):
    return item(a) == item(b)


def other_items(a, b):
    return item(a) != item(b)


def no_more(a, b):
    """The second has at most the value of the first."""
    return item(b) <= item(a)


def no_less(a, b):
    """The second has at least the value of the first."""
    return item(a) <= item(b)


def item(operation):
    """What a call of a queue, stack or priority queue puts or finds."""
    return operation.number if operation.args else operation.result


QUEUE = {
    ("enq", "enq"): equal_items, ("enq", "deq"): other_items, ("enq", "empty"): always,
    ("deq", "enq"): always, ("deq", "deq"): equal_items, ("deq", "empty"): never,
    ("empty", "enq"): never, ("empty", "deq"): always, ("empty", "empty"): always,
}
STACK = {
    ("push", "push"): equal_items, ("push", "pop"): other_items, ("push", "empty"): always,
    ("pop", "push"): equal_items, ("pop", "pop"): equal_items, ("pop", "empty"): never,
    ("empty", "push"): never, ("empty", "pop"): always, ("empty", "empty"): always,
}
PRIO = {
    ("insert", "insert"): always, ("insert", "take"): other_items, ("insert", "least"): other_items, ("insert", "empty"): always,
    ("take", "insert"): no_less, ("take", "take"): no_more, ("take", "least"): no_more, ("take", "empty"): never,
    ("least", "insert"): no_less, ("least", "take"): other_items, ("least", "least"): always, ("least", "empty"): always,
    ("empty", "insert"): never, ("empty", "take"): always, ("empty", "least"): always, ("empty", "empty"): always,
}


def movers_of(table):
    """The condition of a table for calls that find an item or none."""
    form = lambda one: one.call if one.args or one.result is not None else "empty"
    return lambda a, b: table[form(a), form(b)](a, b)


MOVERS = {"mem": memory_movers, "set": set_movers, "map": map_movers, "counter": counter_movers,
          "queue": movers_of(QUEUE), "stack": movers_of(STACK), "prio": movers_of(PRIO)}


# The last table of docs/RULES.md: the operations around a pair that does not swap.

def context(a, b):
    """Operations before and after the pair: they are allowed with a, b and not with b, a."""
    before, after = CONTEXTS[a.kind](a, b)
    return [at(a, *call) for call in before], [at(a, *call) for call in after]


def at(a, call, numbers, result=None):
    """An operation at the place of a."""
    return Operation(a.on, a.kind, call, (*a.args[:a.kind in KEYED], *numbers), result)


def memory_context(a, b):
    write, read = (lambda number: [("write", (number,))]), [("read", (), b.number)] if b.call == "write" else []
    if a.call == "read":
        return write(a.result), []
    if memory_form(a) == "cas true":
        return write(a.args[1]), read
    if a.call == b.call == "write":
        return [], read
    if memory_form(b) == "cas false" or a.call == b.call == "cas":
        return write(b.args[1]), []
    return write(int(a.args[1] == 0)), []


def set_context(a, _b):
    return [("add", (), True)] if was_there(a) else [], []


def map_context(a, _b):
    return [] if a.result is None else [("put", (a.result,))], []


def counter_context(a, b):
    """Additions to the number at which the pair is right: by two of them if it is out of range."""
    if a.call == "add":
        number = 0 if b.call == "add" else b.result - a.number
    else:
        number = a.result
    far = MOST if number > 0 else LEAST
    parts = [] if number == 0 else [number] if LEAST <= number <= MOST else [far, number - far]
    return [("add", (part,)) for part in parts], []


def queue_context(a, b):
    if a.call == "enq":
        return [], [("deq", (), a.number)] if b.call == "enq" else []
    items = [] if a.result is None else [one.result for one in (a, b) if one.call == "deq" and one.result is not None]
    return [("enq", (one,)) for one in items], []


def stack_context(a, b):
    if a.call == "push":
        return [], [("pop", (), b.number)] if b.call == "push" else []
    items = [] if a.result is None else [one.result for one in (b, a) if one.call == "pop" and one.result is not None]
    return [("push", (one,)) for one in items], []


def prio_context(a, b):
    if a.call == "insert" or a.result is None:
        return [], []
    items = [a.result] + [b.result] * (a.call == "take" and b.call != "insert" and b.result is not None)
    return [("insert", (one,)) for one in items], []


CONTEXTS = {"mem": memory_context, "set": set_context, "map": map_context, "counter": counter_context,
            "queue": queue_context, "stack": stack_context, "prio": prio_context}
