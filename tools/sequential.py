"""The sequential objects: what each call does and returns, and which call left what the next one finds.

An object is cut into places: each key of a mem, set or map is one, and every other object is one as a whole.

    place = new_place("map")
    place.perform(call)          # the result that the map returns to a call on this key
    place.value, place.left_by   # what is there now, and the call that left it

docs/FORMAT.md has the table of the kinds.
"""
import collections
import heapq

# What a key holds before any call, and what each call makes of it: the next value, the result, and whether it writes.
# The arguments are those after the key.
EMPTY_VALUES = {"mem": 0, "set": False, "map": None}
REGISTER_CALLS = {
    "mem": {
        "read": lambda found: (found, found, False),
        "write": lambda found, new: (new, None, True),
        "cas": lambda found, expected, new: (new, True, True) if found == expected else (found, False, False),
    },
    "set": {
        "add": lambda found: (True, not found, not found),
        "remove": lambda found: (False, found, found),
        "contains": lambda found: (found, found, False),
    },
    "map": {
        "put": lambda found, new: (new, found, True),
        "get": lambda found: (found, found, False),
        "remove": lambda found: (None, found, found is not None),
    },
}
# The call of each kind that puts an item in, those that take one out, and those that only look.
PUTS = {"queue": "enq", "stack": "push", "prio": "insert"}
TAKES = {"queue": "deq", "stack": "pop", "prio": "take"}


class Register:
    """One key of a mem, set or map."""

    def __init__(self, kind):
        self.calls = REGISTER_CALLS[kind]
        self.value = EMPTY_VALUES[kind]
        self.left_by = None

    def perform(self, call):
        self.value, result, writes = self.calls[call.name](self.value, *call.arguments[1:])
        if writes:
            self.left_by = call
        return result


class Counter:
    """A counter. `changes` has each call that changed it, with the number before it."""

    def __init__(self):
        self.value = 0
        self.changes = []

    @property
    def left_by(self):
        return self.changes[-1][1] if self.changes else None

    def perform(self, call):
        before, added = self.value, addition(call)
        if added:
            self.changes.append((before, call))
            self.value += added
        return None if call.name == "add" else before


class Items:
    """A queue, a stack or a priority queue. `left_by` is the last call that changed it, `last_take` that took an item.

    An item is kept with the call that put it in, in a list whose order is that of the kind.
    """

    def __init__(self, kind):
        self.kind = kind
        self.items = collections.deque() if kind == "queue" else []
        self.count = 0
        self.left_by = None
        self.last_take = None

    @property
    def next_item(self):
        """The item that a take would return, with the call that put it in, or None."""
        if not self.items:
            return None
        value, _, put = self.items[-1 if self.kind == "stack" else 0]
        return value, put

    def perform(self, call):
        if call.name == PUTS[self.kind]:
            self.put(call)
            return None
        item = self.next_item
        if call.name == TAKES[self.kind] and item is not None:
            self.take()
            self.left_by = self.last_take = call
        return None if item is None else item[0]

    def put(self, call):
        self.count += 1
        item = (call.arguments[0], self.count, call)
        if self.kind == "prio":
            heapq.heappush(self.items, item)
        else:
            self.items.append(item)
        self.left_by = call

    def take(self):
        if self.kind == "queue":
            self.items.popleft()
        elif self.kind == "stack":
            self.items.pop()
        else:
            heapq.heappop(self.items)


def new_place(kind):
    """A place of an object of this kind, before any call."""
    if kind in REGISTER_CALLS:
        return Register(kind)
    return Counter() if kind == "counter" else Items(kind)


class Objects:
    """Places by object and key, each made when a call first comes to it."""

    def __init__(self):
        self.places = {}

    def perform(self, call):
        if call.place not in self.places:
            self.places[call.place] = new_place(call.kind)
        return self.places[call.place].perform(call)


def addition(call):
    """What a call adds to a counter."""
    return call.arguments[0] if call.name in ("add", "fetch_add") else 0


class Found:
    """What a call on a register found, as far as its recorded result says: one value, or any other than one."""

    def __init__(self, value, is_other=False):
        self.value = value
        self.is_other = is_other

    def matches(self, value):
        return (value == self.value) != self.is_other


def found_by(call):
    """What the recorded result of a call on a register says that it found, or None if it says nothing."""
    if call.name == "write":
        return None
    if call.name == "cas":
        return Found(call.arguments[1], is_other=not call.result)
    return Found(not call.result if call.kind == "set" and call.name == "add" else call.result)


def writes(call):
    """Whether a call on a register left a value there, by its recorded result."""
    if call.name in ("write", "put"):
        return True
    if call.name == "remove":
        return call.result is not None and call.result is not False
    return call.name in ("cas", "add") and call.result is True


def changes(call):
    """Whether a call on any kind changed its place, by its recorded result."""
    if call.kind in REGISTER_CALLS:
        return writes(call)
    if call.kind == "counter":
        return addition(call) != 0
    return call.name == PUTS[call.kind] or (call.name == TAKES[call.kind] and call.result is not None)


def written_value(call):
    """The value that a call left which writes."""
    return {"mem": lambda: call.arguments[-1], "set": lambda: call.name == "add",
            "map": lambda: call.arguments[1] if call.name == "put" else None}[call.kind]()
