"""Works out who wrote what each call of a run found, where that is clear.

    sources = sources_of(run)           # {call: the call that wrote what it found}

This follows the order in which calls were published, as far as the transaction could see it. It is a guide for the
eye, and no verdict: a call of which it is not clear whose value it found has no source. In a memory, a set or a map it
is clear if the last change that the transaction could see left what the call found. In a queue, a stack or a priority
queue it is clear if only one call can have put the value there. In a counter it is the last change that the
transaction could see, since the number depends on all of them.
"""
from recorded_run import COMMITTED
from sequential import EMPTY_VALUES, PUTS, TAKES, addition, found_by, writes, written_value

# So many changes of a place are looked at for the last one that a transaction could see, so that the work stays small.
LOOKED_AT = 256
# A value that is in a queue, a stack or a priority queue more often than this at once gets no source.
ITEMS_KEPT = 64


def changes(call):
    """Whether the call changed its object, by its recorded result."""
    if call.kind in EMPTY_VALUES:
        return writes(call)
    if call.kind == "counter":
        return addition(call) != 0
    return call.name == PUTS[call.kind] or (call.name == TAKES[call.kind] and call.result is not None)


def standing(call, line):
    """Whether the call was not yet taken back."""
    return call.taken_back_line is None or call.taken_back_line > line


def has_committed(attempt, line):
    """Whether the attempt committed on the line or before it."""
    return attempt.end == COMMITTED and attempt.end_line <= line


class Item:
    """A value in a queue, a stack or a priority queue: the call that put it there, and those that took it."""

    __slots__ = ("call", "takers")

    def __init__(self, call):
        self.call = call
        self.takers = []

    def is_there(self, view, look, line):
        """Whether the item is there for one who has this view."""
        return view.sees(self.call, look, line) and not any(view.sees(taker, look, line) for taker in self.takers)

    def order(self, call):
        """Where the item is in the order of the object, as far as items of one value need it: own ones are last."""
        is_own = self.call.transaction == call.transaction
        return is_own, self.call.line if is_own else self.call.published_line or 0, self.call.line

    def is_gone(self, line):
        """Whether the item is gone for good: who put it there gave up, or one who took it put it there or has committed."""
        return not standing(self.call, line) or any(
            taker.taken_back_line is None and (taker.attempt is self.call.attempt or has_committed(taker.attempt, line))
            for taker in self.takers)


class View:
    """What an attempt can see in the styles other than `rules`: its own calls, and what others published."""

    def __init__(self, attempt):
        self.attempt = attempt
        self.own = {}               # the changes at each place
        self.called = set()         # the objects that it called
        self.looked = {}            # the line at which it first looked at each object, if it does not look again
        self.granted = set()        # style dependent: the transactions whose uncommitted calls it sees
        self.section = None         # style hardware: the line on which the open section began

    def last_look(self, style, call):
        """The line up to which the commits of others show in the call."""
        looks_once = style == "optimistic" or (self.section is not None and call.kind == "mem")
        return self.looked.setdefault(call.object_name, call.line) if looks_once else call.line

    def sees(self, call, look, line):
        owner = call.attempt
        if owner is self.attempt or owner.transaction in self.granted:
            return standing(call, line)
        return has_committed(owner, look) and call.taken_back_line is None


class PulledView:
    """What a transaction can see in style `rules`: its own calls, and what it pulled."""

    def __init__(self):
        self.own = {}               # the changes at each place, own and pulled, in the order of the local log
        self.calls = set()          # all that is in the local log

    def sees(self, call, _look, _line):
        return call in self.calls


class Walk:
    """Goes through the records in order and keeps what is published and what each transaction sees."""

    def __init__(self, run):
        self.run = run
        self.style = run.style
        self.sources = {}
        self.views = {}             # by transaction, while it is open
        self.shared = {}            # the published changes at each place, in order
        self.items = {}             # by object and value
        self.calls = {}             # by line
        self.by_id = {}             # style rules
        self.unpublished = {}       # by transaction
        self.committed_on = set()   # the objects that committed calls are on

    def follow(self):
        start = self.run.start.attempts[0].calls if self.run.start else []
        for call in start:
            self.add_item(call)
            self.by_id[call.id] = call
            self.committed_on.add(call.object_name)
        self.publish(start)
        self.calls = {call.line: call for call in self.run.calls[len(start):]}
        step = self.follow_rules if self.style == "rules" else self.follow_other
        for record in self.run.records:
            step(record)
        return self.sources

    def follow_rules(self, record):
        view = self.views.setdefault(record.transaction, PulledView())
        if record.step == "app":
            call = self.by_id[record.members["id"]] = self.calls[record.line]
            self.find(call, view, record.line)
            self.enter(call, view)
        elif record.step == "pull" and record.members["id"] in self.by_id:
            self.enter(self.by_id[record.members["id"]], view)
        elif record.step in ("unapp", "unpull"):
            self.leave(self.by_id.get(record.members["id"]), view)
        elif record.step in ("cmt", "quit"):
            self.views.pop(record.transaction)

    @staticmethod
    def enter(call, view):
        view.calls.add(call)
        if changes(call):
            view.own.setdefault(call.place, []).append(call)

    @staticmethod
    def leave(call, view):
        if call in view.calls:
            view.calls.remove(call)
            if changes(call):
                view.own[call.place].remove(call)

    def follow_other(self, record):
        view = self.views.get(record.transaction)
        if view is None or record.step == "begin":
            view = self.views[record.transaction] = View(None)
        if record.step == "op":
            self.follow_call(self.calls[record.line], view)
        elif record.step in ("commit", "publish", "xend"):
            self.publish(self.unpublished.pop(record.transaction, ()))
        elif record.step == "refresh" and record.members["on"] in self.committed_on | view.called:
            view.looked[record.members["on"]] = record.line     # what finds nothing to take over is no look
        elif record.step == "depend":
            view.granted.add(record.members["source"])
        elif record.step == "drop":
            view.granted.discard(record.members["source"])
        self.follow_section(record, view)
        if record.step == "commit":
            self.committed_on |= view.called
        if record.step in ("commit", "abort", "retry"):
            self.unpublished.pop(record.transaction, None)
            del self.views[record.transaction]

    def follow_section(self, record, view):
        if record.step == "xbegin" and view.section is None:
            view.section, view.looked = record.line, {}
        elif record.step in ("xend", "xabort"):
            view.section = None
            self.unpublished.pop(record.transaction, None)

    def follow_call(self, call, view):
        view.attempt = call.attempt
        view.called.add(call.object_name)
        look = view.last_look(self.style, call)
        self.find(call, view, look)
        if changes(call):
            view.own.setdefault(call.place, []).append(call)
        if call.published_line == call.line or self.style == "boosted":
            self.publish([call])
        else:
            self.unpublished.setdefault(call.transaction, []).append(call)

    def publish(self, calls):
        for call in calls:
            if changes(call):
                self.shared.setdefault(call.place, []).append(call)

    def find(self, call, view, look):
        """Notes the source of a call, and which item it takes or adds."""
        if call.kind in PUTS:
            self.find_item(call, view, look)
            return
        is_counter = call.kind == "counter"
        value = None if is_counter else found_by(call)
        if call.name == "add" if is_counter else value is None:
            return
        for source in self.last_changes(call, view, look):
            if is_counter or value.matches(written_value(source)):
                self.sources[call] = source
                return

    def last_changes(self, call, view, look):
        """The last own change at the place of a call that stands, and the last one of others that it sees."""
        own = view.own.get(call.place, [])
        if self.style == "rules":
            yield from own[-1:]
            return
        while own and not standing(own[-1], call.line):
            own.pop()
        yield from own[-1:]
        shared = self.shared.get(call.place, [])
        while shared and not standing(shared[-1], call.line):
            shared.pop()
        for other in reversed(shared[-LOOKED_AT:]):
            if other.attempt is not view.attempt and view.sees(other, look, call.line):
                yield other
                return

    def add_item(self, call):
        if call.name != PUTS.get(call.kind):
            return
        items = self.items.setdefault((call.object_name, call.arguments[0]), [])
        if items is not None and len(items) == ITEMS_KEPT:
            items = [item for item in items if not item.is_gone(call.line)]
            self.items[call.object_name, call.arguments[0]] = items if len(items) < ITEMS_KEPT else None
        if self.items[call.object_name, call.arguments[0]] is not None:
            items.append(Item(call))

    def find_item(self, call, view, look):
        """The source of a call that takes or shows a value, if only one item of that value is there."""
        self.add_item(call)
        items = self.items.get((call.object_name, call.result)) or []
        there = [item for item in items if item.is_there(view, look, call.line)]
        if len(there) == 1:
            self.sources[call] = there[0].call
        if there and call.name == TAKES[call.kind]:
            there.sort(key=lambda item: item.order(call))
            there[-1 if call.kind == "stack" else 0].takers.append(call)


def sources_of(run):
    """The call that wrote what each call found, for those calls of which that is clear."""
    return Walk(run).follow()
