"""Random runs of all styles and kinds, for the tests.

    run = random_run(random.Random(7), "boosted")      # a list of JSON objects, the header first
    run = snapshot_run(random.Random(7))               # the same, of a memory with snapshots

Few keys, values and threads, so that calls meet. Most results are those of some memory with mistakes: it may look at what
is committed, at what is published, or at anything. A few results, names, ids and ends are wrong altogether. So most runs
are rejected, each style by many criteria.
"""
from recorded_run import CALLS, KEYED_KINDS, Call
from sequential import Objects, writes

KINDS = list(CALLS)
MOST_RECORDS = 40


class OpenTransaction:
    """A transaction that is open: its name, its calls, and in style rules the marks of its local log."""

    def __init__(self, name):
        self.name = name
        self.calls = []
        self.marks = {}


class Maker:
    """Makes one run, record by record. Without `mistakes` each result fits what its call sees, and no id comes twice."""

    def __init__(self, random, style, mistakes=True):
        self.random = random
        self.mistakes = mistakes
        self.style = style
        self.kinds = random.sample(KINDS, random.choice((1, 1, 2)))
        self.records = []
        self.open = []
        self.count = 0
        self.next_id = 0
        self.committed = []         # the calls that are committed
        self.calls = {}             # each call by its id
        self.published = {}         # in style rules: who published an entry, by its id

    def run(self):
        objects = [{"name": f"o{place}", "kind": kind} for place, kind in enumerate(self.kinds)]
        header = {"run": self.random.choice((1, 2)), "style": self.style, "objects": objects}
        if header["run"] == 2 and self.random.random() < 0.5:
            operations = [self.call_record(self.result_of(self.new_call(), self.committed)) for _ in range(3)]
            header["start"] = {"tx": "start", "ops": operations}
        for _ in range(self.random.randrange(4, MOST_RECORDS)):
            self.add_record()
        return [header, *self.records]

    def add_record(self):
        if not self.open or (len(self.open) < 3 and self.random.random() < 0.25):
            self.begin()
        else:
            transaction = self.random.choice(self.open)
            chosen = self.random.choice(RECORDS[self.style])
            chosen(self, transaction)

    def add(self, step, transaction, **members):
        if self.random.random() < 0.005:
            transaction = OpenTransaction("nobody")
        self.records.append({"step": step, "tx": transaction.name, **members})

    def begin(self):
        self.count += self.random.random() > 0.01
        transaction = OpenTransaction(f"t{self.count}")
        thread = f"p{self.count if self.random.random() > 0.01 else 1}"
        self.open.append(transaction)
        members = {"body": self.random_body()} if self.random.random() < 0.05 else {}
        self.add("begin", transaction, thread=thread, **members)

    def random_body(self):
        """Any calls of the first object, and then perhaps one of its last kind of call."""
        calls = [{"on": "o0", "call": call, "args": [None] * count} for call, count in CALLS[self.kinds[0]].items()]
        any_calls = {"star": {"alt": calls}}
        return any_calls if self.random.random() < 0.3 else {"seq": [any_calls, calls[-1]]}

    def new_call(self):
        place = self.random.randrange(len(self.kinds))
        kind = self.kinds[place]
        name = self.random.choice(list(CALLS[kind]))
        arguments = [self.random.randrange(3) for _ in range(CALLS[kind][name])]
        if kind in KEYED_KINDS:
            arguments[0] = self.random.randrange(2)
        number, self.next_id = self.next_id, self.next_id + (self.random.random() > 0.005 * self.mistakes)
        members = {"id": number, "on": f"o{place}", "call": name, "args": arguments, "result": None}
        return Call(members, kind, None, None)

    def result_of(self, call, calls):
        """The call with the result that the objects return after these calls, or rarely, as a mistake, with another one."""
        objects = Objects()
        for before in calls:
            objects.perform(before)
        call.result = objects.perform(call)
        if self.random.random() < 0.03 * self.mistakes and call.result is not None:
            call.result = not call.result if isinstance(call.result, bool) else call.result + 1
        self.calls.setdefault(call.id, call)
        if calls is self.committed:
            self.committed.append(call)
        return call

    def call_record(self, call):
        return {"id": call.id, "on": call.object_name, "call": call.name, "args": call.arguments, "result": call.result}

    def do_call(self, transaction):
        """A call, which sees what is committed and its own calls, or also what others did."""
        seen = [*self.committed]
        if self.random.random() < 0.2:
            seen += [call for other in self.open if other is not transaction for call in other.calls]
        if self.style == "rules":
            seen = [self.calls[number] for number in transaction.marks if number in self.calls]
        else:
            seen += transaction.calls
        call = self.result_of(self.new_call(), seen)
        transaction.calls.append(call)
        transaction.marks[call.id] = "own"
        self.add("app" if self.style == "rules" else "op", transaction, **self.call_record(call))

    def do_commit(self, transaction):
        if self.style == "rules" and self.random.random() < 0.9:
            for call in transaction.calls:
                if transaction.marks.get(call.id) == "own":
                    self.add("push", transaction, id=call.id)
                    self.published[call.id] = transaction
        self.add("cmt" if self.style == "rules" else "commit", transaction)
        self.committed += transaction.calls
        self.open.remove(transaction)

    def do_abort(self, transaction):
        self.add("abort", transaction)
        self.open.remove(transaction)

    def do_retry(self, transaction):
        self.add("retry", transaction)
        transaction.calls = []

    def do_refresh(self, transaction):
        self.add("refresh", transaction, on=f"o{self.random.randrange(len(self.kinds))}")

    def do_source(self, transaction):
        step = self.random.choice(("depend", "depend", "drop"))
        self.add(step, transaction, source=self.random.choice(self.open).name)

    def do_publish(self, transaction):
        self.add("publish", transaction)

    def do_section(self, transaction):
        self.add(self.random.choice(("xbegin", "xbegin", "xend", "xabort")), transaction)

    def do_mark(self, transaction):
        """In style rules: something with an entry, mostly one of the right kind."""
        step = self.random.choice(("push", "push", "pull", "pull", "unpush", "unpull", "unapp"))
        marks = {"push": ("own",), "unpush": ("pushed",), "unpull": ("pulled",), "unapp": ("own",), "pull": ()}[step]
        numbers = [number for number, mark in transaction.marks.items() if mark in marks]
        if step == "pull":
            numbers = [number for number, owner in self.published.items()
                       if owner is not transaction and number not in transaction.marks]
        if not numbers and self.random.random() < 0.98:
            return
        number = self.random.choice(numbers) if numbers else self.random.randrange(self.next_id + 1)
        if step == "unapp" and numbers:
            number = numbers[-1]
        self.add(step, transaction, id=number)
        if step == "push":
            self.published[number] = transaction
        elif step == "unpush":
            self.published.pop(number, None)
        if step in ("unpull", "unapp"):
            transaction.marks.pop(number, None)
            transaction.calls = [call for call in transaction.calls if call.id != number]
        else:
            transaction.marks[number] = {"push": "pushed", "unpush": "own", "pull": "pulled"}[step]

    def do_quit(self, transaction):
        if self.random.random() < 0.9:
            for number, mark in reversed(list(transaction.marks.items())):
                if mark == "pushed":
                    self.add("unpush", transaction, id=number)
                    self.published.pop(number, None)
                self.add("unpull" if mark == "pulled" else "unapp", transaction, id=number)
        self.add("quit", transaction)
        self.open.remove(transaction)


CALL, COMMIT, ABORT, RETRY = Maker.do_call, Maker.do_commit, Maker.do_abort, Maker.do_retry
COMMON = [CALL] * 8 + [COMMIT] * 3 + [ABORT, RETRY]
RECORDS = {
    "rules": [CALL] * 5 + [COMMIT] * 2 + [Maker.do_quit] + [Maker.do_mark] * 7,
    "boosted": COMMON,
    "optimistic": COMMON + [Maker.do_refresh],
    "hardware": COMMON + [Maker.do_section] * 4,
    "dependent": COMMON + [Maker.do_source] * 4 + [Maker.do_publish] * 2,
}


def random_run(random, style):
    return Maker(random, style).run()


def snapshot_run(random):
    """A run of style optimistic of a memory in which each transaction sees a snapshot, and may not write where another
    one wrote since. It makes no other check, so its runs are often serial in another order than that of the commits."""
    maker = Maker(random, "optimistic", mistakes=False)
    maker.kinds = [random.choice(KEYED_KINDS)]
    waiting, opened = list(range(random.randrange(3, 9))), {}
    while waiting or opened:
        if waiting and (not opened or (len(opened) < 4 and random.random() < 0.6)):
            transaction = OpenTransaction(f"t{waiting.pop(0)}")
            opened[transaction] = list(maker.committed)
            maker.records.append({"step": "begin", "tx": transaction.name, "thread": transaction.name})
            continue
        transaction = random.choice(list(opened))
        if random.random() < 0.25:
            end_in_snapshot(maker, transaction, opened.pop(transaction))
            continue
        call = maker.result_of(maker.new_call(), opened[transaction] + transaction.calls)
        transaction.calls.append(call)
        maker.records.append({"step": "op", "tx": transaction.name, **maker.call_record(call)})
    objects = [{"name": "o0", "kind": maker.kinds[0]}]
    return [{"run": 1, "style": "optimistic", "objects": objects}, *maker.records]


def end_in_snapshot(maker, transaction, snapshot):
    """A commit if no other transaction wrote since the snapshot where this one writes, and else an abort."""
    own = {call.place for call in transaction.calls if writes(call)}
    since = {call.place for call in maker.committed[len(snapshot):] if writes(call)}
    step = "abort" if own & since else "commit"
    maker.records.append({"step": step, "tx": transaction.name})
    if step == "commit":
        maker.committed += transaction.calls
