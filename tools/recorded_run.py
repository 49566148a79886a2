"""Reads a recorded run into plain classes. `why`, `order` and `picture` all use it.

    run = read_run_file("examples/boosted.jsonl")      # or read_run(bytes)
    run.style                           # "boosted"
    run.objects                         # {"acct": "map"}
    for record in run.records:          # one for each line after the header
        record.line, record.step, record.transaction, record.members
    for transaction in run.transactions.values():
        for attempt in transaction.attempts:
            attempt.thread, attempt.begin_line, attempt.end, attempt.end_line
            for call in attempt.calls:
                call.text, call.line, call.published_line, call.taken_back_line

The reader checks what it needs to build these classes, and no more. It judges nothing: whether a run is well formed,
accepted or rejected is for the verified program to say. A run that the program accepts or rejects can always be read.
docs/FORMAT.md has the format.
"""
import json
import re

STYLES = ("rules", "boosted", "optimistic", "hardware", "dependent")

# The calls of each kind, with the number of their arguments.
CALLS = {
    "mem": {"read": 1, "write": 2, "cas": 3},
    "set": {"add": 1, "remove": 1, "contains": 1},
    "map": {"put": 2, "get": 1, "remove": 1},
    "counter": {"add": 1, "get": 0, "fetch_add": 1},
    "queue": {"enq": 1, "deq": 0},
    "stack": {"push": 1, "pop": 0},
    "prio": {"insert": 1, "take": 0, "least": 0},
}
# The kinds whose calls have a key or an address as their first argument.
KEYED_KINDS = ("mem", "set", "map")

COMMITTED, UNDONE, OPEN = "committed", "undone", "open"

# The steps of each style, with the members that they need beside `step` and `tx`.
COMMON_STEPS = {"begin": ("thread",), "op": (), "commit": (), "abort": (), "retry": ()}
STEPS = {
    "rules": {"begin": ("thread",), "app": (), "unapp": ("id",), "push": ("id",), "unpush": ("id",), "pull": ("id",),
              "unpull": ("id",), "cmt": (), "quit": (), "note": ()},
    "boosted": COMMON_STEPS,
    "optimistic": {**COMMON_STEPS, "refresh": ("on",)},
    "hardware": {**COMMON_STEPS, "xbegin": (), "xend": (), "xabort": ()},
    "dependent": {**COMMON_STEPS, "depend": ("source",), "publish": (), "drop": ("source",)},
}
# The steps of style rules that name an entry by its id.
ENTRY_STEPS = ("unapp", "push", "unpush", "pull", "unpull")
NAME = re.compile(r"[A-Za-z0-9_.-]{1,24}")


class UnreadableRun(Exception):
    """The text is not a run. The message is one line, and begins with the number of the line at fault."""

    def __init__(self, line, what):
        super().__init__(f"line {line}: {what}")
        self.line = line


class Record:
    """One line after the header. `members` has all its members, those of the table above and any others."""

    __slots__ = ("line", "step", "transaction", "members")

    def __init__(self, line, step, transaction, members):
        self.line = line
        self.step = step
        self.transaction = transaction
        self.members = members


class Call:
    """One call with its recorded result.

    `line` is the line of its record, and for a call of the start that of the header.
    `published_line` is the line by which others could see it, or None if it was never published, or withdrawn again. In
    style boosted this is the call's own line, in style optimistic that of the commit.
    `taken_back_line` is the line of the unapp, xabort, abort or retry that took it back, or None.
    """

    __slots__ = ("id", "object_name", "kind", "name", "arguments", "result", "attempt", "line", "published_line",
                 "taken_back_line")

    def __init__(self, members, kind, attempt, line):
        self.id = members["id"]
        self.object_name = members["on"]
        self.kind = kind
        self.name = members["call"]
        self.arguments = members["args"]
        self.result = members["result"]
        self.attempt = attempt
        self.line = line
        self.published_line = None
        self.taken_back_line = None

    @property
    def transaction(self):
        """The name of the transaction that made the call."""
        return self.attempt.transaction

    @property
    def key(self):
        """The key or address that the call is on, or None if its kind has none."""
        return self.arguments[0] if self.kind in KEYED_KINDS else None

    @property
    def place(self):
        """The name of the object, and the key."""
        return self.object_name, self.key

    @property
    def text(self):
        """The call as the program prints it, such as acct.put(1,70)=100."""
        arguments = ",".join(map(str, self.arguments))
        return f"{self.object_name}.{self.name}({arguments})={result_text(self.result)}"


class Attempt:
    """One attempt of a transaction: from its begin, or from a retry, to its commit, abort, quit or next retry.

    `transaction` is a name, and `number` counts the attempts of the transaction from 1.
    `begin_line` is the line of the begin, or of the retry that ended the attempt before. It is None if a record came
    while the transaction was not open; the program rejects a run at such a record.
    `calls` are in the order of their lines, those that were taken back too.
    `end` is COMMITTED, UNDONE or OPEN; `end_step` is the word of the record that ended it, and `end_line` its line. Both
    are None if the attempt is open at the end of the run.
    """

    __slots__ = ("transaction", "number", "thread", "begin_line", "calls", "end", "end_step", "end_line")

    def __init__(self, transaction, number, thread, begin_line):
        self.transaction = transaction
        self.number = number
        self.thread = thread
        self.begin_line = begin_line
        self.calls = []
        self.end = OPEN
        self.end_step = None
        self.end_line = None


class Transaction:
    """All attempts under one name. `body` is that of its begin, or None."""

    __slots__ = ("name", "thread", "body", "attempts")

    def __init__(self, name):
        self.name = name
        self.thread = None
        self.body = None
        self.attempts = []


class Run:
    """A recorded run.

    `header` is the header's JSON object and `header_line` its line, `style` one of STYLES, and `objects` has the kind of
    each object by name, in the order of the header.
    `start` is the transaction of the start, or None. It has one attempt, which is committed on the header's line and has
    no thread. It is among `transactions` too.
    `records` are in the order of their lines. `transactions` has each transaction by name, in the order of first records.
    `calls` are all calls, those of the start first, and then in the order of their lines.
    """

    def __init__(self, header, header_line, style, objects):
        self.header = header
        self.header_line = header_line
        self.style = style
        self.objects = objects
        self.start = None
        self.records = []
        self.transactions = {}
        self.calls = []

    def calls_with_id(self, number):
        """All calls with this id, in order. The program accepts no second one."""
        return [call for call in self.calls if call.id == number]


def result_text(result):
    """A result as the program prints it."""
    if result is None:
        return "none"
    if isinstance(result, bool):
        return "true" if result else "false"
    return str(result)


def read_run(text):
    """The run in a text, which is bytes or a str. Raises UnreadableRun."""
    lines = numbered_lines(text)
    number, line = next(lines, (1, None))
    if line is None:
        raise UnreadableRun(number, "the input has no header")
    header = json_object(number, line)
    run = Run(header, number, header_style(number, header), header_objects(number, header))
    reader = Reader(run)
    reader.read_start()
    for number, line in lines:
        reader.read_record(number, json_object(number, line))
    return run


def read_run_file(path):
    """The run in a file. Raises UnreadableRun, and OSError if the file cannot be read."""
    with open(path, "rb") as file:
        return read_run(file.read())


def numbered_lines(text):
    """The lines that are not blank, with their numbers from 1."""
    if isinstance(text, bytes):
        text = decoded(text)
    for number, line in enumerate(text.split("\n"), 1):
        if line.strip(" \t\r"):
            yield number, line


def decoded(text):
    try:
        return text.decode("utf-8")
    except UnicodeDecodeError as error:
        raise UnreadableRun(text.count(b"\n", 0, error.start) + 1, "not UTF-8") from None


def json_object(number, line):
    """The JSON object on a line."""
    try:
        value = json_value(line)
    except (ValueError, RecursionError):
        raise UnreadableRun(number, "not one JSON value") from None
    if not isinstance(value, dict):
        raise UnreadableRun(number, "not a JSON object")
    return value


def json_value(text):
    """The JSON value in a text, which may have integers of any length in members that nobody needs."""
    try:
        return json.loads(text)
    except json.JSONDecodeError:
        raise
    except ValueError:      # Python refuses to convert an integer of more than 4300 digits
        return json.loads(text, parse_int=lambda digits: int(digits) if len(digits) < 100 else float(digits))


def header_style(number, header):
    if type(header.get("run")) is not int or header["run"] not in (1, 2):
        raise UnreadableRun(number, "the header has no member \"run\" that is 1 or 2")
    style = header.get("style")
    if style not in STYLES:
        raise UnreadableRun(number, f"the header's style is none of {', '.join(STYLES)}")
    return style


def header_objects(number, header):
    """The kind of each object, by name."""
    given = header.get("objects")
    if not isinstance(given, list):
        raise UnreadableRun(number, "the header has no list \"objects\"")
    objects = {}
    for item in given:
        if not isinstance(item, dict):
            raise UnreadableRun(number, "an object of the header is no JSON object")
        name, kind = checked_name(number, item, "name"), item.get("kind")
        if not isinstance(kind, str) or kind not in CALLS:
            raise UnreadableRun(number, f"the object {name} is of no known kind")
        if name in objects:
            raise UnreadableRun(number, f"two objects have the name {name}")
        objects[name] = kind
    return objects


def checked_name(number, members, member):
    """A member that is a name."""
    name = members.get(member)
    if not isinstance(name, str) or not NAME.fullmatch(name):
        raise UnreadableRun(number, f"the member \"{member}\" is missing, or no name")
    return name


def checked_id(number, members):
    value = members.get("id")
    if type(value) is not int:
        raise UnreadableRun(number, "the member \"id\" is missing, or no whole number")
    return value


def check_call(number, members, objects):
    """Raises unless the members are those of a call of one of the objects."""
    checked_id(number, members)
    on = members.get("on")
    if not isinstance(on, str) or on not in objects:
        raise UnreadableRun(number, "the member \"on\" is missing, or no object of the header")
    calls, name = CALLS[objects[on]], members.get("call")
    if not isinstance(name, str) or name not in calls:
        raise UnreadableRun(number, f"the member \"call\" is missing, or no call of a {objects[on]}")
    arguments = members.get("args")
    if not isinstance(arguments, list) or len(arguments) != calls[name] or any(type(x) is not int for x in arguments):
        raise UnreadableRun(number, f"the member \"args\" is not a list of {calls[name]} whole numbers")
    if "result" not in members or not isinstance(members["result"], (bool, int, type(None))):
        raise UnreadableRun(number, "the member \"result\" is missing, or no result")


class Reader:
    """Fills a run record by record. It has a method for each step that changes more than the list of records."""

    def __init__(self, run):
        self.run = run
        self.open = {}          # the open attempt of each transaction that is open
        self.sections = {}      # style hardware: how many calls an open attempt had where its section began
        self.last_calls = {}    # style rules: the last call with each id
        self.known_names = set()
        self.steps = STEPS[run.style]
        self.methods = {
            "begin": self.begin, "app": self.call, "op": self.call, "unapp": self.take_back_one, "push": self.publish_one,
            "unpush": self.withdraw_one, "cmt": self.commit, "commit": self.commit, "quit": self.undo, "abort": self.undo,
            "retry": self.retry, "publish": self.publish_all, "xbegin": self.begin_section, "xend": self.end_section,
            "xabort": self.abort_section,
        }

    def read_start(self):
        """The start, which only a header of version 2 has."""
        given, number = self.run.header.get("start"), self.run.header_line
        if self.run.header["run"] != 2 or given is None:
            return
        if not isinstance(given, dict) or not isinstance(given.get("ops"), list):
            raise UnreadableRun(number, "the start is no JSON object with a list \"ops\"")
        transaction = self.transaction(checked_name(number, given, "tx"))
        attempt = self.add_attempt(transaction, number)
        for members in given["ops"]:
            if not isinstance(members, dict):
                raise UnreadableRun(number, "an operation of the start is no JSON object")
            check_call(number, members, self.run.objects)
            self.add_call(members, attempt, number).published_line = number
        self.end(attempt, COMMITTED, None, number)
        self.run.start = transaction

    def read_record(self, number, members):
        step = members.get("step")
        if not isinstance(step, str) or step not in self.steps:
            raise UnreadableRun(number, f"the member \"step\" is missing, or no step of style {self.run.style}")
        record = Record(number, step, self.checked_transaction(number, members), members)
        self.check_members(record)
        self.run.records.append(record)
        method = self.methods.get(step)
        if method is not None:
            method(record)

    def checked_transaction(self, number, members):
        name = members.get("tx")
        if not isinstance(name, str) or name not in self.known_names:
            self.known_names.add(checked_name(number, members, "tx"))
        return name

    def check_members(self, record):
        if record.step in ("app", "op"):
            check_call(record.line, record.members, self.run.objects)
        for member in self.steps[record.step]:
            if member == "id":
                checked_id(record.line, record.members)
            elif checked_name(record.line, record.members, member) not in self.run.objects and member == "on":
                raise UnreadableRun(record.line, "the member \"on\" is no object of the header")

    def transaction(self, name):
        if name not in self.run.transactions:
            self.run.transactions[name] = Transaction(name)
        return self.run.transactions[name]

    def add_attempt(self, transaction, begin_line):
        attempt = Attempt(transaction.name, len(transaction.attempts) + 1, transaction.thread, begin_line)
        transaction.attempts.append(attempt)
        self.open[transaction.name] = attempt
        return attempt

    def add_call(self, members, attempt, line):
        call = Call(members, self.run.objects[members["on"]], attempt, line)
        attempt.calls.append(call)
        self.run.calls.append(call)
        self.last_calls[call.id] = call
        return call

    def open_attempt(self, record):
        """The open attempt of the record's transaction, or a new one without a begin."""
        if record.transaction in self.open:
            return self.open[record.transaction]
        return self.add_attempt(self.transaction(record.transaction), None)

    def end(self, attempt, end, step, line):
        attempt.end, attempt.end_step, attempt.end_line = end, step, line
        self.open.pop(attempt.transaction, None)
        self.sections.pop(attempt.transaction, None)

    def begin(self, record):
        transaction = self.transaction(record.transaction)
        transaction.thread = record.members["thread"]
        transaction.body = record.members.get("body")
        self.sections.pop(transaction.name, None)
        self.add_attempt(transaction, record.line)

    def call(self, record):
        attempt = self.open_attempt(record)
        call = self.add_call(record.members, attempt, record.line)
        if self.run.style == "boosted":
            call.published_line = record.line
        elif self.run.style == "hardware" and (call.kind != "mem" or record.transaction not in self.sections):
            call.published_line = record.line

    def own_call(self, record):
        """The call that an unapp, push or unpush names, or None if it is no call of the transaction."""
        call = self.last_calls.get(record.members["id"])
        return call if call is not None and call.attempt is self.open.get(record.transaction) else None

    def take_back_one(self, record):
        call = self.own_call(record)
        if call is not None:
            call.taken_back_line = record.line

    def publish_one(self, record):
        call = self.own_call(record)
        if call is not None:
            call.published_line = record.line

    def withdraw_one(self, record):
        call = self.own_call(record)
        if call is not None:
            call.published_line = None

    def publish_all(self, record):
        for call in self.open_attempt(record).calls:
            if call.published_line is None and call.taken_back_line is None:
                call.published_line = record.line

    def commit(self, record):
        if self.run.style != "rules":
            self.publish_all(record)
        self.end(self.open_attempt(record), COMMITTED, record.step, record.line)

    def take_back(self, calls, line):
        for call in calls:
            if call.taken_back_line is None:
                call.taken_back_line, call.published_line = line, None

    def undo(self, record):
        attempt = self.open_attempt(record)
        if self.run.style != "rules":
            self.take_back(attempt.calls, record.line)
        self.end(attempt, UNDONE, record.step, record.line)

    def retry(self, record):
        self.undo(record)
        self.add_attempt(self.run.transactions[record.transaction], record.line)

    def begin_section(self, record):
        attempt = self.open_attempt(record)
        self.sections.setdefault(record.transaction, len(attempt.calls))

    def end_section(self, record):
        self.publish_all(record)
        self.sections.pop(record.transaction, None)

    def abort_section(self, record):
        calls = self.open_attempt(record).calls
        self.take_back(calls[self.sections.pop(record.transaction, 0):], record.line)
