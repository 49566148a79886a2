"""The steps of each record, in each style (docs/FORMAT.md).

The steps of a record depend on the local log of its transaction and the shared log before the record.
"""
from itertools import islice

from definition_machine import COMMITTED, PULLED, PUSHED, UNPUSHED, Step

# The step of a record whose transaction is not open. Every other record but a begin is a NOTE.
CLOSED = {"op": "APP", "commit": "CMT", "abort": "QUIT"}


class Front:
    """What a style keeps of each open transaction: where its section of hardware began, and its sources."""

    def __init__(self, style):
        self.style, self.sections, self.sources = style, {}, {}

    def steps(self, now, record):
        """The steps of a record."""
        if self.style == "rules":
            return [step_of(record["step"].upper(), record)]
        if record["step"] == "begin":
            return [step_of("BEGIN", record)]
        if record["tx"] not in now.open:
            return [step_of(CLOSED.get(record["step"], "NOTE"), record)]
        return STEPS[record["step"]](self, now, record)

    def op(self, now, record):
        log, shared = now.open[record["tx"]].log, now.shared
        is_buffered = self.style in ("optimistic", "dependent") or self.is_in_section(record)
        if self.style == "dependent":
            taken = take_over(log, shared, record, self.sources.get(record["tx"], ()))
        elif is_buffered and self.has_snapshot(log, record):
            taken = []
        else:
            taken = refresh(log, shared, record)
        return [*taken, step_of("APP", record), *([] if is_buffered else [step_of("PUSH", record)])]

    def is_in_section(self, record):
        """Whether the call is on a memory in an open section."""
        return record["operation"].kind == "mem" and record["tx"] in self.sections

    def has_snapshot(self, log, record):
        """Whether an entry of the local log, in a section one that it got there, is on the object."""
        entries = islice(log.entries.values(), self.sections.get(record["tx"], 0), None)
        on = record["operation"].on
        return bool(log.on(on)) and any(entry.operation.on == on for entry in entries)

    def commit(self, now, record):
        return [*([] if self.style == "boosted" else push_all(now, record)), step_of("CMT", record)]

    def abort(self, now, record):
        return [*back(now, record, 0), step_of("QUIT", record)]

    def retry(self, now, record):
        self.sections.pop(record["tx"], None)
        self.sources.pop(record["tx"], None)
        return [step_of("NOTE", record), *back(now, record, 0)]

    def refresh(self, now, record):
        return [step_of("NOTE", record), *refresh(now.open[record["tx"]].log, now.shared, record)]

    def xbegin(self, now, record):
        self.sections.setdefault(record["tx"], len(now.open[record["tx"]].log.entries))
        return [step_of("NOTE", record)]

    def xend(self, now, record):
        self.sections.pop(record["tx"], None)
        return self.publish(now, record)

    def xabort(self, now, record):
        return [step_of("NOTE", record), *back(now, record, self.sections.pop(record["tx"], 0))]

    def publish(self, now, record):
        return [step_of("NOTE", record), *push_all(now, record)]

    def depend(self, now, record):
        self.sources.setdefault(record["tx"], {})[record["source"]] = True
        return [step_of("NOTE", record)]

    def drop(self, now, record):
        self.sources.get(record["tx"], {}).pop(record["source"], None)
        entries = reversed(now.open[record["tx"]].log.entries.values())
        dropped = [entry for entry in entries if entry.mark == PULLED and entry.owner == record["source"]]
        return [step_of("NOTE", record), *(Step("UNPULL", record["tx"], entry.id) for entry in dropped)]


STEPS = {name: getattr(Front, name) for name in (
    "op", "commit", "abort", "retry", "refresh", "xbegin", "xend", "xabort", "publish", "depend", "drop")}


def step_of(rule, record):
    """A step with the members of its record."""
    return Step(rule, *(record.get(member) for member in ("tx", "id", "operation", "thread", "body")))


def refresh(log, shared, record):
    """A PULL of each committed entry of the shared log on an object that is not in the local log."""
    return take_over(log, shared, record, ())


def take_over(log, shared, record, sources):
    """The same, also of the entries that one of the sources owns."""
    on = record["on"]
    return [Step("PULL", record["tx"], entry.id) for entry in shared.on(on).values()
            if entry.id not in log.entries and (entry.mark == COMMITTED or entry.owner in sources)]


def push_all(now, record):
    """A PUSH of each own unpushed entry of the local log, in its order."""
    entries = now.open[record["tx"]].log.entries.values()
    return [Step("PUSH", record["tx"], entry.id) for entry in entries if entry.mark == UNPUSHED]


def back(now, record, length):
    """The entries of the local log after this length are removed, from the end."""
    rules = {PULLED: ("UNPULL",), PUSHED: ("UNPUSH", "UNAPP"), UNPUSHED: ("UNAPP",)}
    removed = list(now.open[record["tx"]].log.entries.values())[length:]
    return [Step(rule, record["tx"], entry.id) for entry in reversed(removed) for rule in rules[entry.mark]]
