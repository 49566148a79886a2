"""The criteria and the faults in words, in two tables. docs/RULES.md and docs/FORMAT.md define them."""
import re

# "May move past": a call may move past the call right before it if the two can change places in any list of calls, as in
# docs/RECORDING.md: if all results of the list are right, they stay right.
CRITERIA = {
    ("START", 1): "each call of the start needs an id of its own",
    ("START", 2): "each call of the start must return its recorded result after those before it",
    ("BEGIN", 1): "a transaction needs a name that was not used before",
    ("BEGIN", 2): "a thread runs one transaction at a time",
    ("APP", 1): "only an open transaction can make a call",
    ("APP", 2): "a call needs an id that was not used before",
    ("APP", 3): "the calls of a transaction must begin a word of its body",
    ("APP", 4): "a call must return its recorded result in its transaction's local log",
    ("UNAPP", 1): "only an open transaction can take back a call",
    ("UNAPP", 2): "a call can be taken back only if it is the transaction's own, not published, and last in its local log",
    ("PUSH", 1): "only an open transaction can publish a call",
    ("PUSH", 2): "only an own call of the local log that is not published can be published",
    ("PUSH", 3): "a call can be published before an earlier own call only if the earlier one may move past it",
    ("PUSH", 4): "a call can be published only if it may move past each uncommitted call of another transaction",
    ("PUSH", 5): "a call must return its recorded result at the end of the shared log, where it is published",
    ("UNPUSH", 1): "only an open transaction can withdraw a call",
    ("UNPUSH", 2): "only an own published call of the local log can be withdrawn",
    ("UNPUSH", 3): "a call can be withdrawn only if it may move past each own published call that comes after it locally",
    ("UNPUSH", 4): "without a call that is withdrawn, the shared log must still return each recorded result",
    ("PULL", 1): "only an open transaction can take over a call",
    ("PULL", 2): "only a published call of another transaction can be taken over",
    ("PULL", 3): "a call can be taken over only once",
    ("PULL", 4): "a call that is taken over must return its recorded result in the local log",
    ("PULL", 5): "a call can be taken over only if it may move past each own call of the local log",
    ("UNPULL", 1): "only an open transaction can give up a call that it took over",
    ("UNPULL", 2): "only a call that was taken over can be given up",
    ("UNPULL", 3): "without a call that is given up, the local log must still return each recorded result",
    ("CMT", 1): "only an open transaction can commit",
    ("CMT", 2): "the calls of a transaction that commits must be a word of its body",
    ("CMT", 3): "a transaction can commit only if all its calls are published",
    ("CMT", 4): "a transaction can commit only if every call that it took over is committed",
    ("QUIT", 1): "only an open transaction can end",
    ("QUIT", 2): "a transaction can end without a commit only if its local log is empty",
    ("NOTE", 1): "only an open transaction can do this",
}

# Each cause of a fault. {} stands for the member that the cause names.
FAULTS = {
    "NoHeader": "the input has no line that is not blank",
    "NotJson": "the line is not one JSON value, is not UTF-8, or is nested deeper than 127",
    "NotObject": "the line is no JSON object",
    "Missing": "the member \"{}\" is missing",
    "WrongType": "the member \"{}\" is not of its form (for a number: whole, without fraction and exponent)",
    "OutOfRange": "a number of the member \"{}\" is out of its range",
    "BadName": "the member \"{}\" is no name: 1 to 24 characters out of A-Z a-z 0-9 _ . -",
    "UnknownStyle": "the style is none of rules, boosted, optimistic, hardware and dependent",
    "RepeatedObject": "two objects of the header have one name",
    "UnknownKind": "the kind is none of mem, set, map, counter, queue, stack and prio",
    "UnknownStep": "the style of this run has no such step",
    "UnknownObject": "the header has no object of this name",
    "UnknownCall": "the object's kind has no such call",
    "BodyBad": "the body, or a part of it, is of none of the five forms",
    "BodyTooLarge": "the body has more than 64 nodes, or is deeper than 16",
    "TooLong": "the input has more than 268,435,456 bytes",
    "TooManyLines": "the input has more than 200,001 lines",
    "LineTooLong": "the line has more than 65,536 bytes",
    "TooManyObjects": "the header has more than 256 objects",
    "TooManyStart": "the start has more than 256 operations",
    "TooManyTransactions": "the run has more than 20,000 begin records",
    "TooManySteps": "the records stand for more than 200,000 steps",
    "NotBoosted": "`quick` decides runs of style boosted only",
    "NotCertificate": "the line is not of the form that a certificate has here",
}
CAUSE = re.compile(r"([A-Za-z]+)(?:\(([a-z]+)\))?")


def criterion_words(rule, criterion):
    """A criterion in words."""
    return CRITERIA.get((rule, criterion), "docs/RULES.md has this criterion")


def fault_words(cause):
    """A cause, such as WrongType(args), in words."""
    name, member = CAUSE.fullmatch(cause).groups()
    return FAULTS.get(name, "docs/FORMAT.md has this cause").format(member)
