"""The lines, the header and the records of a run, and their faults, in the order in which docs/FORMAT.md tests them."""
import json
import math
import re
from typing import NamedTuple

from definition_machine import COMMITTED, Entry
from definition_objects import CALLS, LEAST, MOST, Operation

NAME = re.compile(r"[A-Za-z0-9_.-]{1,24}")
# An escape of a text: a surrogate pair, a half of one (the group), or another one.
ESCAPE = re.compile(r"\\u[dD][89abAB]..\\u[dD][c-fC-F]..|(\\u[dD][89a-fA-F]..)|\\.")
MOST_OBJECTS = MOST_OF_START = 256
MOST_NODES, MOST_DEPTH, MOST_NESTED = 64, 16, 127
STYLES = ("rules", "boosted", "optimistic", "hardware", "dependent")

# The members of each record beside `step`, in the order of their tests. An operation is five members.
RULES_RECORDS = {
    "begin": ("tx", "thread", "body"), "app": ("tx", "operation"), "unapp": ("tx", "id"), "push": ("tx", "id"),
    "unpush": ("tx", "id"), "pull": ("tx", "id"), "unpull": ("tx", "id"), "cmt": ("tx",), "quit": ("tx",), "note": ("tx",),
}
COMMON_RECORDS = {"begin": ("tx", "thread", "body"), "op": ("tx", "operation"), "commit": ("tx",), "abort": ("tx",), "retry": ("tx",)}
RECORDS = {
    "rules": RULES_RECORDS,
    "boosted": COMMON_RECORDS,
    "optimistic": {**COMMON_RECORDS, "refresh": ("tx", "on")},
    "hardware": {**COMMON_RECORDS, "xbegin": ("tx",), "xend": ("tx",), "xabort": ("tx",)},
    "dependent": {**COMMON_RECORDS, "depend": ("tx", "source"), "publish": ("tx",), "drop": ("tx", "source")},
}


class Limits(NamedTuple):
    """At most so many of each in a run."""

    input: float = 268_435_456
    lines: float = 200_001
    line: float = 65_536
    transactions: float = 20_000
    steps: float = 200_000


NO_LIMITS = Limits(*[math.inf] * 5)
JUDGE_LIMITS = NO_LIMITS._replace(lines=2_147_483_647, line=Limits().line)


class Fault(Exception):
    """The cause of a fault, and its line where it is known."""

    def __init__(self, cause, line=None):
        super().__init__(cause)
        self.cause, self.line = cause, line


# Lines

def lines_of(data, limits):
    """Each line that is not blank, with its number. At the end the number of lines, with None."""
    number, begin = 0, 0
    while begin < len(data):
        number += 1
        end = data.find(b"\n", begin)
        after, end = (len(data), len(data)) if end < 0 else (end + 1, end)
        check_limits(number, begin, end, after, limits)
        line = data[begin:end].removesuffix(b"\r")
        if line.strip(b" \t"):
            yield number, line
        begin = after
    yield number, None


def check_limits(number, begin, end, after, limits):
    """The fault of the first byte of a line that passes a limit. The line has the bytes from begin to after, with its byte 10 at end."""
    passed = []
    if after > limits.input:
        passed.append((max(begin, limits.input), "TooLong"))
    if number > limits.lines:
        passed.append((begin, "TooManyLines"))
    if end - begin > limits.line:
        passed.append((begin + limits.line, "LineTooLong"))
    if passed:
        raise Fault(min(passed, key=lambda one: one[0])[1], number)


# Values

class NotWhole(float):
    """A number that is not whole: with a fraction, an exponent, or out of the range of whole numbers."""


def not_whole(text):
    number = NotWhole(text)
    if math.isinf(number):
        raise ValueError("a number that is too large")
    return number


def integer(text):
    if text == "-0" or len(text) > 20 or not -2**63 <= int(text) < 2**64:
        return not_whole(text)
    return int(text)


def refuse(text):
    raise ValueError(text)


def value_of(line):
    """The JSON value of a line."""
    try:
        text = line.decode("utf-8")
        value = json.loads(text, parse_float=not_whole, parse_int=integer, parse_constant=refuse)
    except (ValueError, RecursionError):
        raise Fault("NotJson") from None
    if nesting(text) > MOST_NESTED or has_half_a_pair(text):
        raise Fault("NotJson")
    return value


def has_half_a_pair(text):
    """Whether an escape is half of a surrogate pair, without the other half: no character is written so."""
    return any(half for half in ESCAPE.findall(text))


def nesting(text):
    """How deep the brackets of a text are nested, without those in its strings."""
    deepest = depth = 0
    for bracket in re.findall(r"[][{}]", re.sub(r'"(?:[^"\\]|\\.)*"', "", text)):
        depth += 1 if bracket in "[{" else -1
        deepest = max(deepest, depth)
    return deepest


# Members

def member(value, name):
    if name not in value:
        raise Fault(f"Missing({name})")
    return value[name]


def text_member(value, name):
    text = member(value, name)
    if type(text) is not str:
        raise Fault(f"WrongType({name})")
    return text


def name_member(value, name):
    text = text_member(value, name)
    if not NAME.fullmatch(text):
        raise Fault(f"BadName({name})")
    return text


def chosen_member(value, name, choices, fault):
    text = text_member(value, name)
    if text not in choices:
        raise Fault(fault)
    return text


def in_range(number, name, least, most):
    """A whole number from least to most."""
    if type(number) is not int:
        raise Fault(f"WrongType({name})")
    if not least <= number <= most:
        raise Fault(f"OutOfRange({name})")
    return number


def object_value(line):
    value = value_of(line)
    if type(value) is not dict:
        raise Fault("NotObject")
    return value


def read_args(value, count):
    args = member(value, "args")
    if type(args) is not list or len(args) != count:
        raise Fault("WrongType(args)")
    return tuple([in_range(number, "args", LEAST, MOST) for number in args])


def read_result(value, form):
    result = member(value, "result")
    if form == "truth" and type(result) is not bool or form == "null" and result is not None:
        raise Fault("WrongType(result)")
    if form in ("null", "truth") or form == "number or null" and result is None:
        return result
    return in_range(result, "result", LEAST, MOST)


def read_id(value):
    return in_range(member(value, "id"), "id", 0, 999_999_999)


def read_operation(value, kinds):
    """The id and the operation of a call: the members `id`, `on`, `call`, `args` and `result`."""
    number = read_id(value)
    on = chosen_member(value, "on", kinds, "UnknownObject")
    call = chosen_member(value, "call", CALLS[kinds[on]], "UnknownCall")
    count, form, _ = CALLS[kinds[on]][call]
    args = read_args(value, count)
    return number, Operation(on, kinds[on], call, args, read_result(value, form))


# The header

class Header(NamedTuple):
    """The style, the kinds of the objects by their names, and the name and the items of the start, or None."""

    style: str
    kinds: dict
    start: tuple


def read_header(line):
    value = object_value(line)
    version = in_range(member(value, "run"), "run", 1, 2)
    style = chosen_member(value, "style", STYLES, "UnknownStyle")
    kinds = read_objects(value)
    given = value.get("start") if version == 2 else None
    return Header(style, kinds, None if given is None else read_start(given, kinds))


def read_objects(value):
    objects = member(value, "objects")
    if type(objects) is not list:
        raise Fault("WrongType(objects)")
    if len(objects) > MOST_OBJECTS:
        raise Fault("TooManyObjects")
    kinds = {}
    for one in objects:
        if type(one) is not dict:
            raise Fault("WrongType(objects)")
        name = name_member(one, "name")
        if name in kinds:
            raise Fault("RepeatedObject")
        kinds[name] = chosen_member(one, "kind", CALLS, "UnknownKind")
    return kinds


def read_start(value, kinds):
    if type(value) is not dict:
        raise Fault("WrongType(start)")
    tx = name_member(value, "tx")
    ops = member(value, "ops")
    if type(ops) is not list:
        raise Fault("WrongType(ops)")
    if len(ops) > MOST_OF_START:
        raise Fault("TooManyStart")
    return tx, [read_item(one, tx, kinds) for one in ops]


def read_item(value, tx, kinds):
    if type(value) is not dict:
        raise Fault("WrongType(ops)")
    number, operation = read_operation(value, kinds)
    return Entry(number, tx, operation, COMMITTED)


# Records

def read_record(line, header):
    """A record as a dict: `step`, and the other members of its row. An operation has its id and its object beside it."""
    value = object_value(line)
    rows = RECORDS[header.style]
    record = {"step": chosen_member(value, "step", rows, "UnknownStep")}
    for name in rows[record["step"]]:
        if name in ("tx", "thread", "source"):
            record[name] = name_member(value, name)
        elif name == "body":
            record[name] = read_body(value.get(name), header.kinds)
        elif name == "operation":
            record["id"], record[name] = read_operation(value, header.kinds)
            record["on"] = record[name].on
        elif name == "on":
            record[name] = chosen_member(value, name, header.kinds, "UnknownObject")
        elif name == "id":
            record[name] = read_id(value)
    return record


def read_body(value, kinds):
    """A body as it is written, or None."""
    if value is None:
        return None
    if not is_body(value, kinds):
        raise Fault("BodyBad")
    if count_nodes(value) > MOST_NODES or depth_of(value) > MOST_DEPTH:
        raise Fault("BodyTooLarge")
    return value


def is_body(value, kinds):
    forms = [name for name in BODY_FORMS if type(value) is dict and name in value]
    return len(forms) == 1 and BODY_FORMS[forms[0]](value, kinds)


def is_call(value, kinds):
    on, call, args = value["on"], value.get("call"), value.get("args")
    if type(on) is not str or on not in kinds or type(call) is not str or call not in CALLS[kinds[on]]:
        return False
    numbers = args if type(args) is list else []
    return (type(args) is list and len(args) == CALLS[kinds[on]][call][0]
            and all(one is None or type(one) is int and LEAST <= one <= MOST for one in numbers))


def are_bodies(value, kinds, least):
    return type(value) is list and len(value) >= least and all(is_body(part, kinds) for part in value)


BODY_FORMS = {
    "skip": lambda value, kinds: value["skip"] is True,
    "on": is_call,
    "seq": lambda value, kinds: are_bodies(value["seq"], kinds, 0),
    "alt": lambda value, kinds: are_bodies(value["alt"], kinds, 1),
    "star": lambda value, kinds: is_body(value["star"], kinds),
}


def parts_of(body):
    return [body["star"]] if "star" in body else body.get("seq", body.get("alt", []))


def count_nodes(body):
    return 1 + sum(count_nodes(part) for part in parts_of(body))


def depth_of(body):
    return 1 + max((depth_of(part) for part in parts_of(body)), default=0)
