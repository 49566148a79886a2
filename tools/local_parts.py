"""Splits a run into parts, one for each group of its objects, so that `judge` can decide each part by itself.

    header = read_header(first_bytes)
    split = ByObject(header, [["a", "c"], ["b"]])
    split.first_lines()                     # for each part: the lines up to its header
    pieces = split.pieces(lines)            # for each part: these lines, with blank lines for those of other parts
    pieces.texts, pieces.ids, pieces.has_unreadable

A part has the header of the run. It has the operations of the start and the records `op` and `refresh` that are on its
objects, and every other record. So each line keeps its number. `ByIds` makes the part of the bookkeeping.

Most lines are read by one pattern. It takes lines that can mean only one thing as JSON: no escape, and no member twice.
Every other line is read as JSON. docs/TOOLS.md says why the parts make the whole.
"""
import array
import json
import re

# The styles in which a run is right exactly if its bookkeeping is, and it is right on each object.
LOCAL_STYLES = ("boosted", "optimistic", "hardware")
OF_OBJECT = ("op", "refresh")
MOST_ID = 999_999_999
BLANK = b" \t\r"
# The call in place of one whose id alone counts.
ADDITION = {"on": "c", "call": "add", "args": [0], "result": None}
# Takes one line. It has the id and the object of an `op` without spaces. It has the whole line if it is any other than this, a
# blank line or a plain record on no object.
COMPACT = (
    rb'^(?:\{"step":"(?:op","tx":NAME,"id":([0-9]{1,9}),"on":"([A-Za-z0-9_.-]+)","call":NAME,"args":\[[0-9, -]*\],"result":[a-z0-9-]+'
    rb'|(?:begin|commit|abort|retry|xbegin|xend|xabort)","tx":NAME(?:,"thread":NAME)?)\}\r?|(.*))$'
    .replace(b"NAME", b'"[A-Za-z0-9_.-]+"'))
COMPACT_LINE = re.compile(COMPACT, re.MULTILINE)
# The same with a space after each comma and colon, or none.
SPACED_LINE = re.compile(COMPACT.replace(b'":', b'": ?').replace(b',"', b', ?"'), re.MULTILINE)


class NoParts(Exception):
    """The run cannot be split. The message says why."""


class Header:
    """The header of a run. `before` has the lines before it, `line` its own, and `members` what is in it."""

    def __init__(self, before, line):
        self.before = before
        self.line = line
        self.members = members_of(line) or {}

    @property
    def data(self):
        return self.before + self.line

    @property
    def style(self):
        return self.members["style"]

    @property
    def objects(self):
        """The names of the objects."""
        return [item["name"] for item in self.members["objects"]]

    @property
    def start(self):
        """The operations of the start."""
        has_start = self.members["run"] == 2 and self.members.get("start") is not None
        return self.members["start"]["ops"] if has_start else []

    def changed(self, start, objects=None):
        """The lines up to the header, with these operations in its start, and perhaps with other objects."""
        if not self.start and objects is None:
            return self.data
        members = {"run": self.members["run"], "style": self.style, "objects": objects or self.members["objects"]}
        if self.members["run"] == 2 and self.members.get("start") is not None:
            members["start"] = {"tx": self.members["start"]["tx"], "ops": start}
        end = b"\n" if self.line.endswith(b"\n") else b""
        return self.before + json.dumps(members, separators=(",", ":")).encode() + end


class Pieces:
    """Some lines of a run. `texts` has them for each part, and `ids` has the ids of their operations.

    `has_unreadable` says that one of them is no record. The program must find a fault then.
    """

    def __init__(self, texts, ids=(), has_unreadable=False):
        self.texts = texts
        self.ids = array.array("I", ids)
        self.has_unreadable = has_unreadable


def read_lines(data):
    """Of each line three texts: the id and the object of a plain `op`, and the line if it is no plain record and not blank."""
    return (SPACED_LINE if b'": ' in data else COMPACT_LINE).findall(data)


def read_header(data):
    """The header in the first bytes of a run, or None."""
    begin = 0
    while begin < len(data):
        end = data.find(b"\n", begin) + 1 or len(data)
        if data[begin:end].strip(BLANK + b"\n"):
            return Header(data[:begin], data[begin:end])
        begin = end
    return None


def members_of(line):
    """The members of a line, or None if it is no JSON object."""
    try:
        value = json.loads(line.decode())
    except (ValueError, RecursionError):
        return None
    return value if isinstance(value, dict) else None


def is_id(value):
    return type(value) is int and 0 <= value <= MOST_ID


class ByObject:
    """The parts by objects. `groups` has the names of the objects of each part. The operations on other objects are left out."""

    def __init__(self, header, groups):
        self.header = header
        self.groups = groups
        self.part_of = {name.encode(): len(groups) for name in header.objects}
        self.part_of.update((name.encode(), part) for part, names in enumerate(groups) for name in names)
        self.start_ids = [item["id"] for item in header.start]

    def first_lines(self):
        starts = ([item for item in self.header.start if item["on"] in names] for names in self.groups)
        return [self.header.changed(start) for start in starts]

    def pieces(self, data):
        """What the parts have of some whole lines. Raises NoParts if a `begin` has a body."""
        lines = data.split(b"\n")
        ids, names, others = zip(*read_lines(data))
        in_all = [b"" if name or other else line for line, name, other in zip(lines, names, others)]
        pieces = Pieces([in_all.copy() for _ in (*self.groups, "left out")], map(int, filter(None, ids)))
        part_of, texts = self.part_of, pieces.texts
        for place, name in enumerate(names):
            if name in part_of:
                texts[part_of[name]][place] = lines[place]
        if any(others) or not part_of.keys() >= set(filter(None, names)):
            self.add_others(pieces, lines, names, others)
        pieces.texts = [b"\n".join(text) for text in texts[:-1]]
        return pieces

    def add_others(self, pieces, lines, names, others):
        """Adds the lines that are no plain records, or on an object that the header does not have."""
        for place, other in enumerate(others):
            if other or names[place] and names[place] not in self.part_of:
                self.add_other(pieces, place, lines[place])

    def add_other(self, pieces, place, line):
        members = members_of(line) if line.strip(BLANK) else {}
        if members is None:
            pieces.has_unreadable = True
            parts = pieces.texts
        elif members.get("step") in OF_OBJECT:
            parts = self.parts_of(members, pieces)
        elif members.get("step") == "begin" and members.get("body") is not None:
            raise NoParts("a begin has a body")
        else:
            parts = pieces.texts
        for texts in parts:
            texts[place] = line

    def parts_of(self, members, pieces):
        """The part of a record on an object, or all parts if there is no such object."""
        name = members.get("on")
        part = self.part_of.get(name.encode("utf-8", "replace")) if isinstance(name, str) else None
        if part is None:
            pieces.has_unreadable = True
            return pieces.texts
        if members["step"] == "op" and is_id(members.get("id")):
            pieces.ids.append(members["id"])
        return [pieces.texts[part]]


class ByIds:
    """The part of the bookkeeping, for ids that come more than once.

    It has the operations with these ids, each as an addition of 0 to a counter, and every record that is on no object.
    Such an addition is always allowed, and two of them always swap. So the criteria on results and swaps are all true.
    """

    groups = (None,)
    start_ids = ()

    def __init__(self, header, ids):
        self.header = header
        self.ids = ids

    def first_lines(self):
        start = [{"id": item["id"], **ADDITION} for item in self.header.start if item["id"] in self.ids]
        return [self.header.changed(start, [{"name": ADDITION["on"], "kind": "counter"}])]

    def pieces(self, data):
        lines = []
        for line, (number, name, other) in zip(data.split(b"\n"), read_lines(data)):
            is_left_out = name and int(number) not in self.ids
            lines.append(b"" if is_left_out else self.changed(line) if name or other else line)
        return Pieces([b"\n".join(lines)])

    def changed(self, line):
        members = members_of(line) or {}
        if members.get("step") not in OF_OBJECT:
            return line
        if members["step"] != "op" or members.get("id") not in self.ids:
            return b""
        return json.dumps({"step": "op", "tx": members.get("tx"), "id": members["id"], **ADDITION}).encode()
