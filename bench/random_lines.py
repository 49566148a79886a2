"""The lines of a random run, some of them written in another way, and a few spoiled."""
import json
import re

DEEP = {"skip": True}
for _ in range(16):
    DEEP = {"star": DEEP}
SPOILS = (None, True, 7, -1, -0.0, 1.5, 10**9, -10**9, 10**18 + 1, 2**64, -2**63 - 1, "", "a b", "t1", "o1", "push", "read", "nowhere",
          "x" * 24, "x" * 25, [], [None], [[]], {}, {"skip": True}, {"seq": []}, {"alt": []}, {"seq": [1]}, {"star": None}, DEEP)
BAD_TEXTS = ("", "-", "01", "1e999", "NaN", "'", "\xff", "\t\"", "[" * 130 + "]" * 130, "[" * 126 + "]" * 126)


def members(operation):
    return {"on": operation.on, "call": operation.call, "args": list(operation.args), "result": operation.result}


def written(record):
    """A record as its line has it."""
    if "operation" in record:
        return {"step": record["step"], "tx": record["tx"], "id": record["id"], **members(record["operation"])}
    return {name: value for name, value in record.items() if name != "body" or value is not None}


def text_of(records, chance, faults):
    """The bytes of a run. The lines of some are written otherwise, and this part of them has one that is spoiled."""
    lines = [json.dumps(record, separators=chance.pick(((",", ":"), (", ", ": ")))) for record in records]
    if chance.happens(.15):
        position = chance.number(len(lines))
        lines[position] = varied(chance, records[position])
    if chance.happens(faults):
        position = chance.number(len(lines))
        lines[position] = spoiled(chance, lines[position])
    end = chance.pick(("\n", "\n", "\n", "\r\n", "\n \t\n"))
    return (end.join(lines) + chance.pick(("", end))).encode("latin-1")


def varied(chance, record):
    """A line that means the same: with a further member, an earlier one of the same name, or in another order."""
    text = json.dumps({"other": [{"step": 1}, 1e9, -0.0], **dict(reversed(record.items()))})
    name = chance.pick(list(record))
    return text if chance.happens(.5) else f'{{"{name}":7,{text[1:]}'


def spoiled(chance, line):
    """A line of which a part is another one, left out, or there many times."""
    if chance.happens(.2):
        part = chance.pick([*re.finditer(r'"[^"]*"|[^][{}",: ]+|[][{}",:]', line)])
        return line[:part.start()] + chance.pick(BAD_TEXTS) + line[part.end():]
    whole = [json.loads(line)]
    within, key = chance.pick([*parts_of(whole)])
    how = chance.pick(("replace", "replace", "replace", "remove", "repeat"))
    if how == "replace":
        within[key] = chance.pick(SPOILS)
    elif how == "remove":
        del within[key]
    elif isinstance(within, list):
        within[key:key] = [within[key]] * chance.pick((1, 64, 300))
    return json.dumps(whole[0]) if whole else ""


def parts_of(value):
    """Each part of a value, as the list or the dict that has it, and its place there."""
    places = range(len(value)) if isinstance(value, list) else list(value) if isinstance(value, dict) else ()
    for place in places:
        yield value, place
        yield from parts_of(value[place])
