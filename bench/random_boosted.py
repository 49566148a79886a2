#!/usr/bin/env python3
"""Random runs of style `boosted`, on each of which `quick` is held against `certify`.

    python3 bench/random_boosted.py PROGRAM FIRST_SEED LAST_SEED

Each seed, the last one too, makes a run over one to four objects, perhaps with a start, on few keys and values, so that
calls meet; up to six transactions are open at once, some with a body. A call has the result that its object gives behind
what is published, and it fits: it may pass what others have not committed, and, but in hasty runs, what its transaction
takes over may pass what that did before. Half of the runs have mistakes: calls that need not fit, or do not see what
others have not committed, and records that are missing, or have a member of another one. A few have a spoiled line.

Where `certify` accepts, `quick` is to print the same transactions and states, where it rejects the same line, and where
it names a fault the same fault; what has the fault `TooManySteps` is left out. Of the first runs that differ both outputs
are printed. The last line has the counts, and the status is 1 where any differ.
"""
import collections
import functools
import itertools
import json
import random
import re
import subprocess
import sys

from measure import begin, program_named

# Of each kind what stands at a place at first, and what each call makes of this x and of its arguments but a key: what
# stands there next, and the result. A place is a key of a mem, set or map, and else an object.
KINDS = {
    "mem": (0, {"read": lambda x: (x, x), "write": lambda x, new: (new, None),
                "cas": lambda x, old, new: (new, True) if x == old else (x, False)}),
    "set": (False, {"add": lambda x: (True, not x), "remove": lambda x: (False, x), "contains": lambda x: (x, x)}),
    "map": (None, {"put": lambda x, new: (new, x), "remove": lambda x: (None, x), "get": lambda x: (x, x)}),
    "counter": (0, {"add": lambda x, n: (x + n, None), "fetch_add": lambda x, n: (x + n, x), "get": lambda x: (x, x)}),
    "queue": ((), {"enq": lambda x, new: ((*x, new), None), "deq": lambda x: (x[1:], next(iter(x), None))}),
    "stack": ((), {"push": lambda x, new: ((new, *x), None), "pop": lambda x: (x[1:], next(iter(x), None))}),
    "prio": ((), {"insert": lambda x, new: (tuple(sorted((*x, new))), None),
                  "take": lambda x: (x[1:], next(iter(x), None)), "least": lambda x: (x, next(iter(x), None))}),
}
KEYED = ("mem", "set", "map")
KEYS = ((0,), (0, 1), (0, 1, 2), (-1, 10**18))
VALUES = ((1,), (0, 1), (0, 1, 2), (-2, 0, 3, 4), (-10**18, 0, 10**18))
SPOILS = ("", "null", "true", "-1", "1.5", "1e3", f"{10**9}", f"{10**18 + 1}", f"{10**19}", '""', '"a b"', '"t1"', '"o1"',
          '"push"', '"nowhere"', f'"{"x" * 25}"', "[]", "[[]]", "{}", '{"seq":[1]}', '"\xff"')
TRIES, SHOWN, COMMANDS, OUTCOMES = 6, 3, ("certify", "quick"), {0: "accepted", 1: "rejected", 3: "faults"}

# A place is an object's name and kind, and perhaps a key; `after` is how many transactions had committed before a call.
Operation = collections.namedtuple("Operation", "tx id after place call args result")
Transaction = collections.namedtuple("Transaction", "name thread word")


def record(tx, number, _, place, call, args, result):
    on, _, *key = place
    return {"step": "op", "tx": tx, "id": number, "on": on, "call": call, "args": [*key, *args], "result": result}


def behind(now, *calls):
    """What stands at their place behind these calls, and the result of each."""
    results = []
    for (_, kind, *_), call, args, _ in calls:
        now, result = KINDS[kind][1][call](now, *args)
        results.append(result)
    return now, *results


@functools.lru_cache(1 << 16)
def swaps(a, b):
    """Do two calls give the same results and leave the same when turned, wherever they can stand in this order?"""
    numbers = {0, 7, *(n for *_, args, result in (a, b) for n in (*args, result) if type(n) is int)}
    lists = [items for count in range(3) for items in itertools.product(numbers, repeat=count)]
    states = {"mem": numbers, "set": (False, True), "map": (None, *numbers), "queue": lists, "stack": lists,
              "counter": [n - m for n in numbers for m in numbers], "prio": [tuple(sorted(items)) for items in lists]}
    ends = ((behind(now, a, b), behind(now, b, a)) for now in states[a[0][1]])
    return a[0] != b[0] or all((x, z, y) == turned or (y, z) != (a[-1], b[-1]) for (x, y, z), turned in ends)


class Run:
    """The run of a seed: its lines, and the log of what is published behind them."""

    def __init__(self, seed):
        self.random = random.Random(seed)
        self.pick, self.chance = self.random.choice, lambda part: self.random.random() < part
        self.objects = [{"name": f"o{k}", "kind": self.pick(list(KINDS))} for k in range(self.random.randint(1, 4))]
        self.keys, self.values = self.pick(KEYS), *self.random.choices(VALUES, (9, 9, 9, 9, 1))
        self.hasty, self.mistakes, stride = self.chance(.5), self.pick((0, 0, .03, .1)), self.pick((1, 3**18))
        self.numbers = (number * stride % 10**9 for number in itertools.count(1))
        self.free = [f"p{number}" for number in range(self.random.randint(1, 6))]
        self.log, self.committed, self.open = [], ["t0"], []
        start = self.start() if self.chance(.4) else None
        self.lines = [{"run": 2, "style": "boosted", "objects": self.objects, "start": start}]
        if self.chance(.1):
            self.lines[0]["run"], self.log = 1, []
        for _ in range(self.pick((6, 20, 50, 100))):
            self.turn()

    def start(self):
        for _ in range(self.pick((0, 1, 4, 12))):
            self.log.append(self.operation("t0", self.call()))
        ops = [record(*one) for one in self.log]
        return {"tx": "t0", "ops": self.pick((ops[::-1], ops + ops[:1])) if self.chance(self.mistakes) else ops}

    def call(self):
        on, kind = self.pick(self.objects).values()
        call, makes = self.pick(list(KINDS[kind][1].items()))
        key = [self.pick(self.keys)] if kind in KEYED else []
        return (on, kind, *key), call, tuple(self.random.choices(self.values, k=makes.__code__.co_argcount - 1))

    def body(self, depth=3):
        """A body, and a word of it."""
        form = self.pick(("call", "seq", "seq", "alt", "star") if depth else ("call", "call", "skip"))
        if form == "skip":
            return {"skip": True}, []
        if form == "call":
            (on, _, *key), call, args = made = self.call()
            return {"on": on, "call": call, "args": [self.pick((given, None)) for given in (*key, *args)]}, [made]
        bodies, words = zip(*(self.body(depth - 1) for _ in range(self.random.randint(1, 3))))
        if form == "star":
            return {"star": bodies[0]}, words[0] * self.random.randint(0, 3)
        return {form: bodies}, sum(words, []) if form == "seq" else self.pick(words)

    def operation(self, tx, call):
        """A call with its result behind the log, or by mistake behind what is committed there or its own."""
        made, blind = Operation(tx, next(self.numbers), len(self.committed), *call, None), self.chance(self.mistakes)
        there = [one for one in (*self.log, made) if one.place == made.place]
        seen = [one[3:] for one in there if not blind or one.tx in (tx, *self.committed)]
        return made._replace(result=behind(KINDS[made.place[1]][0], *seen)[-1])

    def fits(self, one):
        others = [other for other in self.log if other.tx != one.tx]
        own = [mine for mine in self.log if mine.tx == one.tx and mine.place[0] == one.place[0]]
        taken = [] if self.hasty else self.committed[max((mine.after for mine in own), default=0):]
        return (all(swaps(other[3:], one[3:]) for other in others if other.tx not in self.committed)
                and all(swaps(mine[3:], other[3:]) for other in others if other.tx in taken for mine in own))

    def put(self, line):
        """Writes a line, or by mistake none, or one with a member of an earlier one."""
        others = [one for one in self.lines if one.keys() == line.keys() and one.get("call") == line.get("call")]
        if others and self.chance(self.mistakes):
            name = self.pick(list(line))
            line[name] = self.pick(others)[name]
        if not self.chance(self.mistakes / 2):
            self.lines.append(line)

    def turn(self):
        """A transaction begins, or one makes a call, its next one if it has a body, or ends."""
        if self.free and (not self.open or self.chance(.25)):
            body, word = self.body() if self.chance(.3) else (None, None)
            self.open.append(Transaction(f"t{next(self.numbers)}", self.free.pop(), word))
            return self.put({**begin(self.open[-1].name, self.open[-1].thread), "body": body})
        tx, step = self.pick(self.open), *self.random.choices(("op", "commit", "abort", "retry"), (12, 3, 1, 1))
        left = None if tx.word is None else tx.word[sum(one.tx == tx.name for one in self.log):]
        if step == "op":
            calls = [self.call() for _ in range(TRIES)] if left is None else left[:1]
            for one in (self.operation(tx.name, call) for call in calls):
                if self.chance(3 * self.mistakes) or self.fits(one):
                    self.log.append(one)
                    return self.put(record(*one))
        elif step != "commit" or not left:
            self.put({"step": step, "tx": tx.name})
            if step == "commit":
                self.committed.append(tx.name)
            else:
                self.log = [one for one in self.log if one.tx != tx.name]
            if step != "retry":
                self.open.remove(tx)
                self.free.append(tx.thread)

    def text(self):
        lines = [json.dumps(line, separators=(",", ":")) for line in self.lines]
        if self.chance(.06):
            at = self.random.randrange(len(lines))
            part = self.pick([*re.finditer(r'"[^"]*"|[^][{}",:]+', lines[at])])
            lines[at] = lines[at][:part.start()] + self.pick(SPOILS) + lines[at][part.end():]
        return self.pick(("\n", "\r\n", "\n \t\n")).join(lines).encode("latin-1")


def main():
    program, counts = program_named(), collections.Counter()
    for seed in range(int(sys.argv[2]), int(sys.argv[3]) + 1):
        run = Run(seed)
        text = run.text()
        ran = [subprocess.run([program, word], input=text, capture_output=True, check=False) for word in COMMANDS]
        (status, certified), quick = [(one.returncode, one.stdout.decode()) for one in ran]
        told, behind_first = [*certified.split(), ""][4], certified.partition("\n")[2]
        wanted = {0: f"quick accepted records {len(run.lines) - 1} committed {told}\n{behind_first}",
                  1: f"quick rejected line {told}\n", 3: certified}
        outcome = "left" if "TooManySteps" in certified else OUTCOMES.get(status)
        counts.update(["runs", outcome, *(line["step"] for line in run.lines[1:] if status == 0)])
        if outcome != "left" and quick != (status, wanted.get(status)):
            counts["differ"] += 1
            if counts["differ"] <= SHOWN:
                print(f"seed {seed}", certified, quick[1], sep="\n", flush=True)
    print("{runs} runs: {accepted} accepted with {abort} aborts and {retry} retries, {rejected} rejected, "
          "{faults} faults, {left} left out, {differ} differ".format_map(counts))
    sys.exit(counts["differ"] > 0)


if __name__ == "__main__":
    main()
