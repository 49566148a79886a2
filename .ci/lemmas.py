#!/usr/bin/env python3
"""Lemmas, definitions and records that several files of specs/ and proofs/ state in the same words, but for the names that they bind and the
parameters that they do not use: what to merge next. `--count` prints only how many groups of them there are. It is no part of the gate."""
import itertools
import pathlib
import re
import sys

CRATES = pathlib.Path(__file__).resolve().parent.parent / "crates"
BLOCK = re.compile(r"^( *)((?:module \S+ ([\s\S]*?)\bwhere|(?:abbrev )?mutual)$|\S.*(?:\n(?:\1 .*)?$)*)", re.MULTILINE)
DECLARED = re.compile(r"((?:(?:pub|abbrev|unfoldable|record) )*)([^\s(){}=]+)( [({].*?[)}])? :\s(?!goal\.)(.*)", re.DOTALL)
WORD = re.compile(r"[(){}\[\],;]|[^\s(){}\[\],;]+?(?=\.?(?:[\s(){}\[\],;]|$))|\.")


def parse(text):
    """The words of a text, in which a group in brackets is a list of its own, and the names after λ are a group."""
    text = re.sub(r"λ ([^(){}.:]+)\.(?=\s)", r"λ (\1 : _).", text)
    words = iter([*WORD.findall(text.translate(str.maketrans("{}", "()"))), ")"])
    group = lambda: [group() if word == "(" else word for word in iter(words.__next__, ")")]
    return group()


def premises(items, env, fresh=itertools.count()):
    """What is between the arrows, each with its mark if it is bound: «1» for a value, and ‹1› for a type."""
    parts, plain = [], []
    for item in [*items, "→"]:
        if item == "→":
            parts, plain = parts + [("", " ".join(plain))] * bool(plain), []
        elif isinstance(item, list):
            colon = item.index(":") if ":" in item else 0
            kind = " → ".join(text for _, text in premises(item[colon + bool(colon) :], dict(env)))
            plain += [] if colon else [f"({kind})"]
            for name in map(str, item[:colon]):
                env[name] = f"‹{next(fresh)}›" if kind.startswith("Type ") else f"«{next(fresh)}»"
                parts += [(env[name], f"({kind})" if "→" in kind else kind)]
        else:
            plain += [re.sub(r"^[^.]+", lambda head: env.get(head[0], head[0]), item)]
    return parts


def statements(file):
    """The statement of each declaration of a file, with and without the hypotheses of its modules, and its place with its text."""
    text = re.sub(r"(?m)(^|\s)--.*$", r"\1", file.read_text())
    imported = set(re.findall(r"[^\s{},.]+", " ".join(re.findall(r"(?m)^use .*$", text))))
    found, modules = list(BLOCK.finditer(text)), []
    for at, block in enumerate(found):
        modules = [(depth, given) for depth, given in modules if depth < len(block[1])]
        if re.match(r"module |(?:abbrev )?mutual$", block[2]):
            modules.append((len(block[1]), block[3] or ""))
        elif match := DECLARED.match(block[2]):
            (kind, name, own, of), env = match.groups(""), {}
            given, parts = (premises(parse(part), env) for part in (" ".join(given for _, given in modules), f"{own} → {of}"))
            if "abbrev" in kind or "unfoldable" in kind or "«" not in parts[-1][1]:
                for clause in itertools.takewhile(lambda block: not DECLARED.match(block[2]), found[at + 1 :]):
                    left = {word for word in WORD.findall(re.split(r" =\s", clause[2])[0]) if word[0].isalpha()} - imported
                    parts += premises(parse(clause[2]), env | {word: f"«{word}»" for word in left} | {name: "itself"})
                itself = " ".join(["itself", *(mark for mark, _ in given if "«" in mark and any(mark in text for _, text in parts))])
                parts = [(mark, text.replace("itself", itself)) for mark, text in parts]
            for hypotheses in {True, "→" not in of}:
                statement, marks = "", {}
                for part in reversed(given + parts):
                    needed = part[0] in statement or "«" in part[1] and (hypotheses or part in parts)
                    statement = f"{part[1]} → {statement}" if needed and "‹" not in part[0] else statement
                place = f"{file.relative_to(CRATES)}:{text.count(chr(10), 0, block.start()) + 1} {name}"
                yield re.sub(r"(?<=[«‹])[^»›]+", lambda mark: str(marks.setdefault(mark[0], len(marks))), statement), (place, of)


def main():
    found = sorted(itertools.chain(*map(statements, CRATES.glob("*/[sp]*/**/*.antt"))))
    groups = [{place for _, place in group} for _, group in itertools.groupby(found, key=lambda statement: statement[0])]
    twins = {frozenset(group) for group in groups if len({place.partition(":")[0] for place, _ in group}) > 1}
    twins = sorted(sorted(group) for group in twins if not any(group < other for other in twins))
    for group in sorted(twins, key=len, reverse=True) if "--count" not in sys.argv else ():
        print(" ".join(group[0][1].split()), *(f"    {place}" for place, _ in group), sep="\n")
    if "--count" in sys.argv:
        print(len(twins))


if __name__ == "__main__":
    main()
