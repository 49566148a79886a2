#!/usr/bin/env python3
"""Decides a run by the definitions of docs/FORMAT.md and docs/RULES.md, and prints what `certify` prints.

    python3 bench/definition.py [--no-limits] FILE

It is a second reading of the documents: it shares no code with the program, it is not proved, and it is slow. With
`--no-limits` it decides a run of any number of bytes, lines, transactions and steps. The status is that of `certify`.
"""
import argparse
import pathlib
import sys

from definition_input import NO_LIMITS, Fault, Limits, lines_of, read_header, read_record
from definition_machine import EFFECTS, Configuration, Log, first_false, start, start_false
from definition_styles import Front

STATUS = {"accepted": 0, "rejected": 1, "fault": 3}


class Reading:
    """A run as far as it was read."""

    def __init__(self, limits):
        self.limits, self.header, self.rejection = limits, None, None
        self.now, self.begun, self.steps = Configuration(), 0, 0

    def take(self, line, number):
        """Reads a line, and takes its steps if none was rejected before."""
        if self.header is None:
            return self.take_header(line, number)
        record = read_record(line, self.header)
        self.begun += record["step"] == "begin"
        if self.begun > self.limits.transactions:
            raise Fault("TooManyTransactions")
        if self.rejection is None:
            self.take_steps(self.front.steps(self.now, record), number)

    def take_header(self, line, number):
        self.header = read_header(line)
        self.front = Front(self.header.style)
        if self.header.start is not None:
            tx, items = self.header.start
            wrong = start_false(items)
            if wrong is None:
                start(self.now, tx, items)
            else:
                self.rejection = rejection(0, number, "START", wrong)

    def take_steps(self, steps, number):
        for step in steps:
            self.steps += 1
            if self.steps > self.limits.steps:
                raise Fault("TooManySteps")
            wrong = first_false(self.now, step)
            if wrong is not None:
                self.rejection = rejection(self.steps, number, step.rule, wrong)
                return
            EFFECTS[step.rule](self.now, step)

    def report(self):
        return accepted(self) if self.rejection is None else self.rejection


def rejection(step, line, rule, wrong):
    criterion, evidence = wrong
    return text_of([f"rejected step {step} line {line} {rule} {criterion}", *evidence])


def accepted(reading):
    """The report of an accepted run: the serial run, and the state to which it leads."""
    lines, log = [f"accepted steps {reading.steps} committed {len(reading.now.commits)}"], Log()
    for tx, entries in reading.now.commits:
        lines.append(f"tx {tx}")
        for entry in entries:
            lines.append(f"op {entry.id} {entry.operation}")
            log.append(entry)
    lines += [state_line(name, kind, log) for name, kind in reading.header.kinds.items()]
    return text_of(lines)


def state_line(name, kind, log):
    """An object, with what is in it."""
    there = {place: log.states[place] for place in log.places if place[0] == name}
    if kind in ("mem", "map"):
        empty = 0 if kind == "mem" else None
        items = [f"{key}={there[name, key]}" for key in sorted(key for _, key in there) if there[name, key] != empty]
    elif kind == "set":
        items = sorted(key for (_, key), is_there in there.items() if is_there)
    elif kind == "counter":
        items = [there.get((name,), 0)]
    else:
        items = there.get((name,), ())
    return " ".join(["state", name, *map(str, items)])


def text_of(lines):
    return "".join(line + "\n" for line in lines)


def verdict(data, limits=Limits()):
    """What `certify` prints of an input, and its status."""
    reading, number = Reading(limits), None
    try:
        for number, line in lines_of(data, limits):
            if line is not None:
                reading.take(line, number)
        if reading.header is None:
            raise Fault("NoHeader", number + 1)
        text = reading.report()
    except Fault as fault:
        text = f"fault line {fault.line or number} {fault.cause}\n"
    return text, STATUS[text.split()[0]]


def main():
    parser = argparse.ArgumentParser(description="Prints what `certify` prints of a run, by the definitions of the documents.")
    parser.add_argument("--no-limits", action="store_true", help="no limit on bytes, lines, transactions and steps")
    parser.add_argument("file", metavar="FILE", type=pathlib.Path)
    arguments = parser.parse_args()
    text, status = verdict(arguments.file.read_bytes(), NO_LIMITS if arguments.no_limits else Limits())
    sys.stdout.write(text)
    return status


if __name__ == "__main__":
    sys.exit(main())
