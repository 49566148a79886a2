#!/usr/bin/env python3
"""Whether the documents show what the built program prints: for each file of examples/ some page shows it, and every page shows it as it is.
And whether an input of too many bytes, which is too large for a test, has its fault.

    python3 .ci/outputs.py [PROGRAM]      PROGRAM is crates/pp_cli/out/pp_cli if none is named

An output is a block of indented lines, of which the first is the command. Of each example a page shows its report, or of a certificate what
`recheck` prints of it.
"""
import pathlib
import re
import subprocess
import sys

ROOT = pathlib.Path(__file__).resolve().parent.parent
PAGES = (ROOT / "README.md", *sorted((ROOT / "docs").glob("*.md")))
COMMAND = re.compile(r"^ {4}\$ \./pp_cli (\w+) < examples/(\w+\.jsonl)\n((?: {4}.+\n)*)", re.MULTILINE)
FOCUSED = re.compile(r"^ {4}\$ \./pp_cli (focus \S+) < examples/(\w+\.jsonl)\n((?: {4}.+\n|\n(?=\n* {4}[^$]))*)", re.MULTILINE)
MADE = re.compile(r"^ {4}\$ \./pp_cli (drill \d+)\n((?: {4}.+\n)*)", re.MULTILINE)
REPORTS = ("certify", "recheck")
TOO_LONG = 4_096 * (65_536 * b" " + b"\n")
STATUS = {
    "accepted": 0, "drill": 0, "opaque": 0, "quick accepted": 0, '{"certificate":1': 0, "holds": 0, '{"objects"': 0,
    "rejected": 1, "quick rejected": 1, "refused": 1, "zombie": 1,
    "fault": 3, "toolarge": 7,
}


def status_of(report):
    """The status with which a report ends, by how its first line begins."""
    (status,) = {status for begin, status in STATUS.items() if re.match(rf"{re.escape(begin)}[ ,:]", report)}
    return status


def unindented(block):
    return re.sub(r"^ {4}", "", block, flags=re.MULTILINE)


def found_on_pages(pattern):
    return [found for page in PAGES for found in pattern.findall(page.read_text())]


def unread():
    """Lines that show a command, and that the patterns above do not take for one."""
    for page in PAGES:
        for line in re.findall(r"^ *\$ \./pp_cli .*\n", page.read_text(), re.MULTILINE):
            if not (COMMAND.match(line) or FOCUSED.match(line) or MADE.match(line)):
                yield f"{page.name}: this is no block of a known form: {line.strip()}"


def shown():
    """The outputs on the pages, each with its command and the name of its file: a page may show one that another shows too."""
    return sorted({(name, command, unindented(block)) for command, name, block in found_on_pages(COMMAND) + found_on_pages(FOCUSED)})


def made():
    """The commands on the pages that read no input, each with its output."""
    return sorted({(command, unindented(block)) for command, block in found_on_pages(MADE)})


def differs(program, command, run, output, wanted):
    """What the program does otherwise on an input, or nothing."""
    ran = subprocess.run([program, *command.split()], input=run, capture_output=True, timeout=120, check=False)
    if ran.stdout.decode() != output:
        return f"prints\n{ran.stdout.decode()}and not\n{output}"
    return f"ends with {ran.returncode} and not {wanted}" if ran.returncode != wanted else None


def wrong_outputs(program, outputs):
    report_of = {name: output for name, command, output in outputs if command in REPORTS}
    runs = []
    for name, command, output in outputs:
        # The lines that `expand` prints do not say how it ends: as the report does.
        ends = status_of(report_of[name] if command == "expand" else output)
        runs.append((name, command, (ROOT / "examples" / name).read_bytes(), output, ends))
    runs.append(("too many bytes", "certify", TOO_LONG, "fault line 4096 TooLong\n", 3))
    runs += [("no input", command, b"", output, status_of(output)) for command, output in made()]
    for name, command, run, output, ends in runs:
        said = differs(program, command, run, output, ends)
        if said:
            yield f"{name}: the program, on {command}, {said}"


def main():
    program = pathlib.Path(sys.argv[1] if len(sys.argv) > 1 else ROOT / "crates/pp_cli/out/pp_cli").resolve()
    outputs = shown()
    there = {file.name for file in (ROOT / "examples").iterdir()}
    reported = {name for name, command, _ in outputs if command in REPORTS}
    wrong = [*unread()]
    wrong += [f"{name}: no page shows its output" for name in sorted(there - reported)]
    wrong += [f"{name}: there is no such example" for name in sorted({name for name, _, _ in outputs} - there)]
    wrong += [f"{name}: no page shows its report beside its steps" for name, command, _ in outputs if command == "expand" and name not in reported]
    if program.is_file():
        wrong += wrong_outputs(program, [(n, c, o) for n, c, o in outputs if n in there and (c != "expand" or n in reported)])
    else:
        wrong.append(f"no program at {program}")
    for line in wrong:
        print(f"outputs: {line}")
    return int(bool(wrong))


if __name__ == "__main__":
    sys.exit(main())
