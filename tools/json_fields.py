"""What `--json` prints of a report: each line of it as fields."""
import json


def fields_of(command, report):
    """The fields of a report of a command, in the order in which they are printed."""
    fields = {"command": command, "status": report.answer.status, "verdict": report.verdict}
    if report.verdict is None:
        return {**fields, "printed": [json.loads(line) for line in report.lines]}
    fields["verdict_line"] = report.verdict_line
    fields.update(report.fields)
    if report.evidence is not None:
        fields["evidence"] = report.evidence.fields()
    if command == "views" and report.verdict == "accepted":
        fields["views"] = [view_fields(line) for line in report.lines_of("view")]
    elif report.verdict == "accepted" and command != "drill":
        fields["transactions"] = transactions_of(report)
    elif report.verdict == "zombie":
        fields.update(zombie_fields(report))
    elif report.verdict == "holds":
        fields["serial_run"] = [operation_fields(line) for line in report.lines_of("op")]
    if report.lines_of("state"):
        fields["states"] = states_of(report)
    return fields


def operation_fields(line):
    _, number, operation = line.split(" ", 2)
    return {"id": int(number), "operation": operation}


def transactions_of(report):
    """The committed transactions in commit order, each with its operations."""
    transactions = []
    for line in report.lines[1:]:
        if line.startswith("tx "):
            transactions.append({"name": line[3:], "operations": []})
        elif line.startswith("op "):
            transactions[-1]["operations"].append(operation_fields(line))
    return transactions


def states_of(report):
    """The items of each object, by its name."""
    return {line.split()[1]: line.split()[2:] for line in report.lines_of("state")}


def zombie_fields(report):
    """The transaction of a zombie, its window, and its operations."""
    _, name, _, _, _, least, _, most = report.lines[1].split()
    return {"transaction": name, "from": int(least), "to": int(most), "operations": [operation_fields(line) for line in report.lines_of("op")]}


def view_fields(line):
    """A line such as "view t1 ops 3 after 1"."""
    _, name, _, operations, _, after = line.split()
    return {"transaction": name, "operations": int(operations), "after": None if after == "none" else int(after)}
