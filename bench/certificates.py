#!/usr/bin/env python3
"""A certificate of 1,000,000 exchanges: `swaps` beside `certify`, and `recheck` beside reading the certificate.

    python3 bench/certificates.py crates/pp_cli/out/pp_cli

Of 20,000 transactions that each add once, two hundred stand open at a time. They push in turn, and the second
hundred commit before the first, so that each of the one changes places with each of the other. `recheck` stops at
the first line that it refuses; so the lines of the certificate are read by `certify`, in which each entry is made
a record and the exchanges a member that is not known, behind a step that fails.
"""
import json
import os
import subprocess
import tempfile

from measure import FAILING, answered, app, begin, cmt, header, named, program_named, write

COUNT = 20_000
HALF = 100
EXCHANGES = COUNT // (2 * HALF) * HALF * HALF


def run():
    records = [header("counter")]
    for first in range(0, COUNT, 2 * HALF):
        numbers = range(first, first + 2 * HALF)
        records += [begin(f"t{number}", f"p{number}") for number in numbers]
        records += [app(f"t{number}", number, "add", [number % 3 + 1]) for number in numbers]
        records += [named("push", f"t{number}", number) for number in numbers]
        records += [cmt(f"t{number}") for number in [*numbers[HALF:], *numbers[:HALF]]]
    return records


def as_records(certificate):
    """A run of as many lines, none of which is tried."""
    for line in certificate[1:-1]:
        value = json.loads(line)
        yield {"step": "note" if "swaps" in value else "app", "tx": "t0", **value}


def measure(program, folder):
    path, written, read = (os.path.join(folder, name) for name in ("run.jsonl", "certificate.jsonl", "read.jsonl"))
    records = run()
    write(path, records)
    certified = answered(program, "certify", path, f"accepted steps {len(records) - 1} committed {COUNT}")
    certificate = subprocess.run([program, "swaps"], stdin=open(path, "rb"), capture_output=True, check=True).stdout
    lines = certificate.splitlines(keepends=True)
    swapped = answered(program, "swaps", path, lines[0].decode().rstrip())
    print(f"{COUNT} transactions, {EXCHANGES} exchanges: swaps {swapped:.2f} s, certify {certified:.2f} s, "
          f"ratio {swapped / certified:.2f}", flush=True)
    with open(written, "wb") as out:
        out.write(certificate)
    write(read, [records[0], FAILING, *as_records(lines)])
    checked = answered(program, "recheck", written, f"holds operations {COUNT} swaps {EXCHANGES} serial {COUNT}")
    only_read = answered(program, "certify", read, "rejected step 1 line 2 CMT 1")
    print(f"{len(lines)} lines: recheck {checked:.2f} s, only read {only_read:.2f} s, ratio {checked / only_read:.2f}",
          flush=True)


def main():
    with tempfile.TemporaryDirectory() as folder:
        measure(program_named(), folder)


if __name__ == "__main__":
    main()
