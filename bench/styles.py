#!/usr/bin/env python3
"""Runs of the styles `boosted` and `optimistic` whose transactions pull all that was committed before.

    python3 bench/styles.py crates/pp_cli/out/pp_cli

Each transaction adds to one counter and commits, so that the transaction of number j pulls j - 1 entries: 627
transactions make some 199,000 steps. Beside the time of `certify` on the records stand the time of only reading
them and that of `certify` on the steps that `expand` writes for them; the ratio is to both of these together.
"""
import os
import subprocess
import sys
import tempfile

from measure import begin, program_named, seconds, write

COUNT = 627


def header(style):
    return {"run": 1, "style": style, "objects": [{"name": "c", "kind": "counter"}]}


def records(style, count):
    run = []
    for j in range(1, count + 1):
        tx = f"t{j}"
        run.append(begin(tx))
        if style == "optimistic":
            run.append({"step": "refresh", "tx": tx, "on": "c"})
        run.append({"step": "op", "tx": tx, "id": j, "on": "c", "call": "add", "args": [1], "result": None})
        run.append({"step": "commit", "tx": tx})
    return run


def certified(program, path, wanted):
    took, first = seconds([program, "certify"], path)
    if not first.startswith(wanted):
        sys.exit(f"bench: {first!r} in place of {wanted!r}")
    return took


def measure(program, style, folder):
    """Prints the time of a run of this style, and its ratio to reading it and certifying its steps."""
    path, steps, read = (os.path.join(folder, name) for name in ("run.jsonl", "steps.jsonl", "read.jsonl"))
    run = records(style, COUNT)
    write(path, [header(style), *run])
    # a step that fails stands first, so that the records behind it are only read
    write(read, [header(style), {"step": "commit", "tx": "none"}, *run[:-1]])
    with open(path, "rb") as source, open(steps, "wb") as out:
        subprocess.run([program, "expand"], stdin=source, stdout=out, check=True)
    wanted = "accepted steps "
    whole, expanded = certified(program, path, wanted), certified(program, steps, wanted)
    only_read = certified(program, read, "rejected step 1 line 2 ")
    ratio = whole / (only_read + expanded)
    with open(steps, "rb") as lines:
        count = sum(1 for _ in lines) - 1
    print(f"{style}, {count} steps: {whole:.2f} s, only read {only_read:.2f} s, its steps {expanded:.2f} s, "
          f"ratio {ratio:.2f}", flush=True)


def main():
    program = program_named()
    with tempfile.TemporaryDirectory() as folder:
        for style in ("boosted", "optimistic"):
            measure(program, style, folder)


if __name__ == "__main__":
    main()
