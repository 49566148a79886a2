#!/usr/bin/env python3
"""`drill 20000` beside `certify` on the same run, as a file.

    python3 bench/drill.py crates/pp_cli/out/pp_cli
"""
import os
import tempfile

from measure import answered, program_named, write
from pairs import COUNT, run


def main():
    program, records = program_named(), run(COUNT)
    with tempfile.TemporaryDirectory() as folder:
        path = os.path.join(folder, "run.jsonl")
        write(path, records)
        certified = answered(program, "certify", path, f"accepted steps {len(records) - 1} committed {COUNT}")
        drilled = answered(program, f"drill {COUNT}", path, f"drill {COUNT}")
    print(f"drill {COUNT}, {len(records) - 1} steps: {drilled:.2f} s, certify {certified:.2f} s, "
          f"ratio {drilled / certified:.2f}")


if __name__ == "__main__":
    main()
