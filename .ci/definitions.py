#!/usr/bin/env python3
"""Which definition files the clauses of `run` reach, by the imports, and whether docs/ARCHITECTURE.md lists just these. Each of them says in
its first line that it is to be believed: `-- Meaning:`.

    python3 .ci/definitions.py            fails where the list differs or a file says nothing, and says how
    python3 .ci/definitions.py --write    writes the list anew

A file of definitions is reached where the file of `run`, or a file that is reached, imports it. A type of the code that is imported leads
to what its own view imports: the indented lines `ghost use` of its file.
"""
import pathlib
import re
import sys

ROOT = pathlib.Path(__file__).resolve().parent.parent
ENTRY = ROOT / "crates/pp_run/src/program.rt"
HEADING = "## What the clauses of `run` reach"
MEANING = "-- Meaning:"
# The files of memories, sets and maps import it, and no clause speaks of it: their laws are proved from it.
SHARED_BY_PROOFS = {"pp_kind_keyed/specs/Keys.antt"}
# What the machine asks and answers. No clause speaks of it: of the files of costs and of evidence, which import these, the clauses name what
# speaks of steps, starts and configurations alone.
OF_THE_MACHINE = {"pp_machine/specs/Machines.antt", "pp_machine/specs/Stepping.antt", "pp_machine/src/machine.rt"}
IMPORT = re.compile(r"^(\s*)(?:pub |ghost )*use Rattle\.(pp_\w+)\.specs\.([\w.]+)", re.MULTILINE)


def file_of(crate, path):
    """The longest beginning of a dotted path that names a file of definitions, or the code of a declared type."""
    parts = [part for part in path.split(".") if part]
    folder, ending = (("src", ".rt") if parts[0] == "declared" else ("specs", ".antt"))
    parts = parts[1:] if parts[0] == "declared" else parts
    for end in range(len(parts), 0, -1):
        file = (ROOT / "crates" / crate / folder).joinpath(*parts[:end]).with_suffix(ending)
        if file.is_file():
            return file
    return None


def imports(file):
    """The files that a file imports: of the code of a type only those that its view imports."""
    own_lines = file.suffix == ".antt" or file == ENTRY
    for indent, crate, path in IMPORT.findall(file.read_text()):
        if own_lines or indent:
            yield file_of(crate, path)


def reached():
    done, left = set(), [ENTRY]
    while left:
        file = left.pop()
        if file is not None and file not in done and str(file.relative_to(ROOT / "crates")) not in OF_THE_MACHINE:
            done.add(file)
            left.extend(imports(file))
    return {str(file.relative_to(ROOT / "crates")) for file in done if file.suffix == ".antt"}


def listing(files):
    """A row of a table for each crate."""
    crates = sorted({file.split("/")[0] for file in files})
    row = "| `{}` | {} |".format
    names = {crate: [file.removeprefix(f"{crate}/specs/") for file in sorted(files) if file.startswith(f"{crate}/")] for crate in crates}
    rows = [row(crate, ", ".join(f"`{name}`" for name in names[crate])) for crate in crates]
    return "\n".join(["| Crate | Files of its `specs/` |", "|---|---|", *rows]) + "\n"


def without_meaning(files):
    """The files that do not say that they are to be believed."""
    for file in sorted(files - SHARED_BY_PROOFS):
        if not (ROOT / "crates" / file).read_text().startswith(MEANING):
            yield f"{file} does not begin with `{MEANING}`"


def differences(wanted, write):
    """How the list of ARCHITECTURE.md differs, unless it is written anew."""
    document = ROOT / "docs/ARCHITECTURE.md"
    before, heading, section = document.read_text().partition(HEADING)
    table = re.search(r"(?:\|.*\n)+", section)
    if table is None:
        return [f"ARCHITECTURE.md has no table under {HEADING}"]
    if table[0] == wanted:
        return []
    if write:
        document.write_text(before + heading + section[: table.start()] + wanted + section[table.end() :])
        return []
    told = set(table[0].splitlines())
    return [
        f"{'ARCHITECTURE.md has' if line in told else 'the clauses reach'}: {line}"
        for line in sorted(told ^ set(wanted.splitlines()))
    ]


def main():
    files = reached()
    wrong = [*without_meaning(files), *differences(listing(files), "--write" in sys.argv)]
    for line in wrong:
        print(f"definitions: {line}")
    return int(bool(wrong))


if __name__ == "__main__":
    sys.exit(main())
