#!/usr/bin/env python3
"""Quick looks at the text of the repository: how wide clauses and definitions are, whether the edits and links that the documents name exist,
whether the documents are in plain English, and what no file should name.

Plain English here means: README has at most 150 lines, and a sentence has at most 25 words and begins with its subject. Tables, headings and
code have no sentences. No text but code has a word of the list below.
"""
import pathlib
import re
import subprocess
import sys

ROOT = pathlib.Path(__file__).resolve().parent.parent
COLUMNS = 100
# Crates with lines that are still wider. The list shrinks as they are laid out anew.
WIDE = ("pp_core",)
# The rows of the tests are data, of any width.
ROWS = "tests"
IMAGES = (".png",)
OUTSIDE = re.compile(r"\b[TDRWP]\d{1,2}\b|/(?:work|opt|home|root|tmp)/|\bthe papers\b")

README_LINES = 150
SENTENCE_WORDS = 25
# A word that the documents avoid, and the word for it.
AVOIDED = {
    r"\b(?:behind|in front of)\b": "after, before, past",
    r"\b(?:stands?|stood|standing)\b": "is, means",
    r"\b(?:tells?|told)\b": "reports, prints, says",
    r"\bgives\b(?! up)": "returns, has",
    r"\banswer(?:s|ed)\b": "returns",
    r"\bwant of memory\b|\bmemory (?:is|was) refused\b": "out of memory",
    r"\bdear(?:er|est)?\b": "expensive, slow",
    r"\b(?:is|are) known to\b|\bholds? of\b": "the plain statement",
    r"\bow(?:e|es|ed)\b": "requirement, condition",
    r"\b(?:words of the command line|source and (?:a |the )?sink)\b": "arguments, standard input and output",
    r"\b(?:a|an|each|every|one|no|that|this|the|its) (?:try|peak)\b|\bpeaks\b": "attempt",
    r"\b(?:lets?|give|gives) (?:pass|way)\b": "commutes with, may move past",
    r"\bfalse steps?\b": "a step that violates a criterion",
    r"\bcarr(?:y|ies|ied) out\b": "remove",
}
LATE_SUBJECT = re.compile(r"(?:Of (?:an?|each|the)|Where|What|That (?:an?|the|no|each|it)) ")
SENTENCE_END = re.compile(r"(?<=[.?!])[)*_\"]* +")


def narrow_files():
    """The code, the clauses and the definitions of all other crates."""
    for folder in sorted((ROOT / "crates").iterdir()):
        if folder.name not in WIDE:
            yield from (file for file in sorted(folder.glob("src/**/*.rt")) if ROWS not in file.parts)
            yield from sorted(folder.glob("specs/**/*.antt"))


def too_wide(file):
    for number, line in enumerate(file.read_text().splitlines(), 1):
        if len(line) > COLUMNS and not re.match(r"\s*((ghost |pub )*use |//|--|#\[tactic\()", line):
            yield f"{file.relative_to(ROOT)}:{number}: {len(line)} columns"


def lost_edits():
    """The edits that the last column of a table of PROOFS.md names, and that no crate has."""
    there = {file.stem for file in ROOT.glob("crates/*/must-fail/*.edit")}
    for line in (ROOT / "docs/PROOFS.md").read_text().splitlines():
        cells = line.split("|")
        named = re.findall(r"`(\w+_\w+)`", cells[3]) if len(cells) == 5 else []
        yield from (f"docs/PROOFS.md: no edit {name}" for name in named if name not in there and not name.startswith("pp_"))


def is_text(file):
    return file.is_file() and file.suffix not in IMAGES


def outside(file):
    """Lines that name a place of some machine, or a document that the repository does not have."""
    for number, line in enumerate(file.read_text().splitlines(), 1):
        found = OUTSIDE.search(line)
        if found:
            yield f"{file.relative_to(ROOT)}:{number}: {found[0]}"


def documents():
    return [ROOT / "README.md", ROOT / "CHANGELOG.md", *sorted((ROOT / "docs").glob("*.md"))]


def prose(document):
    """The paragraphs, list items, headings and table rows of a document, each with the number of its first line. Blocks of code are left out."""
    text = re.sub(r"<!--.*?-->", "", document.read_text(), flags=re.DOTALL)
    block, begin, fenced = [], 0, False
    for number, line in enumerate([*text.splitlines(), ""], 1):
        fence = line.startswith("```")
        apart = re.match(r"\s*(?:[-*] |\d+\. |\||#|$)", line)
        if block and (apart or fence or fenced):
            yield begin, " ".join(block)
            block = []
        fenced ^= fence
        if line.strip() and not fence and not fenced and (block or not line.startswith("    ")):
            begin = begin if block else number
            line = re.sub(r"^\s*(?:[-*]|\d+\.) ", "", line)
            block.append(line.strip())


def plain(block):
    """A paragraph without its marks: inline code is one word, and a link its text."""
    return re.sub(r"\[([^]]*)\]\([^)]*\)", r"\1", re.sub(r"`[^`]*`", "`code`", block)).replace("**", "")


def unclear(document):
    """Sentences that are too long or begin with anything but their subject, and words that the documents avoid."""
    name = document.relative_to(ROOT)
    for number, block in prose(document):
        text = plain(block)
        for word, better in AVOIDED.items():
            for found in re.finditer(word, text, re.IGNORECASE):
                yield f"{name}:{number}: {found[0]!r}: say {better}"
        if block.startswith(("|", "#")):
            continue
        for sentence in SENTENCE_END.split(text):
            length = len(re.findall(r"\S*\w\S*", sentence))
            if length > SENTENCE_WORDS:
                yield f"{name}:{number}: {length} words: {sentence[:60]}"
            if LATE_SUBJECT.match(sentence):
                yield f"{name}:{number}: the subject comes late: {sentence[:60]}"


def anchors(document):
    """The names by which links reach the headings of a document."""
    for heading in re.findall(r"^#+ (.*)$", document.read_text(), re.MULTILINE):
        yield re.sub(r"[^\w\- ]", "", heading.lower()).replace(" ", "-")


def broken_links(document):
    for target, anchor in re.findall(r"\]\(([^)#:\s]*)(?:#([^)]*))?\)", document.read_text()):
        file = (document.parent / target).resolve() if target else document
        if not file.exists() or anchor and anchor not in anchors(file):
            yield f"{document.relative_to(ROOT)}: no {target}{'#' * bool(anchor)}{anchor}"


def unclear_documents():
    lines = len((ROOT / "README.md").read_text().splitlines())
    if lines > README_LINES:
        yield f"README.md: {lines} lines, and not {README_LINES} at most"
    for document in documents():
        yield from broken_links(document)
        yield from unclear(document)


def main():
    listed = subprocess.run(["git", "ls-files", "-z"], cwd=ROOT, capture_output=True, check=True)
    files = [ROOT / name for name in listed.stdout.decode().split("\0") if name]
    own = pathlib.Path(__file__).resolve()
    wrong = [line for file in narrow_files() for line in too_wide(file)]
    wrong += lost_edits()
    wrong += [line for file in files if is_text(file) and file != own for line in outside(file)]
    wrong += unclear_documents()
    for line in wrong:
        print(f"words: {line}")
    return int(bool(wrong))


if __name__ == "__main__":
    sys.exit(main())
