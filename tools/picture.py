"""Draws a recorded run as one self-contained HTML page.

    picture.write_page(run, why, out, title="race.jsonl")

`run` is a Run, and `why` is what the module why says of it. `out` is a text file. The page shows the program's verdict
line word for word. It reaches for nothing outside itself, and its security policy lets no other script run than its
own. All that comes from the run is text in it, and never markup.

The page's parts are the files of picture_page/. What they read is the value of `page_data`.
"""
import base64
import hashlib
import html
import json
import pathlib
import re

from picture_marks import Marks

PARTS = pathlib.Path(__file__).resolve().parent / "picture_page"
SCRIPTS = ("model.js", "view.js", "draw.js", "arrows.js", "axis.js", "overview.js", "page.js",
           "input.js")
# More lines of a report than these are not shown.
MOST_REPORT_LINES = 400


def write_page(run, why, out, title="run"):
    """Writes the page of a run."""
    title = title.encode("utf-8", "surrogateescape").decode("utf-8", "replace")
    data = page_data(run, why, title)
    style, scripts = part("page.css"), [part(name) for name in SCRIPTS]
    parts = {
        "policy": policy(style, scripts),
        "title": html.escape(title),
        "verdict": html.escape(why.report.verdict_line),
        "state": why.report.verdict or "other",
        "style_name": html.escape(run.style),
        "style": style,
        "data": script_text(data),
        "scripts": "\n".join(f"<script>{script}</script>" for script in scripts),
    }
    out.write(re.sub(r"{{(\w+)}}", lambda slot: parts[slot[1]], part("page.html")))


def part(name):
    return (PARTS / name).read_text(encoding="utf-8")


def policy(style, scripts):
    """A security policy that allows just this style and these scripts, and no request at all."""
    return (f"default-src 'none'; style-src {digest(style)}; base-uri 'none'; form-action 'none'; "
            f"script-src {' '.join(map(digest, scripts))}")


def digest(text):
    return f"'sha256-{base64.b64encode(hashlib.sha256(text.encode()).digest()).decode()}'"


def script_text(data):
    """JSON that can be put into a script element: no character in it can end the element or begin a comment."""
    text = json.dumps(data, separators=(",", ":"))
    return text.replace("<", "\\u003c").replace(">", "\\u003e").replace("&", "\\u0026")


def page_data(run, why, title):
    """All that the page's code reads, as a value for JSON."""
    report = why.report
    is_rejected = report.verdict == "rejected"
    marks = Marks(run, report.line if is_rejected else None)
    return {
        "title": title,
        "report": report.lines[:MOST_REPORT_LINES],
        "reportLines": len(report.lines),
        "style": run.style,
        "objects": list(run.objects),
        "marks": marks.columns,
        "attempts": marks.attempt_columns(),
        "lanes": marks.lanes,
        "steps": marks.steps.names,
        "texts": marks.texts.names,
        "places": marks.places.names,
        "transactions": marks.transactions.names,
        "threads": marks.threads.names,
        "failure": failure(run, why, marks) if is_rejected else None,
        "words": [] if is_rejected or report.verdict == "accepted" else [why.words, *why.lines],
    }


def failure(run, why, marks):
    """The rejected step, what explains it, and the marks of the calls that the explanation is about."""
    report, case, explained = why.report, why.case, why.explanation
    shown = {"line": report.line, "mark": marks.mark_of_line.get(report.line, -1), "criterion": "", "gives": "",
             "call": -1, "entry": -1, "recorded": -1, "right": -1, "words": why.words,
             "rows": [{"text": line, "mark": -1} for line in why.lines]}
    if case is None:
        return shown
    shown.update(call=marks.of_call(case.call), entry=marks.of_call(case.entry),
                 recorded=marks.of_call(explained.recorded_by), right=marks.of_call(explained.right_by))
    shown["criterion"] = " ".join(map(str, case.criterion))
    if case.evidence is not None and case.evidence.gives is not None:
        shown["gives"] = case.evidence.gives
    for row, calls in zip(shown["rows"][len(why.lines) - len(explained.lines):], explained.calls):
        row["mark"] = marks.of_call(calls[-1] if calls else None)
    if report.line == run.header_line:
        shown["mark"] = shown["entry"]
    return shown
