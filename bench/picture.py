#!/usr/bin/env python3
"""The page of a long run in headless Chromium: how long it takes to write, to load, to zoom and to search.

    python3 bench/picture.py crates/pp_cli/out/pp_cli

The run is of style boosted: 20,000 transactions of eight calls each on 16 maps, on eight threads, under a lock of each key
to the end; some of them abort. It has 200,000 lines after its header. The browser is Chromium; a script that is added to
a copy of the page measures itself, and each drawing is waited for.
"""
import html
import json
import os
import pathlib
import random
import re
import subprocess
import sys
import tempfile
import time

from measure import program_named

ROOT = pathlib.Path(__file__).resolve().parent.parent
TRANSACTIONS, CALLS, THREADS, MAPS, KEYS = 20_000, 8, 8, 16, 50
MEASURE = """
const rows = [`load: ${(performance.now() - begun).toFixed(0)} ms`];
function measure(name, times, act) {
  let worst = 0, sum = 0;
  for (let time = 0; time < times; time++) {
    const from = performance.now();
    act(time);
    draw();
    pen.getImageData(0, 0, 1, 1);
    const taken = performance.now() - from;
    worst = Math.max(worst, taken);
    sum += taken;
  }
  rows.push(`${name}: mean ${(sum / times).toFixed(1)} ms, worst ${worst.toFixed(1)} ms`);
}
measure("the whole run", 10, showWhole);
measure("zoom in, a step", 45, () => zoomAt(600, 1.25));
measure("zoom out, a step", 45, () => zoomAt(600, 1 / 1.25));
measure("search for a place", 1, () => { element("search").value = "m3(7)"; runSearch(); });
measure("only what was found", 1, toggleOnly);
measure("all lines again", 1, toggleOnly);
measure("search for a text", 1, () => { element("search").value = "put(7"; runSearch(); });
measure("go to what was found, a step", 20, () => step(1));
document.body.dataset.rows = rows.join("\\n");
"""


class Thread:
    """A thread and its open transaction."""

    def __init__(self, name):
        self.name = name
        self.transaction = None

    def begin(self, number):
        self.transaction, self.left, self.undo, self.locks = f"{self.name}_{number}", CALLS, [], []


class Recorder:
    """Runs the threads in turns of one line each."""

    def __init__(self):
        self.random = random.Random(7)
        self.values, self.locks, self.lines = {}, {}, []
        self.begun = self.calls = 0

    def record(self, transaction, step, **members):
        self.lines.append(json.dumps({"step": step, "tx": transaction, **members}, separators=(",", ":")))

    def turn(self, thread):
        if thread.transaction is None:
            if self.begun < TRANSACTIONS:
                self.begun += 1
                thread.begin(self.begun)
                self.record(thread.transaction, "begin", thread=thread.name)
        elif thread.left:
            self.call(thread, (f"m{self.random.randrange(MAPS)}", self.random.randrange(KEYS)))
        else:
            self.end(thread)

    def call(self, thread, place):
        if self.locks.setdefault(place, thread) is not thread:
            return
        thread.locks.append(place)
        thread.left -= 1
        self.calls += 1
        found = self.values.get(place)
        name, arguments = "get", [place[1]]
        if self.random.random() < 0.4:
            name, arguments = "put", [place[1], self.random.randrange(1000)]
            thread.undo.append((place, found))
            self.values[place] = arguments[1]
        self.record(thread.transaction, "op", id=self.calls, on=place[0], call=name, args=arguments, result=found)

    def end(self, thread):
        aborts = self.random.random() < 0.06
        for place, found in reversed(thread.undo) if aborts else ():
            self.values[place] = found
        self.record(thread.transaction, "abort" if aborts else "commit")
        for place in thread.locks:
            self.locks.pop(place, None)
        thread.transaction = None


def recorded_run():
    """The text of the run."""
    recorder, threads = Recorder(), [Thread(f"p{number}") for number in range(THREADS)]
    objects = [{"name": f"m{number}", "kind": "map"} for number in range(MAPS)]
    while recorder.begun < TRANSACTIONS or any(thread.transaction for thread in threads):
        recorder.turn(recorder.random.choice(threads))
    header = json.dumps({"run": 1, "style": "boosted", "objects": objects})
    return "\n".join([header, *recorder.lines]) + "\n"


def measured(page, folder):
    """What the page measures of itself. Its policy would not let the script run, and is left out."""
    begun = "<script>const begun = performance.now()</script>"
    page = re.sub(r"<meta http-equiv[^>]*>", begun, page).replace("</body>", f"<script>{MEASURE}</script></body>")
    path = pathlib.Path(folder) / "page.html"
    path.write_text(page, encoding="utf-8")
    command = ["chromium", "--headless", "--no-sandbox", "--disable-gpu", "--window-size=1280,800", "--no-first-run",
               f"--user-data-dir={folder}/profile", "--dump-dom", path.as_uri()]
    dom = subprocess.run(command, capture_output=True, check=True).stdout.decode()
    return html.unescape(re.search(r'data-rows="([^"]*)"', dom)[1])


def main():
    program = program_named()
    with tempfile.TemporaryDirectory() as folder:
        path = os.path.join(folder, "run.jsonl")
        with open(path, "w", encoding="utf-8") as out:
            out.write(recorded_run())
        begun = time.perf_counter()
        page = subprocess.run([sys.executable, ROOT / "tools/pozhiqas", "picture", path], capture_output=True, check=True,
                              env={**os.environ, "POZHIQAS": program}).stdout
        print(f"the page is written in {time.perf_counter() - begun:.1f} s and has {len(page) / 1e6:.1f} MB")
        print(measured(page.decode(), folder))


if __name__ == "__main__":
    main()
