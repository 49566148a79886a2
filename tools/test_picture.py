"""Tests of `picture`: the page's text and policy, and the page in headless Chromium.

    python3 -m unittest test_picture        in this folder

The tests in the browser are skipped if there is no Chromium (`apt-get install chromium`) or no built program.
If PICTURE_IMAGES names a folder, the two screenshots are left there.
"""
import html
import io
import json
import os
import pathlib
import random
import re
import shutil
import subprocess
import tempfile
import unittest

import picture
from for_tests import PROGRAM, example, example_names, needs_program, pozhiqas, run_bytes
from random_runs import random_run
from recorded_run import STYLES, read_run
from why import why

ACCEPTED, REJECTED = "optimistic_memory.jsonl", "rejected_optimistic_update.jsonl"
BROWSER = next((name for name in ("chromium", "chromium-browser", "google-chrome") if shutil.which(name)), None)
SIZE = 1280, 560
SECONDS = 120
# What a browser does at its first start, and need not do here.
QUIET = ("--no-first-run", "--disable-extensions", "--disable-background-networking", "--disable-component-update",
         "--disable-sync", "--disable-default-apps")


def page_of(data, title="run.jsonl"):
    """The page of a run, which is bytes."""
    explained = why(PROGRAM, data)
    out = io.StringIO()
    run = read_run(data) if explained.case is None else explained.case.run
    picture.write_page(run, explained, out, title)
    return out.getvalue()


def data_in(page):
    """What the page's code reads."""
    return json.loads(re.search(r'<script type="application/json" id="run">(.*?)</script>', page, re.DOTALL)[1])


@needs_program
class PageText(unittest.TestCase):
    def test_verdict_is_the_programs_line(self):
        for name in (ACCEPTED, REJECTED):
            data = example(name)
            answer = subprocess.run([PROGRAM, "certify"], input=data, capture_output=True, check=False).stdout.decode()
            page = page_of(data)
            self.assertIn(f'<h1 id="verdict">{html.escape(answer.splitlines()[0])}</h1>', page)
            self.assertEqual(data_in(page)["report"], answer.splitlines())

    def test_every_example_has_a_page(self):
        for name in example_names("*.jsonl"):
            with self.subTest(name):
                self.check_data(example(name))

    def test_random_runs_have_pages(self):
        for style in STYLES:
            for seed in range(12):
                with self.subTest(style=style, seed=seed):
                    records = random_run(random.Random(seed), style)
                    self.check_data("".join(json.dumps(record) + "\n" for record in records).encode())

    def check_data(self, run):
        """Each column is of one length, and each number in it is of something that is there."""
        report = why(PROGRAM, run).report
        if report.verdict == "fault":
            return
        data = data_in(page_of(run))
        self.assertEqual(data["failure"] is not None, report.verdict == "rejected")
        count, of_attempts = len(data["marks"]["line"]), len(data["attempts"]["end"])
        bounds = {"attempt": of_attempts, "step": len(data["steps"]), "text": len(data["texts"]), "place": len(data["places"]),
                  "about": count, "source": count, "gone": count}
        for name, bound in bounds.items():
            self.assertEqual(len(data["marks"][name]), count)
            self.assertTrue(all(-1 <= number < bound for number in data["marks"][name]), name)
        self.assertEqual({len(column) for column in data["attempts"].values()}, {of_attempts})
        self.assertTrue(all(lane in range(len(data["lanes"])) for lane in data["attempts"]["lane"]))
        self.assertEqual(data["marks"]["line"], sorted(data["marks"]["line"]))

    def test_command(self):
        output, errors, status = pozhiqas("picture", "-", stdin=example(ACCEPTED))
        self.assertEqual((output, errors, status), (page_of(example(ACCEPTED), "standard input"), "", 0))

    def test_title_is_text(self):
        title = '</title></script><script>alert("1")</script>&amp;\udcff'
        page = page_of(example(ACCEPTED), title)
        self.assertNotIn("<script>alert", page)
        self.assertIn(html.escape(title[:-1]), page)
        self.assertEqual(data_in(page)["title"], title[:-1] + "\ufffd")

    def test_page_reaches_for_nothing(self):
        page = page_of(example(REJECTED))
        self.assertNotRegex(page, r"https?:|\bsrc=|<link|@import|url\(")
        policy = re.search(r'http-equiv="Content-Security-Policy" content="([^"]*)"', page)[1]
        self.assertIn("default-src 'none'", policy)
        scripts = re.findall(r"<script>(.*?)</script>", page, re.DOTALL)
        self.assertEqual(len(scripts), len(picture.SCRIPTS))
        for script in scripts:
            self.assertIn(picture.digest(script), policy)

    def test_sources_and_ends(self):
        data = data_in(page_of(example(ACCEPTED)))
        self.assertEqual(data["attempts"]["end"], ["committed", "committed", "undone", "committed"])
        self.assertEqual(data["attempts"]["order"], [1, 2, 0, 3])
        by_line = dict(zip(data["marks"]["line"], data["marks"]["source"]))
        line_of = lambda mark: data["marks"]["line"][mark]
        self.assertEqual([line_of(by_line[line]) for line in (4, 5, 10)], [1, 1, 6])

    def test_evidence(self):
        failure = data_in(page_of(example(REJECTED)))["failure"]
        marks = data_in(page_of(example(REJECTED)))["marks"]["line"]
        self.assertEqual((failure["line"], failure["criterion"], failure["gives"]), (9, "PUSH 5", "110"))
        self.assertEqual([marks[failure[name]] for name in ("mark", "entry", "recorded", "right")], [9, 5, 1, 6])

    def test_threads_share_lanes_if_there_are_many(self):
        records = [f"{step} t{number}{thread}" for number in range(200)
                   for step, thread in (("begin", f" p{number}"), ("commit", ""))]
        self.assertEqual(data_in(page_of(run_bytes("boosted", "c:counter", records)))["lanes"], ["row 1"])

    def test_threads_are_in_the_order_of_their_numbers(self):
        records = [f"begin t{number} p{number}" for number in (10, 2, 1)]
        self.assertEqual(data_in(page_of(run_bytes("boosted", "c:counter", records)))["lanes"], ["p1", "p2", "p10"])

    def test_record_of_a_transaction_that_is_not_open(self):
        data = data_in(page_of(run_bytes("boosted", "c:counter", ["begin t1 p1", "commit t2"])))
        self.assertEqual((data["attempts"]["end"], data["lanes"]), (["open", "not open"], ["(no thread)", "p1"]))

    def test_run_with_too_many_steps(self):
        records = [text for number in range(650)
                   for text in (f"begin t{number} p1", f"op t{number} {number} c.add(1)=none", f"commit t{number}")]
        page = page_of(run_bytes("boosted", "c:counter", records))
        self.assertIn('<h1 id="verdict">accepted steps 213525 committed 650</h1>', page)
        page = page_of(run_bytes("boosted", "c:counter", [*records, "begin last p1", "op last 650 c.get()=3"]))
        self.assertIn('<h1 id="verdict">rejected step 214177 line 1953 APP 4</h1>', page)
        failure = data_in(page)["failure"]
        self.assertEqual((failure["gives"], failure["criterion"]), ("650", "APP 4"))
        marks = data_in(page)["marks"]["line"]
        self.assertEqual([marks[failure[name]] for name in ("entry", "right")], [1953, 1950])
        page = page_of(run_bytes("optimistic", "c:counter", records))
        self.assertIn('<h1 id="verdict">accepted steps 213525 committed 650</h1>', page)
        page = page_of(run_bytes("hardware", "c:counter", records))
        self.assertIn('<h1 id="verdict">accepted steps 213525 committed 650</h1>', page)
        page = page_of(run_bytes("hardware", "c:counter", [*records, "begin last p1", "op last 650 c.get()=3"]))
        self.assertIn('<h1 id="verdict">rejected step 214177 line 1953 APP 4</h1>', page)
        self.assertIn("too many to explain", data_in(page)["failure"]["rows"][-1]["text"])

    def test_header_alone(self):
        self.assertEqual(data_in(page_of(run_bytes("boosted", "m:map", [])))["marks"]["line"], [])


@needs_program
@unittest.skipIf(BROWSER is None, "no Chromium: apt-get install chromium")
class InBrowser(unittest.TestCase):
    def setUp(self):
        folder = tempfile.TemporaryDirectory()
        self.addCleanup(folder.cleanup)
        self.folder = pathlib.Path(folder.name)

    def dom(self, page, image=None):
        """The document that the browser makes of a page. A screenshot is left under the image's name."""
        path = self.folder / "page.html"
        path.write_text(page, encoding="utf-8")
        screenshot = [] if image is None else [f"--screenshot={self.folder / image}"]
        command = [BROWSER, "--headless", "--no-sandbox", "--disable-gpu", "--hide-scrollbars", *QUIET,
                   f"--window-size={SIZE[0]},{SIZE[1]}", f"--user-data-dir={self.folder / 'profile'}", *screenshot,
                   "--dump-dom", path.as_uri()]
        return subprocess.run(command, capture_output=True, check=True, timeout=SECONDS).stdout.decode()

    def answers(self, page, *questions):
        """What expressions are in the page, as texts. The page's own policy would not let them run, and is left out."""
        asked = ",".join(f"String({question})" for question in questions)
        script = f"<script>document.body.dataset.answers = JSON.stringify([{asked}])</script></body>"
        open_page = re.sub(r"<meta http-equiv[^>]*>", "", page).replace("</body>", script)
        return json.loads(html.unescape(re.search(r'data-answers="([^"]*)"', self.dom(open_page))[1]))

    def check_screenshot(self, image):
        content = (self.folder / image).read_bytes()
        self.assertEqual(content[:8], b"\x89PNG\r\n\x1a\n")
        self.assertEqual(tuple(int.from_bytes(content[at:at + 4], "big") for at in (16, 20)), SIZE)
        if os.environ.get("PICTURE_IMAGES"):
            shutil.copy(self.folder / image, os.environ["PICTURE_IMAGES"])

    def text_of(self, dom, name):
        """The text of the element with an id, without its tags."""
        part = re.search(rf'<(\w+)[^>]* id="{name}".*?</\1>|<(\w+) id="{name}".*?</\2>', dom, re.DOTALL)[0]
        return html.unescape(re.sub(r"<[^>]*>", " ", part))

    def test_accepted(self):
        dom = self.dom(page_of(example(ACCEPTED), ACCEPTED), "accepted.png")
        self.assertIn('data-lines="12"', dom)
        self.assertIn("accepted steps 23 committed 3", self.text_of(dom, "verdict"))
        self.assertRegex(dom, r'<article id="failure" hidden')
        self.check_screenshot("accepted.png")

    def test_rejected(self):
        dom = self.dom(page_of(example(REJECTED), REJECTED), "rejected.png")
        self.assertIn("rejected step 12 line 9 PUSH 5", self.text_of(dom, "verdict"))
        failing = self.text_of(dom, "failure")
        self.assertRegex(failing, r"line 9: commit\s+of t2")
        self.assertRegex(failing, r"100 \(recorded\) was written by t0 in the start")
        self.assertRegex(failing, r"110 \(right\)\s+was written by t1 on line 6")
        self.check_screenshot("rejected.png")

    def test_search_keys_and_lanes(self):
        page = page_of(example(REJECTED))
        colours = "(() => { draw(); const at = pen.getImageData(xOf(failure.mark) - 5, barOf(rowOf(failure.mark)).y + 9, 1, 1)" \
                  ".data; return [...at].join(); })()"
        press = lambda key: f'timeline.dispatchEvent(new KeyboardEvent("keydown", {{key: "{key}", bubbles: true}}))'
        after = lambda key: f"({press(key)}, titleOf(state.selected))"
        found = lambda query: f'search("{query}").map(mark => marks.line[mark])'
        self.assertEqual(self.answers(
            page, "view.lanes.map(lane => lane.name)", colours, found("9"), found("t1"), found("m(1)"), found("write(1,105)"),
            found("line:7"), found("on:m"), found("nothing"), after("ArrowLeft"), after("ArrowLeft"), after("Enter"),
            'element("tip").hidden',
            '(element("search").value = "t1", runSearch(), toggleOnly(), view.count)', "(toggleOnly(), view.count)",
        ), [
            "(start),p1,p2", "184,18,60,255", "9", "2,4,6,8", "1,4,5,6,7", "7", "7", "1,4,5,6,7", "",
            "line 7: m.write(1,105)=none", "line 5: m.read(1)=100", "line 1: m.write(1,100)=none", "false", "4", "9",
        ])

    def test_markup_in_a_title_does_nothing(self):
        dom = self.dom(page_of(example(ACCEPTED), "<img src=x onerror=alert(1)>.jsonl"))
        self.assertNotIn("<img", dom)
        self.assertIn("&lt;img src=x onerror=alert(1)&gt;.jsonl", dom)


if __name__ == "__main__":
    unittest.main()
