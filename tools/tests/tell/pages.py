"""The page of a trace: every line of the trace is on it, and no browser scrolls sideways."""

import html
import html.parser
import os
import re
import shutil
import subprocess
import tempfile

from telling.lines import tell_moments
from telling.page import page
from telling.trace import read_trace
from tests.looking import TOP, Skipped, holds, same

FULL_SESSION = TOP / "examples/full-session/trace.txt"
BROWSERS = ("chromium", "chromium-browser", "google-chrome", "chrome")
SECONDS = 60
WIDTHS = (1280, 400)
# The page in a frame of each width, because a window has a least width of its own; and then the width of each frame, and how much
# wider what is in it is than what can be seen of it.
FRAME = '<iframe width="{}" height="900" style="border: 0" srcdoc="{}"></iframe>'
MEASURE = """<script>
  function measured(frame) {
    const found = frame.contentDocument.documentElement
    return [frame.clientWidth, found.scrollWidth - found.clientWidth]
  }
  onload = () => { document.body.dataset.measured = [...document.querySelectorAll("iframe")].map(measured).join() }
</script>"""


class Lines(html.parser.HTMLParser):
    """Gathers the texts of the elements `<code class=\"line\">`, and the tags that do not close."""

    def __init__(self):
        super().__init__()
        self.lines, self.open, self.inside, self.wrong = [], [], False, []

    def handle_starttag(self, tag, attributes):
        if tag not in ("meta", "link"):
            self.open.append(tag)
        if (tag, dict(attributes).get("class")) == ("code", "line"):
            self.lines.append("")
            self.inside = True

    def handle_endtag(self, tag):
        if not self.open or self.open.pop() != tag:
            self.wrong.append(tag)
        self.inside = False

    def handle_data(self, data):
        if self.inside:
            self.lines[-1] += data


def page_of(path):
    return page(path.name, list(tell_moments(read_trace(path.read_text()))))


def test_lines_on_the_page():
    for path in sorted((TOP / "examples").glob("*/trace.txt")):
        found = Lines()
        text = page_of(path)
        found.feed(text)
        name = path.parent.name
        yield f"{name}, lines", same(path.read_text().splitlines(), found.lines)
        yield f"{name}, tags", same(([], []), (found.wrong, found.open))
        other = re.search(r'(?:src|href)="(?!#)|@import|url\(', text)
        yield f"{name}, alone", holds(not other, "it names another file")


def test_the_timeline():
    """A mark for each moment, which leads to its article."""
    text = page_of(FULL_SESSION)
    marks = re.findall(r'<a class="(\w+)" href="#(m\d+)"', text)
    yield "places", same(re.findall(r'<article id="(m\d+)"', text), [place for _, place in marks])
    yield "outcomes", same(["power", *["done"] * 21, "power"], [outcome for outcome, _ in marks])


def test_text_is_escaped():
    text = page("<b>&", [])
    yield "the title", holds("<b>" not in text and "&lt;b&gt;&amp;" in text, "it is not escaped")


def browser():
    found = next((shutil.which(name) for name in BROWSERS if shutil.which(name)), None)
    if found is None:
        raise Skipped(f"no browser ({', '.join(BROWSERS)}): the widths of the page are not looked at")
    return found


def measured(program, text):
    """The width of each frame, and how much wider the page in it is than what can be seen of it."""
    with tempfile.TemporaryDirectory() as scratch:
        file = os.path.join(scratch, "frames.html")
        with open(file, "w") as frames:
            frames.write("<!doctype html><body>")
            frames.writelines(FRAME.format(width, html.escape(text)) for width in WIDTHS)
            frames.write(MEASURE)
        words = [program, "--headless", "--no-sandbox", "--disable-gpu", "--dump-dom", f"file://{file}"]
        ran = subprocess.run(words, stdout=subprocess.PIPE, stderr=subprocess.DEVNULL, timeout=SECONDS)
    printed = ran.stdout.decode()
    found = re.search(r'data-measured="([\d,-]*)"', printed)
    return found and list(map(int, found[1].split(",")))


def test_no_sideways_scrolling():
    program = browser()
    text = page_of(FULL_SESSION)
    yield "nothing is cut off", same(None, re.search(r"overflow(-x)?:", text))
    # All bytes are unfolded: so the page is as wide as it can be.
    wide = text.replace("<details>", "<details open>")
    yield f"{WIDTHS} pixels", same([value for width in WIDTHS for value in (width, 0)], measured(program, wide))
    wider = wide.replace("</main>", '<p style="width: 1500px">wider</p></main>')
    yield "a page that is wider is told", holds(all(measured(program, wider)[1::2]), "it is not")
