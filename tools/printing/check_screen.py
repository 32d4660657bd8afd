"""Checks the set of HTML pages: its links by reading the files, its pictures and widths by opening the pages in headless Chromium."""
import html
import json
import math
import re
import shutil
import subprocess
from html.parser import HTMLParser
from string import Template
from urllib.parse import unquote

import pages
import sheet
from screen import OUTSIDE

FOUND = re.compile(r'<script type="application/json" id="found">(.*?)</script>', re.DOTALL)

# The widths of the screens, in CSS pixels, on which the pages are opened.
WIDE, NARROW = 1200, 400


class Links(HTMLParser):
    """The links and the anchors of a page."""

    def __init__(self):
        super().__init__()
        self.links = []
        self.anchors = set()

    def handle_starttag(self, tag, attrs):
        values = dict(attrs)
        if values.get("id"):
            self.anchors.add(values["id"])
        for name in ("href", "src"):
            if values.get(name):
                self.links.append(values[name])


def check(made, work):
    """What is wrong with the set, a line for each."""
    return dead_links(made) + opened(made, work)


def dead_links(made):
    """The links that lead to no file of the set, or to no anchor in it."""
    made = made.resolve()
    read = {path: read_links(path) for path in sorted(made.rglob("*.html"))}
    links = [(path, link) for path, page in read.items() for link in page.links if not OUTSIDE.match(link)]
    return [f"{path.relative_to(made)}: dead link: {link}" for path, link in links if is_dead(link, path, read, made)]


def read_links(path):
    page = Links()
    page.feed(path.read_text(encoding="utf-8"))
    return page


def is_dead(link, path, read, made):
    target, _, anchor = link.partition("#")
    target = (path.parent / unquote(target)).resolve() if target else path
    if not target.is_file() or made not in target.parents:
        return True
    return anchor != "" and (target not in read or unquote(anchor) not in read[target].anchors)


def opened(made, work):
    """What Chromium finds: pictures that are missing, what is too wide, and letters that are too small in print."""
    names = sorted(path.name for path in made.glob("*.html"))
    pictures = sorted(path.name for path in made.glob("*.svg"))
    frames = [frame("wide", name, made / name, WIDE) for name in names] + [frame("narrow", name, made / name, NARROW) for name in names]
    frames += [frame("drawing", name, made / name, WIDE) for name in pictures]
    frames.append(frame("paper", "book.pdf", work / "paper.html", sheet.pixels(sheet.TEXT_WIDTH)))
    harness = work / "measure.html"
    harness.write_text(Template(pages.template("measure.html")).substitute(frames="\n".join(frames)), encoding="utf-8")
    found = run(harness, work)
    wrong = [f"{name}: {what}: {where}" for name, what, where in found if what not in ("letters", "printed")]
    return wrong + small_letters(found)


def frame(kind, name, path, width):
    return f'<iframe class="{kind}" data-name="{html.escape(name)}" src="{path.as_uri()}" style="border: 0; width: {width}px; height: 900px"></iframe>'


def run(harness, work):
    """Opens the page that measures the others, and reads what it writes into itself."""
    profile = work / "chromium"
    done = subprocess.run(
        ["chromium", "--headless", "--no-sandbox", "--disable-gpu", "--allow-file-access-from-files", f"--user-data-dir={profile}",
         f"--window-size={WIDE},900", "--virtual-time-budget=30000", "--dump-dom", harness.as_uri()],
        check=False, capture_output=True, text=True, encoding="utf-8")
    shutil.rmtree(profile, ignore_errors=True)
    result = FOUND.search(done.stdout)
    if result is None:
        raise pages.Wrong("chromium: the pages could not be measured: " + done.stderr.strip()[-500:])
    return json.loads(result.group(1))


def small_letters(found):
    """The pictures with letters below the least size, as they are printed."""
    letters = {name: size for name, what, size in found if what == "letters"}
    wrong = []
    for name, what, where in found:
        if what == "printed":
            picture = where[0].rsplit("/", 1)[-1]
            points = letters.get(picture, math.inf) * where[1] / sheet.PIXELS
            if points < sheet.LEAST_LETTER - 0.01:
                wrong.append(f"{name}: letters of {points:.2f} pt in a picture: {picture}")
    return wrong
