"""Reads the reference: its index, and each page as a tree of HTML elements, which pandoc makes of its Markdown."""
import re
import subprocess
import xml.etree.ElementTree as ElementTree
from dataclasses import dataclass
from html import unescape
from pathlib import Path

from tables import merge_cells, text_of

ENTRY = re.compile(r"\s*(?:\d+[.)]|[-*+])\s+\[(.+?)\]\(([^/)#]+)\.md\)")

KIND = re.compile(r"Kind \d+\b")

SIZE = re.compile(r"([\d.]+)(?:px)?")


class Wrong(Exception):
    """A page cannot be read as it is."""


@dataclass
class Page:
    name: str
    # What the index calls it, and its own first heading.
    entry: str
    title: str
    tree: ElementTree.Element

    def is_kind(self):
        return KIND.match(self.title) is not None


def edition(root):
    """The repository's version, from its file."""
    return (root / "VERSION").read_text(encoding="utf-8").strip()


def reference(root):
    return root / "docs" / "reference"


def entries(root):
    """The names of the pages with their titles, in the order of the index."""
    index = reference(root) / "README.md"
    found = []
    for line in index.read_text(encoding="utf-8").splitlines():
        entry = ENTRY.match(line)
        if entry:
            found.append((entry.group(2), entry.group(1)))
    if not found:
        raise Wrong(f"{index}: lists no page")
    return found


def read(root):
    """All pages but the index, in its order."""
    pages = []
    for name, entry in entries(root):
        tree = markdown(reference(root) / (name + ".md"))
        merge_cells(tree)
        pages.append(Page(name, entry, title_of(tree, name), tree))
    return pages


def title_of(tree, otherwise):
    first = tree.find("h1")
    return otherwise if first is None else text_of(first)


def markdown(path):
    """A Markdown file as a tree: a div with the elements that pandoc makes."""
    made = subprocess.run(
        ["pandoc", "--from=gfm", "--to=html", "--no-highlight", "--wrap=none", str(path)],
        check=False, capture_output=True, text=True, encoding="utf-8")
    if made.returncode != 0:
        raise Wrong(f"{path}: {made.stderr.strip()}")
    try:
        tree = ElementTree.fromstring("<div>" + plain(made.stdout) + "</div>")
    except ElementTree.ParseError as wrong:
        raise Wrong(f"{path}: not well formed as HTML: {wrong}") from wrong
    part_edition(tree)
    return tree


def plain(text):
    """Takes out what only pandoc needs: the widths that it guesses for columns, and the classes of rows."""
    text = re.sub(r"<colgroup>.*?</colgroup>", "", text, flags=re.DOTALL)
    return re.sub(r'<tr class="(?:header|odd|even)">', "<tr>", text)


def part_edition(tree):
    """Makes the line of the edition, below a title, a paragraph of its own if text follows it without an empty line."""
    line = tree[1] if len(tree) > 1 and tree[0].tag == "h1" else None
    if line is None or line.tag != "p" or len(line) == 0 or line[0].tag != "em" or (line.text or "").strip() or not (line[0].tail or "").strip():
        return
    note = line[0]
    line.remove(note)
    line.text, note.tail = note.tail.lstrip(), None
    tree.insert(1, element("p", None, [note]))


def element(tag, text=None, children=(), **attributes):
    """A new element; an attribute's name may end in _ if it is a word of Python."""
    made = ElementTree.Element(tag, {name.rstrip("_"): value for name, value in attributes.items()})
    made.text = text
    made.extend(children)
    return made


def written(tree):
    """An element as HTML."""
    return ElementTree.tostring(tree, encoding="unicode", method="html")


def inside(tree):
    """What is inside an element, as HTML."""
    return "".join(written(child) for child in tree)


def template(name):
    return Path(__file__).with_name(name).read_text(encoding="utf-8")


def drawing(path):
    """An SVG as a tree; None if it is missing or cannot be read, which the check reports."""
    try:
        return ElementTree.parse(path).getroot() if path.suffix == ".svg" else None
    except (ElementTree.ParseError, OSError):
        return None


def picture_size(tree):
    """The width and height of an SVG in CSS pixels: its own, or those of its view."""
    sizes = [tree.get("width", ""), tree.get("height", "")]
    if not all(SIZE.fullmatch(size) for size in sizes):
        sizes = tree.get("viewBox", "0 0 1 1").split()[2:]
    return tuple(float(SIZE.match(size).group(1)) for size in sizes)


def least_letter(tree):
    """The smallest size of letters that an SVG gives, in CSS pixels; 0 if it gives none that can be read here."""
    sizes = [SIZE.fullmatch(part.get("font-size")) for part in tree.iter() if part.get("font-size")]
    return min((float(size.group(1)) for size in sizes if size), default=0.0)


def title_of_file(path):
    """The first heading of a page that is made."""
    found = re.search(r"<h1[^>]*>(.*?)</h1>", path.read_text(encoding="utf-8"), re.DOTALL)
    return "" if found is None else " ".join(unescape(re.sub(r"<[^>]*>", "", found.group(1))).split())


def copy_picture(source, target):
    """Copies a picture; an SVG that names no font family gets the book's."""
    target.parent.mkdir(parents=True, exist_ok=True)
    if source.suffix == ".svg":
        drawing = source.read_text(encoding="utf-8")
        target.write_text(drawing.replace('font-family="sans-serif"', 'font-family="Liberation Sans, Arial, sans-serif"'), encoding="utf-8")
    else:
        target.write_bytes(source.read_bytes())
