"""Makes the PDF: all pages in one document for paper, which WeasyPrint sets."""
import html
import re
import subprocess
from copy import deepcopy
from string import Template

import kinds
import pages
import pdf
import sheet
from pages import element, text_of
from screen import OUTSIDE

# Half a page in points: what is higher may break over two pages.
HALF_PAGE = sheet.TEXT_HEIGHT * sheet.POINTS / 2

# About how many points a line of code takes, and in a table: a row in addition to its lines, a line, a letter, and the space between two columns.
CODE_LINE = 9.4
ROW, LINE, LETTER, BETWEEN = 2.6, 10.0, 4.1, 11.3

# How often the book is typeset at most, and how many CSS pixels less a kind that runs over is given each time.
TRIES = 5
STEP = 8

# The file with WeasyPrint's messages, next to the document.
SAID = "weasyprint.txt"


def make(root, work, book):
    """Makes the PDF in a folder, and returns its path; the document that it is made from is left next to it. The height of text is known only when it is
    typeset: a kind that needs more than its two pages is given less room for its rows and lines, and all is typeset again."""
    less = {page.name: 0 for page in book if page.is_kind()}
    for _ in range(TRIES):
        made = set_once(root, work, book, less)
        over = longer_kinds(book, pdf.destinations(made))
        if not over:
            break
        less.update({name: less[name] + STEP for name in over})
    return made


def set_once(root, work, book, less):
    """Writes the document and has it typeset."""
    sections = [section(root, work, page, [other.name for other in book], less) for page in book]
    document = Template(pages.template("paper.html")).substitute(
        edition=html.escape(pages.edition(root)), style=pages.template("paper.css"), contents=contents(book),
        body="\n".join(pages.written(part) for part in sections))
    source = work / "paper.html"
    source.write_text(document, encoding="utf-8")
    made = work / "book.pdf"
    done = subprocess.run(["weasyprint", "--encoding", "utf-8", str(source), str(made)], check=False, capture_output=True, text=True)
    (work / SAID).write_text(done.stderr, encoding="utf-8")
    if done.returncode != 0 or not made.exists():
        raise pages.Wrong("weasyprint: " + done.stderr.strip())
    return made


def longer_kinds(book, places):
    """The kinds whose left or right page runs over."""
    over = []
    for page, behind in zip(book, book[1:] + [None]):
        if page.is_kind():
            start, _ = places.get(page.name, (0, 0))
            code, _ = places.get(f"{page.name}--{kinds.RIGHT_PAGE.replace(' ', '-')}", (0, 0))
            after, _ = places.get(behind.name, (0, 0)) if behind else (start + 2, 0)
            if (code, after) != (start + 1, start + 2):
                over.append(page.name)
    return over


def contents(book):
    """The lines of the table of contents; the style adds the page numbers."""
    return "\n".join(f'<li><a href="#{page.name}">{html.escape(page.entry)}</a></li>' for page in book)


def section(root, work, page, names, less):
    """A page as a part of the document."""
    tree = deepcopy(page.tree)
    name_anchors(tree, page.name)
    folder = pages.reference(root)
    move_links(tree, page.name, names, folder, root)
    page = pages.Page(page.name, page.entry, page.title, tree)
    keep_together(tree)
    parts = kinds.spread(page, folder, less[page.name]) if page.is_kind() else list(tree)
    for picture in tree.iter("img"):
        source = folder / picture.get("src")
        if source.is_file():
            pages.copy_picture(source, work / source.name)
        picture.set("src", source.name)
    return element("section", None, parts, class_="kind" if page.is_kind() else "flow")


def name_anchors(tree, name):
    """Makes the anchors of a page differ from those of all others; its title's is its name."""
    for place in tree.iter():
        if place.get("id") is not None:
            place.set("id", f"{name}--{place.get('id')}")
    title = tree.find("h1")
    if title is not None:
        title.set("id", name)


def move_links(tree, name, names, folder, root):
    """Makes links between pages links inside the document; one to a file of the repository is printed as text, with the file's path."""
    for link in list(tree.iter("a")):
        path, _, anchor = link.get("href", "").partition("#")
        page = re.sub(r"\.md$", "", path) or name
        if OUTSIDE.match(path):
            continue
        if page in names:
            link.set("href", f"#{page}--{anchor}" if anchor else "#" + page)
        elif path == "README.md":
            link.set("href", "#contents")
        else:
            print_as_text(link, (folder / path).resolve(), root)


def print_as_text(link, target, root):
    """Makes a link a piece of text that names the file, if it does not yet."""
    link.tag = "span"
    link.attrib.clear()
    name = target.relative_to(root).as_posix() if root in target.parents else ""
    if name not in text_of(link):
        link.append(element("span", f" ({name})", class_="path"))


def keep_together(tree):
    """Marks what must not break over two pages, and the lines that belong to what follows them."""
    for child in tree.iter():
        if child.tag == "table" and table_height(child) <= HALF_PAGE:
            child.set("class", "whole")
        elif child.tag == "pre" and len("".join(child.itertext()).splitlines()) * CODE_LINE <= HALF_PAGE:
            child.set("class", "whole")
        elif child.tag == "pre":
            break_at_blank_lines(child)
        elif child.tag == "p" and child.find("img") is not None:
            child.set("class", "picture")
        elif child.tag == "p" and text_of(child).endswith(":"):
            child.set("class", "leads")
    if len(tree) > 1 and kinds.is_note([tree[1]]):
        tree[1].set("class", "leads")
    for child, behind in zip(list(tree), list(tree)[1:]):
        if child.tag == "p" and child.get("class") is None and (behind.tag in ("table", "pre") or behind.get("class") == "picture"):
            child.set("class", "leads")
        elif child.tag == "table" and kinds.is_note([behind]):
            behind.set("class", "note")


def break_at_blank_lines(block):
    """Makes pieces of a long block of code that do not break: each ends with a blank line."""
    pieces = re.findall(r".+?(?:\n\n|\Z)", "".join(block.itertext()), re.DOTALL)
    block[:] = [element("code", None, [element("span", piece, class_="piece") for piece in pieces])]
    block.text = None


def table_height(table):
    """About how high a table is, in points."""
    rows = [[text_of(cell) for cell in row] for row in table.iter("tr")]
    widths = column_widths(rows)
    return sum(ROW + LINE * max(1 + len(cell) // width for cell, width in zip(row, widths)) for row in rows)


def column_widths(rows):
    """About how many letters each column has room for: each has its longest word, and what is left goes to those with more text."""
    columns = [[row[column] for row in rows if column < len(row)] for column in range(max(map(len, rows)))]
    longest = [max(map(len, cells)) for cells in columns]
    least = [max((len(word) for cell in cells for word in cell.split()), default=1) for cells in columns]
    room = (sheet.TEXT_WIDTH * sheet.POINTS - BETWEEN * (len(columns) - 1)) / LETTER
    share = min(max((room - sum(least)) / max(sum(longest) - sum(least), 1), 0), 1)
    return [int(narrow + (wide - narrow) * share) + 1 for narrow, wide in zip(least, longest)]
