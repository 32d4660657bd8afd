"""Makes the set of HTML pages: one for each page of the reference, and below files/ one for each file of the repository that they link to, so that no link
leaves the set."""
import html
import os
import re
import shutil
from copy import deepcopy
from string import Template
from urllib.parse import unquote

import pages
from tables import merge_cells, wrap

OUTSIDE = re.compile(r"[a-z][a-z0-9+.-]*:|//")

# Files that are shown as they are and not as text.
PICTURES = (".svg", ".png", ".jpg")

# Names that no listing of a folder shows.
UNLISTED = ("target", "__pycache__")


class Site:
    """The set as it grows: where it is made, and which files of the repository it has or still needs."""

    def __init__(self, root, target, names):
        self.root = root
        self.target = target
        self.names = names
        self.edition = pages.edition(root)
        self.template = Template(pages.template("page.html"))
        self.needed = []

    def place(self, source):
        """Where a file of the repository is in the set; if it is not a page, the set needs it from now on."""
        if source.parent == pages.reference(self.root) and source.suffix == ".md" and source.stem in self.names + ["README"]:
            return "index.html" if source.stem == "README" else source.stem + ".html"
        if source not in self.needed:
            self.needed.append(source)
        if source.parent == pages.reference(self.root) and source.suffix in PICTURES:
            return source.name
        return place_of_file(source, self.root)

    def moved(self, link, folder, place):
        """A link of a file in a folder, rewritten for the page at a place; one that leads nowhere stays as it is."""
        path, mark, anchor = link.partition("#")
        if OUTSIDE.match(link) or path == "":
            return link
        source = (folder / unquote(path)).resolve()
        if not source.exists() or self.root not in source.parents:
            return link
        return os.path.relpath(self.place(source), os.path.dirname(place) or ".") + mark + anchor

    def write(self, place, title, tree, folder, navigation):
        """Writes one page, with its links rewritten for the set."""
        for element in tree.iter():
            element.attrib.update({name: self.moved(element.get(name), folder, place) for name in ("href", "src") if name in element.attrib})
        wrap(tree, "table", "table")
        mark_pictures(tree)
        path = self.target / place
        path.parent.mkdir(parents=True, exist_ok=True)
        path.write_text(self.template.substitute(
            title=html.escape(title), edition=html.escape(self.edition), style=os.path.relpath("book.css", os.path.dirname(place) or "."),
            navigation=navigation, body=pages.inside(tree)), encoding="utf-8")


def mark_pictures(tree):
    """Gives a paragraph with a picture a class, since it is the box in which the picture scrolls."""
    for paragraph in tree.iter("p"):
        if paragraph.find("img") is not None:
            paragraph.set("class", "picture")


def place_of_file(source, root):
    """Where the set has a file of the repository that is not a page."""
    path = "files/" + source.relative_to(root).as_posix()
    if source.is_dir():
        return path + "/index.html"
    return path if source.suffix in PICTURES else path + ".html"


def make(root, target, book):
    """Makes the whole set in a folder, of the pages in the order of the book."""
    site = Site(root, target, [page.name for page in book])
    shutil.copy(pages.Path(__file__).with_name("book.css"), target)
    write_index(site)
    for number, page in enumerate(book):
        before = book[number - 1] if number > 0 else None
        behind = book[number + 1] if number + 1 < len(book) else None
        site.write(page.name + ".html", page.title, deepcopy(page.tree), pages.reference(root), navigation(before, behind))
    write_files(site)


def write_files(site):
    """Puts the files that are needed into the set, and those that these need."""
    done = 0
    while done < len(site.needed):
        write_file(site, site.needed[done])
        done += 1


def write_index(site):
    tree = pages.markdown(pages.reference(site.root) / "README.md")
    merge_cells(tree)
    printed = pages.element("p", "For printing: ", [pages.element("a", "the whole book as a PDF for A4", href="book.pdf")])
    printed[0].tail = "."
    tree.append(printed)
    site.write("index.html", pages.title_of(tree, "The reference"), tree, pages.reference(site.root), '<a href="book.pdf">PDF</a>')


def navigation(before, behind):
    """The links to the index, to the previous page and to the next."""
    links = ['<a href="index.html">Index</a>']
    if before is not None:
        links.append(f'<a href="{before.name}.html" rel="prev">← {html.escape(before.entry)}</a>')
    if behind is not None:
        links.append(f'<a href="{behind.name}.html" rel="next">{html.escape(behind.entry)} →</a>')
    return "\n".join(links)


def write_file(site, source):
    """Puts one file or folder of the repository into the set."""
    place = site.place(source)
    if source.suffix in PICTURES:
        pages.copy_picture(source, site.target / place)
        return
    name = source.relative_to(site.root).as_posix()
    if source.is_dir():
        tree = listing(source, name)
    elif source.suffix == ".md":
        tree = pages.markdown(source)
        merge_cells(tree)
    else:
        tree = text(source, name)
    site.write(place, name, tree, source if source.is_dir() else source.parent, back(place))


def back(place):
    return f'<a href="{os.path.relpath("index.html", os.path.dirname(place))}">Index</a>'


def listing(folder, name):
    """A page that links to what is in a folder."""
    items = [path for path in sorted(folder.iterdir()) if path.name not in UNLISTED and not path.name.startswith(".")]
    links = [pages.element("li", None, [pages.element("a", path.name, href=path.name)]) for path in items]
    return pages.element("div", None, [pages.element("h1", name), pages.element("ul", None, links)])


def lines_of(source):
    """The lines of a file; for one that is not text, its octets in hex, sixteen to a line."""
    octets = source.read_bytes()
    if b"\0" in octets:
        return [octets[at:at + 16].hex(" ").upper() for at in range(0, len(octets), 16)]
    return octets.decode("utf-8", errors="replace").splitlines()


def text(source, name):
    """A page with the lines of a file, each with its number as anchor."""
    code = pages.element("code")
    for number, line in enumerate(lines_of(source), 1):
        code.append(pages.element("span", line + "\n", id=f"L{number}"))
    return pages.element("div", None, [pages.element("h1", name), pages.element("pre", None, [code])])
