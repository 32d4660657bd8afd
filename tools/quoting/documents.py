"""The documents that are quoted: their text paragraph by paragraph, and whether a quotation is word for word in one of them."""
import os
import re

from .prose import cells, markdown, read

# The first letters of the documents' names, and how each is cited.
NAMES = {"01": "document 01", "02": "document 02", "000": "source document 000", "001": "source document 001",
         "003": "source document 003", "004": "source document 004"}
SIGNS = str.maketrans({"“": '"', "”": '"', "‘": "'", "’": "'"})
MARKUP = re.compile(r"\*+|~~|</?[bu]>|\\(?=[|_*])")
ELISION = re.compile(r"\s*(?<!\.)\.\.(?!\.)\s*")
FOOT = re.compile(r".*\bPage \d+ of \d+")


def plain(text):
    """A text with one blank between its words, straight marks and no markup."""
    return " ".join(MARKUP.sub("", text).translate(SIGNS).split())


class Document:
    def __init__(self, name, paragraphs):
        self.name = name
        self.paragraphs = [plain(text) for text in paragraphs]
        self.paragraphs.append(" ".join(self.paragraphs))

    def has(self, words):
        """Whether a text is in it, or its pieces in their order in one paragraph, where `..` marks words that are left out."""
        words = plain(words)
        if any(standing(words, text) for text in self.paragraphs):
            return True
        pieces = [piece for piece in ELISION.split(words) if piece]
        return bool(pieces) and any(in_order(pieces, text) for text in self.paragraphs[:-1])


def standing(words, text, start=0):
    """The place behind some whole words of a text, or 0."""
    front = r"(?<!\w)" if words[:1].isalnum() else ""
    back = r"(?!\w)" if words[-1:].isalnum() else ""
    found = re.compile(front + re.escape(words) + back).search(text, start) if words else None
    return found.end() if found else 0


def in_order(pieces, text):
    """Whether each piece is in a text behind the one before it."""
    at = 0
    for piece in pieces:
        at = standing(piece, text, at)
        if not at:
            return False
    return True


def extracted(text):
    """The paragraphs of a text that was taken out of a PDF: no foot of a page, and no word cut at a line's end."""
    lines = [line for line in text.split("\n") if not FOOT.fullmatch(line.strip())]
    return re.split(r"\n\s*\n", re.sub(r"(?<=[a-z])-\n(?=[a-z])", "", "\n".join(lines)))


def written(text):
    """The paragraphs of a document in Markdown. A row of a table is one, as it stands there and with `:` behind its first cell: `12: payload not 20 to 512`."""
    yield from (block.text for block in markdown(text))
    for line in text.split("\n"):
        if line.startswith("|"):
            yield line
            yield ": ".join(cells(line))


def demands(path="docs/SOURCES.md"):
    """The demands, which are in no other document: the paragraphs under their heading in SOURCES that begin with a quotation mark."""
    section = re.search(r"^## The three demands\n(.*?)(?=^## |\Z)", read(path), re.DOTALL | re.MULTILINE)
    return Document("the demands", [block.text for block in markdown(section[1]) if block.text.startswith('"')] if section else [])


def documents(folder):
    """The documents of a folder, each by how it is cited, and the demands; none twice, and none missing."""
    found = {}
    for file in sorted(os.listdir(folder)):
        number = re.match(r"\d*", file)[0]
        if number in NAMES:
            text = read(os.path.join(folder, file))
            found[number] = Document(NAMES[number], written(text) if file.endswith(".md") else extracted(text))
    missing = [NAMES[number] for number in NAMES if number not in found]
    return list(found.values()) + [demands()], missing
