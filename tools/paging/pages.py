"""The pages: their words are in docs/source/, and each line `{{..}}` there is replaced by what it names."""
import os
import re

from . import code
from .pictures import Pictures
from .printed import Fault, read, section, tables

SOURCE = "docs/source"
TASKS = f"{SOURCE}/tasks.part.md"
DIRECTIVE = re.compile(r"^\{\{(\S+)(?: (.*))?\}\}$")
STANDING = re.compile(r"^\*(Proved|Run|Compared): ")
NAME = re.compile(r"`([^`]+)`")


def known():
    """Every word of the crates' code, definitions and theorems, and the names of the programs and of their files."""
    words = set()
    for folder, folders, files in os.walk("crates"):
        folders[:] = [name for name in folders if name != "out"]  # what rt made
        words.update(folder.split("/")[-1:])
        for file in files:
            if file.endswith((".rt", ".antt")):
                words.update(re.findall(r"[\w-]+", read(f"{folder}/{file}")))
    return words


def named(words, names):
    """Fails if a name in backticks is neither a file nor made of words of the code."""
    for name in NAME.findall(words):
        if not os.path.exists(name) and not set(re.findall(r"[\w-]+", name)) <= names:
            raise Fault(f"no file and no name of the crates: {name}")


def tasks(names):
    """The table of what can be called from Rattle and from C."""
    text = read(TASKS)
    named(text, names | set(re.findall(r"\w+", read("host/hordivasz.h"))))
    return text.splitlines()


def standing(kind, words, names):
    """The line under a table: proved, run or compared. Each name in it must be a file, or occur in the crates."""
    named(words, names)
    return f"*{kind}: {words}*"


class Maker:
    def __init__(self):
        self.tables = tables()
        self.pictures = Pictures(self.tables)
        self.edition = read("VERSION").strip()
        self.known = known()

    def table(self, name):
        if name not in self.tables:
            raise Fault(f"fttables prints no table {name}")
        return self.tables[name].splitlines()

    def row(self, name, first):
        """The heading of a table, and its row that begins with a cell."""
        lines = self.table(name)
        found = [line for line in lines[2:] if line.startswith(f"| {first} |")]
        if len(found) != 1:
            raise Fault(f"the table {name} has {len(found)} rows of {first}")
        return lines[:2] + found

    def expand(self, page, what, words):
        """The lines that a directive stands for."""
        words = words.replace("@_", page.replace("-", "_")).replace("@", page)
        if what == "title":
            return ["# " + "".join(self.table(words + "/title"))]
        if what == "table":
            return self.table(words)
        if what == "row":
            return self.row(*words.split(" ", 1))
        if what == "picture":
            return self.pictures.draw(words.split())
        if what == "code":
            path, *names = words.split()
            return code.cut(path, names)
        if what == "lines":
            path, first, last = words.split(" | ")
            return code.block(path, code.between(path, first, last))
        if what == "output":
            path, _, name = words.partition(" ")
            return ["```", *section(path, name.replace("-", " ")).splitlines(), "```"]
        if what == "include":
            return self.lines(page, f"{SOURCE}/{words}")
        if what in ("proved", "run", "compared"):
            return [standing(what.capitalize(), words, self.known)]
        if what == "tasks":
            return tasks(self.known)
        if what == "damaged":
            return damaged()
        raise Fault(f"{SOURCE}/{page}.md: no directive {what}")

    def lines(self, page, path):
        made = []
        for line in read(path).splitlines():
            found = DIRECTIVE.match(line)
            made += self.expand(page, found[1], found[2] or "") if found else [line.replace("@_", page.replace("-", "_"))]
        return made

    def heading(self, index):
        """The line under a page's title."""
        if index:
            return f"*Edition {self.edition}*"
        return f"*Edition {self.edition} · [departures](departures.md) · [statements](../PROOFS.md) · [contents](README.md)*"

    def page(self, name):
        """A page's text: under its title its edition, and under each table whether it is proved, run or compared."""
        lines = self.lines(name, f"{SOURCE}/{name}.md")
        if not lines or not lines[0].startswith("# "):
            raise Fault(f"{SOURCE}/{name}.md does not begin with a title")
        lines = [lines[0], "", self.heading(name == "README")] + lines[1:]
        held(name, lines)
        return "\n".join(lines) + "\n"


def damaged():
    """The damaged capture piece by piece, from the tool that works its listing out."""
    from listing import DAMAGED

    lines = ["| octets | what they are | what is listed |", "|---|---|---|"]
    for words, octets, listed in DAMAGED:
        kept = octets.replace(" ", "\u00a0")  # on one line
        lines.append(f"| {kept} | {words} | {' '.join(f'`{line}`' for line in listed)} |")
    return lines


def held(name, lines):
    """Fails if a table has no line after it that says whether it is proved, run or compared."""
    for i, line in enumerate(lines):
        ends = line.startswith("|") and not (i + 1 < len(lines) and lines[i + 1].startswith("|"))
        behind = [after for after in lines[i + 1:i + 3] if after]
        if ends and not (behind and STANDING.match(behind[0])):
            raise Fault(f"{name}: no line says whether the table that ends with {line} is proved, run or compared")


def names():
    """The pages, by their sources; those with a dot in their name are included by others."""
    return sorted(file[:-3] for file in os.listdir(SOURCE) if file.endswith(".md") and "." not in file[:-3])


def made():
    """Every file of docs/reference/, by its name."""
    maker = Maker()
    files = {name + ".md": maker.page(name) for name in names()}
    return {**files, **maker.pictures.made}
