"""Pieces of code, cut out of the files that the tests prove or build."""
import os
import re

from .printed import Fault, read

MOST_COLUMNS = 100
LANGUAGES = {".rt": "rust", ".c": "c", ".h": "c", ".antt": ""}


def language(path):
    return LANGUAGES.get(os.path.splitext(path)[1], "")


def begins(line, name):
    """Whether a line of code begins the function, constant or macro of a name."""
    return re.search(r"\b(fn|const|struct|enum) " + re.escape(name) + r"\b", line) or line.startswith("#define " + name)


def first_comment(lines, at):
    """The line at which the comment before a line begins."""
    while at > 0 and lines[at - 1].lstrip().startswith("//"):
        at -= 1
    return at


def piece(path, name):
    """A function or a constant with the comment before it: up to the line that closes it, which has the same indentation."""
    lines = read(path).splitlines()
    starts = [i for i, line in enumerate(lines) if begins(line, name)]
    if len(starts) != 1:
        raise Fault(f"{path} has {len(starts)} pieces of code called {name}")
    at = starts[0]
    indent = re.match(r" *", lines[at]).group()
    end = at
    while not (lines[end].startswith(indent + "}") or lines[end].endswith(";") and not lines[end].startswith(indent + " ")):
        end += 1
        if end == len(lines):
            raise Fault(f"{path}: {name} has no end")
    return [line[len(indent):] for line in lines[first_comment(lines, at):end + 1]]


def between(path, first, last):
    """The lines from the first that begins with `first` to the next that begins with `last`; only the first line if `last` is empty."""
    lines = read(path).splitlines()
    starts = [i for i, line in enumerate(lines) if line.startswith(first)]
    if not starts:
        raise Fault(f"{path}: no line begins with {first}")
    start = starts[0] - (lines[starts[0] - 1] == "/*")
    for end in range(start + 1, len(lines)) if last else [start]:
        if lines[end].startswith(last):
            return lines[start:end + 1]
    raise Fault(f"{path}: no line after {first} begins with {last}")


def block(path, lines):
    """Lines as a fenced block, none too long for paper."""
    for line in lines:
        if len(line) > MOST_COLUMNS:
            raise Fault(f"{path}: a line of {len(line)} columns has no room on paper: {line}")
    return ["```" + language(path), *lines, "```"]


def cut(path, names):
    """The whole of a file, or pieces of it, each a fenced block of its own."""
    if not names:
        return block(path, read(path).rstrip("\n").splitlines())
    lines = []
    for name in names:
        lines += ([""] if lines else []) + block(path, piece(path, name))
    return lines
