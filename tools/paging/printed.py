"""What the programs print, in pieces: the tables of fttables by page and heading, and the sections of roundtrip."""
import re


class Fault(Exception):
    """Something that the pages need is missing or not as it must be; says what, in a sentence."""


def read(path):
    try:
        with open(path, encoding="utf-8") as file:
            return file.read()
    except FileNotFoundError:
        raise Fault(f"{path} is missing") from None


def slug(words):
    """`Kind 2: cross trainer` is `cross-trainer`."""
    return re.sub(r"^Kind \d+: ", "", words).lower().replace(" ", "-")


def tables():
    """The text under each heading of the second level that fttables prints, by `page/heading`; and the line under a page's own heading, by `page`."""
    found, page, name = {}, "", ""
    for line in read("crates/fttables/stdout").splitlines():
        if line.startswith("# "):
            page = name = slug(line[2:])
            found[page + "/title"] = line[2:]
        elif line.startswith("## "):
            name = page + "/" + slug(line[3:])
        elif line:
            found[name] = found.get(name, "") + line + "\n"
    return found


def header():
    """The header for C: what fttables prints behind its heading, to the end."""
    text = read("crates/fttables/stdout")
    heading = "\n# hordivasz_layout.h\n\n"
    if text.count(heading) != 1:
        raise Fault("fttables prints no header for C")
    return text.split(heading)[1]


def rows(table):
    """The rows of a table in Markdown, each a dict from a column's name to the cell."""
    lines = [[cell.strip() for cell in line.strip().strip("|").split("|")] for line in table.splitlines()]
    columns = lines[0]
    for line in lines[2:]:
        if len(line) > len(columns):
            raise Fault(f"a row of {len(line)} cells under {len(columns)} columns: {line}")
    return [dict(zip(columns, line + [""] * len(columns))) for line in lines[2:]]


def section(path, name):
    """The lines after `== name` in what a program prints, up to the next such line; all of it if no name is given."""
    text = read(path)
    if not name:
        return text
    for part in re.split(r"^== ", text, flags=re.MULTILINE)[1:]:
        heading, lines = part.split("\n", 1)
        if heading == name:
            return lines
    raise Fault(f"{path} has no lines for {name}")
