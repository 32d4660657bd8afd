"""Merges a table's repeated cells: if successive rows share their first cells, each such cell is there once, as high as its rows.

In a table of fields (its first columns are `present when` or `bit`, then `group`) the first two columns are merged, in one of parameters the op codes. In other
tables only cells with words are, since numbers in successive rows may be equal by chance. A last column is merged too if it names the calls that give a refusal
or what a refusal leaves."""
import re
from itertools import takewhile

# How many first columns are merged in a table that begins with these, whatever is in them.
FIRST_COLUMNS = {("present when", "group"): 2, ("bit", "group"): 2, ("op code", "parameter"): 1}

# The last columns that are merged.
LAST_COLUMNS = ("by", "what a refusal leaves")

# What makes a cell one of words: a hex number has no three small letters in a row.
WORD = re.compile("[a-z]{3}")


def text_of(tree):
    """All text inside an element, its white space as single blanks."""
    return " ".join("".join(tree.itertext()).split())


def merge_cells(tree):
    """Merges the repeated cells of all tables in a tree."""
    for table in tree.iter("table"):
        head = [text_of(cell) for cell in table.iter("th")]
        rows = [list(row) for row in table.findall("tbody/tr")]
        if rows and all(len(row) == len(head) for row in rows):
            first = FIRST_COLUMNS.get(tuple(head[:2]))
            repeated = repeats(rows, first or len(head) - 1, first is not None)
            mark_groups(table, repeated)
            remove(table, rows, repeated)
            if head[-1] in LAST_COLUMNS:
                merge_last(table, rows)


def repeats(rows, columns, any_text):
    """For each row, how many of its first cells repeat those of the row above."""
    counts = [0]
    for above, row in zip(rows, rows[1:]):
        alike = [same(one, other, any_text) for one, other in zip(above[:columns], row[:columns])]
        counts.append(len(list(takewhile(bool, alike))))
    return counts


def same(above, cell, any_text):
    """Whether a cell has the same text as the one above it, and not by chance."""
    text = text_of(cell)
    return text == text_of(above) and text != "" and (any_text or WORD.search(text) is not None)


def mark_groups(table, repeated):
    """Gives the rows inside a group a class, so that they are set without a rule above them."""
    for row, count in zip(table.findall("tbody/tr"), repeated):
        if count > 0:
            row.set("class", "inner")


def remove(table, rows, repeated):
    """Takes the repeated cells away, and makes the first of each as high as its rows."""
    for row, (element, count) in enumerate(zip(table.findall("tbody/tr"), repeated)):
        element[:] = rows[row][count:]
        raise_cells(rows[row][count:], count, repeated[row + 1:])


def merge_last(table, rows):
    """Merges the last cells of successive rows that have the same text."""
    high = None
    for element, above, row in zip(table.findall("tbody/tr"), [None] + rows, rows):
        if above is not None and same(above[-1], row[-1], False):
            high.set("rowspan", str(int(high.get("rowspan", "1")) + 1))
            element.remove(row[-1])
        else:
            high = row[-1]


def raise_cells(cells, first, repeated_below):
    """Makes each cell, from a column on, as high as the rows below that repeat it, and itself."""
    for column, cell in enumerate(cells, first):
        height = 1 + len(list(takewhile(lambda count: count > column, repeated_below)))
        if height > 1:
            cell.set("rowspan", str(height))


def wrap(tree, tag, name):
    """Puts each element with a tag into a box of its own, with a class."""
    places = [(parent, place) for parent in tree.iter() for place, child in enumerate(parent) if child.tag == tag]
    for parent, place in places:
        child = parent[place]
        box = child.makeelement("div", {"class": name})
        box.tail, child.tail = child.tail, None
        box.append(child)
        parent[place] = box
