"""The texts between double quotes in a block of prose: straight or curly ones, and quotations with quotations inside."""
import re

CODE = re.compile(r"`[^`\n]*`")
LINK_TITLE = re.compile(r"(\]\([^)\s]+\s)\"[^\"]*\"(?=\))")
BEFORE = set(" \n\t([{*—–")  # what a mark that opens has before it
BEHIND = re.compile(r"\.\.|[^\s.,;:!?)\]}]")  # and what behind it
MASK = "\0"


class Block:
    """Some lines of prose that belong together, each with its number in the file."""

    def __init__(self, lines):
        self.numbers = [number for number, _ in lines]
        self.text = "\n".join(text for _, text in lines)

    def line(self, offset):
        """The number of the line on which a character of the text stands."""
        return self.numbers[self.text.count("\n", 0, offset)]


class Quotation:
    """A text in quotation marks, the line on which it begins, and what stands before it in its block. It is not closed where no mark ends it there."""

    def __init__(self, block, start, end, closed=True):
        self.line, self.words, self.before, self.closed = block.line(start), block.text[start + 1:end], block.text[:start], closed


def masked(text):
    """The text with the marks in code and in the titles of links hidden: these are no quotations."""
    text = CODE.sub(lambda found: found[0].replace('"', MASK), text)
    return LINK_TITLE.sub(lambda found: found[1] + MASK + " " * (len(found[0]) - len(found[1]) - 2) + MASK, text)


def opens(text, at, before):
    """Whether the mark at a place opens a quotation: by its sign, by the mark that stands just before it, or by what is on its two sides."""
    if text[at] in "“”":
        return text[at] == "“"
    if at and text[at - 1] in '"“”':
        return before
    return (at == 0 or text[at - 1] in BEFORE) and bool(BEHIND.match(text, at + 1))


def quotations(block):
    """The quotations of a block, the outermost alone."""
    text = masked(block.text)
    depth, start, before = 0, 0, True
    for found in re.finditer(r'["“”]', text):
        at = found.start()
        before = opens(text, at, before)
        if before:
            start = at if depth == 0 else start
            depth += 1
        elif depth == 0:
            yield Quotation(block, at, at + 40, False)
        else:
            depth -= 1
            if depth == 0:
                yield Quotation(block, start, at)
    if depth:
        yield Quotation(block, start, start + 41, False)
