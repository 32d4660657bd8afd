"""The common parts of all pictures: how wide a text is, how it breaks into lines, and a picture as it is drawn, whose texts may not overlap."""
import re

# 680 pixels are 180 mm on paper, and 11 pixels are 8.25 points: no text is smaller.
WIDE = 680
SMALL = 11
LINE = 13
MARGIN = 10
INNER = WIDE - 2 * MARGIN

# Two tints that tell neighbours apart, and the grey of the flags; an outline always shows the same without colour.
TINTS = ["#dfeefb", "#fff3d6"]
FLAGS = "#e4e4e4"
GREY = "#666666"

# How wide a character is at size 1, by the widest of the usual sans-serif fonts; every other character is 0.64.
WIDTHS = [
    (0.30, "'ijlI"),
    (0.34, " ,.:;/|"),
    (0.42, "frt()[]!-"),
    (0.56, "_csz*?J"),
    (0.70, "ABCEFKLPRSTVXYZ"),
    (0.80, "DGHNOQU&"),
    (0.84, "w=+<>#"),
    (1.00, "mMW%@"),
]
WIDTH_OF = {character: width for width, characters in WIDTHS for character in characters}

# How much wider a bold text is, and how wide a character of a monospace font is.
BOLD = 1.15
MONO = 0.61


def text_width(words, size=SMALL, bold=False, mono=False):
    """How wide a text is, generously: fonts differ."""
    if mono:
        return len(words) * MONO * size
    return sum(WIDTH_OF.get(character, 0.64) for character in words) * size * (BOLD if bold else 1)


def fitting_lines(words, wide, bold=False):
    """The words in lines that break at spaces and after underscores, or None if a piece is wider than the room."""
    lines = [""]
    for piece in re.findall(r" |[^ _]+_?|_", words):
        if text_width(piece, bold=bold) > wide:
            return None
        if text_width(lines[-1] + piece.rstrip(), bold=bold) > wide:
            lines.append("")
        lines[-1] += piece if lines[-1] else piece.lstrip()
    return [line.rstrip() for line in lines if line.strip()]


def lines_of(words, wide, bold=False):
    """The words in lines of a width that they must fit."""
    lines = fitting_lines(words, wide, bold)
    if lines is None:
        raise ValueError("`%s` is too wide for its place in the picture" % words)
    return lines


def escaped(words):
    return words.replace("&", "&amp;").replace("<", "&lt;").replace(">", "&gt;")


def number(value):
    """A number of pixels as short as it can be written."""
    return ("%.2f" % value).rstrip("0").rstrip(".")


def meet(one, other):
    """Whether two boxes, each its left, top, right and foot, share a point."""
    return one[0] < other[2] and other[0] < one[2] and one[1] < other[3] and other[1] < one[3]


class Picture:
    """A picture as it is drawn, its title at the top if it is shown; `top` is where the rest begins."""

    def __init__(self, title, shown=True):
        self.title = title
        self.elements = []
        self.texts = []
        self.top = 4
        for line in lines_of(title, INNER * SMALL / 12, bold=True) if shown else []:
            self.top += 15
            self.text(MARGIN, self.top - 3, line, "start", size=12, bold=True)
        self.top += 4 if shown else 0

    def draw(self, name, style, **numbers):
        """An element with its numbers, then its style, each as SVG names them."""
        written = "".join(' %s="%s"' % (key, number(value)) for key, value in numbers.items())
        self.elements.append("<%s%s %s/>" % (name, written, style))

    def box(self, x, y, wide, high, fill="none", stroke="#000000", thick=1, more=""):
        style = 'fill="%s" stroke="%s" stroke-width="%s"%s' % (fill, stroke, number(thick), more and " " + more)
        self.draw("rect", style, x=x, y=y, width=wide, height=high)

    def area(self, x, y, wide, high, fill):
        """A box without an outline."""
        self.draw("rect", 'fill="%s"' % fill, x=x, y=y, width=wide, height=high)

    def dashed_box(self, x, y, wide, high):
        self.box(x, y, wide, high, stroke=GREY, more='stroke-dasharray="4 3"')

    def line(self, x1, y1, x2, y2, stroke="#000000", thick=1, dashed=False):
        style = 'stroke="%s" stroke-width="%s"%s' % (stroke, number(thick), ' stroke-dasharray="4 3"' if dashed else "")
        self.draw("line", style, x1=x1, y1=y1, x2=x2, y2=y2)

    def path(self, shape, fill="none", stroke="#000000", thick=1):
        self.elements.append('<path d="%s" fill="%s" stroke="%s" stroke-width="%s"/>' % (shape, fill, stroke, number(thick)))

    def head(self, x, y, along, down):
        """An arrow's head whose point is at a place; `along` and `down`, 1, 0 or -1, say where it points."""
        back_x, back_y = x - 8 * along, y - 8 * down
        corners = [(x, y), (back_x + 3.5 * down, back_y + 3.5 * along), (back_x - 3.5 * down, back_y - 3.5 * along)]
        self.path("M" + "L".join("%s %s" % (number(a), number(b)) for a, b in corners) + "Z", fill="#000000", stroke="none")

    def hatch(self, x, y, wide, high):
        """Thin slanting strokes that fill a box."""
        strokes = []
        for start in range(6, int(wide + high), 6):
            low, far = min(start, high), max(start - high, 0)
            right, top = min(start, wide), max(start - wide, 0)
            strokes.append("M%s %sL%s %s" % (number(x + far), number(y + low), number(x + right), number(y + top)))
        self.path("".join(strokes), stroke="#aaaaaa", thick=0.7)

    def text(self, x, y, words, anchor="middle", size=SMALL, bold=False, mono=False, plate=False, fill="#000000", room=WIDE):
        """A text on a base line that must fit in a room; `plate` clears the background under it."""
        wide = text_width(words, size, bold, mono)
        if wide > room:
            raise ValueError("`%s` has no room in its box in the picture `%s`" % (words, self.title))
        left = x - {"start": 0, "middle": wide / 2, "end": wide}[anchor]
        self.texts.append((left, y - 0.76 * size, left + wide, y + 0.23 * size, words))
        if plate:
            self.area(left - 2, y - size + 1, wide + 4, size + 2, "#ffffff")
        style = "".join([' font-weight="bold"' if bold else "", ' font-family="monospace"' if mono else ""])
        place = 'x="%s" y="%s" font-size="%d" text-anchor="%s" fill="%s"' % (number(x), number(y), size, anchor, fill)
        self.elements.append("<text %s%s>%s</text>" % (place, style, escaped(words)))

    def block(self, x, y, lines, **style):
        """Lines of text below each other, the first on a base line."""
        for i, line in enumerate(lines):
            self.text(x, y + i * LINE, line, **style)

    def check(self, high):
        """No text leaves the picture or overlaps another."""
        ground = [(a, b) for i, a in enumerate(self.texts) for b in self.texts[:i] if meet(a, b)]
        if ground:
            raise ValueError("`%s` and `%s` meet in the picture `%s`" % (ground[0][1][4], ground[0][0][4], self.title))
        for left, top, right, foot, words in self.texts:
            if left < 0 or right > WIDE or top < 0 or foot > high:
                raise ValueError("`%s` leaves the picture `%s`" % (words, self.title))

    def svg(self, high):
        """The whole picture, with its height."""
        self.check(high)
        size = 'width="%d" height="%s" viewBox="0 0 %d %s"' % (WIDE, number(high), WIDE, number(high))
        start = [
            '<svg xmlns="http://www.w3.org/2000/svg" %s font-family="sans-serif" fill="#000000" role="img">' % size,
            "<title>%s</title>" % escaped(self.title),
            '<rect width="%d" height="%s" fill="#ffffff"/>' % (WIDE, number(high)),
        ]
        return "\n".join(start + self.elements + ["</svg>"]) + "\n"
