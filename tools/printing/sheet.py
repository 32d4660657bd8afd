"""The measures of a sheet of the book, as paper.css has them."""

# Points in a millimetre, CSS pixels in a point.
POINTS = 72 / 25.4
PIXELS = 4 / 3

# The page and its text area in millimetres; the inner margin is the right one of an even page.
PAGE_WIDTH, PAGE_HEIGHT = 210, 297
TOP, BOTTOM, INNER, OUTER = 12, 10, 16, 14
TEXT_WIDTH = PAGE_WIDTH - INNER - OUTER
TEXT_HEIGHT = PAGE_HEIGHT - TOP - BOTTOM

# Where the lines of the header and of the footer are, from the top of the page.
HEADER = (5.5, 11.0)
FOOTER = (288.0, 293.5)

# The least size of a letter in a picture, in points.
LEAST_LETTER = 8


def pixels(millimetres):
    return millimetres * POINTS * PIXELS


def sides(number):
    """The left and the right edge of a page's text area, in millimetres."""
    left = OUTER if number % 2 == 0 else INNER
    return left, left + TEXT_WIDTH
