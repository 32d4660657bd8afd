"""Names in boxes, or below them if they do not fit: moved sideways until no two overlap, each with a line that leads to its box."""
import re

from .svg import GREY, LINE, MARGIN, WIDE, fitting_lines, text_width

GAP = 9
# How far below its box a name is; farther if the line to some box is slanted.
LEADERS = (7, 11)


def name_lines(words, wide, most):
    """A name's lines in a box, or None if it does not fit in `most` lines."""
    lines = fitting_lines(words, wide - 5)
    return lines if lines and len(lines) <= most else None


def draw_centred(picture, x, top, high, lines, **style):
    """Lines of text, centred in a room."""
    first = top + (high - len(lines) * LINE) / 2 + 10
    picture.block(x, first, lines, **style)


def draw_strokes(picture, x, foot, unit, octets, high=4):
    """Short strokes at the foot of a box, between its octets."""
    for i in range(1, octets):
        picture.line(x + i * unit, foot, x + i * unit, foot - high, GREY)


def with_pool(pools, mean, count):
    """The pools and one more, which joins the last ones as long as its mean is below theirs."""
    while pools and pools[-1][0] > mean:
        other, more = pools.pop()
        mean, count = (mean * count + other * more) / (count + more), count + more
    return pools + [(mean, count)]


def pooled(wanted):
    """The ascending numbers nearest to the wanted ones: neighbours out of order share their mean."""
    pools = []
    for value in wanted:
        pools = with_pool(pools, value, 1)
    return [mean for mean, count in pools for _ in range(count)]


def spread(centres, widths):
    """The middles of texts, as near to the given centres as they can be a gap apart and in the picture; None if they do not fit."""
    offsets = [sum(widths[:i]) + widths[i] / 2 + i * GAP for i in range(len(widths))]
    least, most = MARGIN - offsets[0] + widths[0] / 2, WIDE - MARGIN - offsets[-1] - widths[-1] / 2
    if least > most:
        return None
    free = pooled([centre - offset for centre, offset in zip(centres, offsets)])
    return [min(max(place, least), most) + offset for place, offset in zip(free, offsets)]


def block_width(lines):
    return max(text_width(line) for line in lines)


def lead_in(centre, place, wide):
    """Where a leader meets its text: straight below the box, if the text reaches there."""
    return min(max(centre, place - wide / 2 + 4), place + wide / 2 - 4)


def broken(name, level):
    """A name's lines: in one line at level 0, in lines of a middling width at 1, as narrow as its pieces allow at 2."""
    narrowest = max(text_width(piece) for piece in re.split(r"(?<=_)| ", name))
    return fitting_lines(name, [WIDE, max(78, narrowest), narrowest][level])


def placed(hanging, level):
    """The lines of each hanging name and their middle, or None if they do not fit."""
    blocks = [broken(name, level) for _, name in hanging]
    places = spread([centre for centre, _ in hanging], [block_width(lines) for lines in blocks])
    return places and list(zip(blocks, places))


def farthest(hanging, blocks):
    """How far sideways a leader goes at most; a distance so small that it still leads downwards counts as 0."""
    aside = [abs(lead_in(centre, place, block_width(lines)) - centre) for (centre, _), (lines, place) in zip(hanging, blocks)]
    return max([0] + [distance for distance in aside if distance > 14])


def draw_hanging(picture, foot, hanging):
    """Draws names below their boxes, broken only if that keeps them nearer; returns their height. `hanging`: the middle of each box, and its name."""
    choices = [blocks for blocks in (placed(hanging, level) for level in range(3)) if blocks] if hanging else [[]]
    if not choices:
        raise ValueError("the names %s have no room below their boxes" % ", ".join(name for _, name in hanging))
    blocks = min(choices, key=lambda choice: farthest(hanging, choice))
    leader = LEADERS[farthest(hanging, blocks) > 0]
    for (centre, _), (lines, place) in zip(hanging, blocks):
        picture.line(centre, foot, lead_in(centre, place, block_width(lines)), foot + leader, GREY)
        picture.block(place, foot + leader + 10, lines)
    return leader + 1 + LINE * max(len(lines) for lines, _ in blocks) if blocks else 0
