"""Every bit of the flags, and of the two numbers of the Feature value: a strip for each octet, bit 7 at the left, as its two hex digits are written."""
import re

from .names import draw_centred
from .rows import cell, whole_number
from .svg import LINE, MARGIN, WIDE, Picture, lines_of, text_width

LEFT = 58
UNIT = (WIDE - MARGIN - LEFT) / 8
NUMBERS = 15
RESERVED = "reserved"
MORE = "More Data"
MAIN = "0: main present"
MOST_LINES = 3


def bits_of_row(words):
    """The bits of `3` or of `13 to 15`."""
    ends = [whole_number(word, "a bit") for word in words.split(" to ")]
    if len(ends) > 2 or ends[0] > ends[-1]:
        raise ValueError("`%s` is neither a bit nor a run of bits" % words)
    return range(ends[0], ends[-1] + 1)


def short_name(words):
    """The name in a bit's description: that of the group that is present when the bit is 1, or the words before the colon."""
    found = re.fullmatch(r"1: (.+) present", words) or re.match(r"([^:]+):", words)
    if not found:
        raise ValueError("`%s` does not begin with a name" % words)
    return found.group(1)


def add_name(names, bits, name):
    """A name for each bit of a row, which must be within the octets and named by no other row."""
    for bit in bits:
        if bit >= len(names):
            raise ValueError("bit %d (%s) is not in the %d octets" % (bit, name, len(names) // 8))
        if names[bit]:
            raise ValueError("bit %d has two rows, %s and %s" % (bit, names[bit], name))
        names[bit] = name


def runs_of(names):
    """Lists of bits, from bit 7 down: neighbouring reserved bits of one octet together, every other bit alone."""
    runs = []
    for bit in reversed(range(len(names))):
        if runs and names[bit] == RESERVED and names[runs[-1][-1]] == RESERVED:
            runs[-1].append(bit)
        else:
            runs.append([bit])
    return runs


def room_of(name):
    """How much room a name needs at least: that of its widest piece, or more if it would have too many lines."""
    wide = max(text_width(piece, bold=name == MORE) for piece in re.split(r"(?<=_)| ", name))
    while len(lines_of(name, wide, name == MORE)) > MOST_LINES:
        wide += 1
    return wide + 5


def edges_of(names):
    """Where the eight columns begin, and the last ends: equally wide, except for a name that needs more."""
    needed = [max(room_of(name) for name in names[bit::8]) for bit in reversed(range(8))]
    wide = [need for need in needed if need > UNIT]
    shared = (8 * UNIT - sum(wide)) / (8 - len(wide))
    widths = [need if need > UNIT else shared for need in needed]
    return [LEFT + sum(widths[:i]) for i in range(9)]


class Strip:
    """The strip of one octet: its names from bit 0 up, the edges of its columns, and its place."""

    def __init__(self, names, edges, y):
        self.names = names
        self.edges = edges
        self.y = y
        lines = [MOST_LINES if name == MORE else len(lines_of(name, self.room([bit]))) for bit, name in enumerate(names)]
        # Low if all of it is reserved, otherwise high enough for its longest name.
        self.high = NUMBERS + (LINE + 4 if set(names) == {RESERVED} else LINE * max([2] + lines) + 5)

    def sides(self, run):
        """Where a run of bits begins and ends, from left to right."""
        return self.edges[7 - run[0]], self.edges[8 - run[-1]]

    def room(self, run):
        left, right = self.sides(run)
        return right - left - 4


def draw_run(picture, strip, run, first):
    """A bit's box, or that of reserved neighbours; `first` is the number of this octet's bit 0."""
    (left, right), name = strip.sides(run), strip.names[run[0]]
    if name == RESERVED:
        picture.hatch(left, strip.y + NUMBERS, right - left, strip.high - NUMBERS)
    picture.box(left, strip.y, right - left, strip.high)
    for bit in run:
        near, far = strip.sides([bit])
        if bit != run[0]:
            picture.line(near, strip.y, near, strip.y + NUMBERS)
        picture.text((near + far) / 2, strip.y + 12, str(first + bit), bold=name == MORE)
    if name == MORE:
        picture.box(left + 1.5, strip.y + 1.5, right - left - 3, strip.high - 3, thick=3)


def draw_run_name(picture, strip, run):
    """The name of a run; in its longer part, if the line between the two digits divides it."""
    name = strip.names[run[0]]
    parts = [[bit for bit in run if bit >= 4], [bit for bit in run if bit < 4]]
    longer = max(parts, key=len)
    middle = sum(strip.sides(longer)) / 2
    if name == MORE:
        picture.text(middle, strip.y + NUMBERS + 11, MORE, bold=True)
        picture.block(middle, strip.y + NUMBERS + 11 + LINE, lines_of(MAIN, strip.room(longer) - 4))
        return
    draw_centred(picture, middle, strip.y + NUMBERS, strip.high - NUMBERS, lines_of(name, strip.room(longer)), plate=name == RESERVED)


def draw_strip(picture, strip, label, first):
    """One octet's strip, with a thicker line between its two digits."""
    picture.text(LEFT - 6, strip.y + strip.high / 2 + 4, label, "end")
    picture.line(strip.edges[4], strip.y - 3, strip.edges[4], strip.y + strip.high + 3, thick=3)
    for run in runs_of(strip.names):
        draw_run(picture, strip, run, first)
        draw_run_name(picture, strip, run)


def octets_picture(title, names, first_octet, shown):
    """A strip for each octet, the first on top."""
    picture = Picture(title, shown)
    edges, y = edges_of(names), picture.top + 3
    for octet in range(len(names) // 8):
        strip = Strip(names[8 * octet:8 * octet + 8], edges, y)
        draw_strip(picture, strip, "octet %d" % (first_octet + octet), 8 * octet)
        y += strip.high + 6
    return picture.svg(y)


def flags_picture(title, rows, flags_octets):
    """Every bit of the flags; each has its row. The title is not shown: there is a heading above it."""
    names = [None] * (8 * flags_octets)
    for row in rows:
        add_name(names, bits_of_row(cell(row, "bit")), short_name(cell(row, "what it says")))
    if None in names:
        raise ValueError("bit %d of the flags has no row" % names.index(None))
    if not rows[0].get("what it says", "").startswith(MORE + ": the main group is present exactly when this bit is 0"):
        raise ValueError("bit 0 of the flags does not say that it is %s" % MORE)
    return octets_picture(title, names, 0, shown=False)


def feature_picture(title, rows, first_octet):
    """A u32 of the Feature value, which begins at octet `first_octet`; bits without a row are reserved."""
    if first_octet not in (0, 4):
        raise ValueError("a number of the Feature value begins at octet 0 or 4, not at %s" % first_octet)
    names = [None] * 32
    for row in rows:
        add_name(names, bits_of_row(cell(row, "bit")), cell(row, "name"))
    return octets_picture(title, [name or RESERVED for name in names], first_octet, shown=True)
