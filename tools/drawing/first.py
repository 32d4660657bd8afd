"""A notification read octet by octet, and the way of a record from the console to the app."""
from .names import draw_centred
from .rows import groups_of
from .svg import FLAGS, INNER, MARGIN, TINTS, Picture

OCTET = 24
BOX = 34


def number_of(octets, width):
    """The number that octets stand for, the least first; s16 is two's complement."""
    value = int.from_bytes(octets, "little")
    return value - (1 << 16) if width == "s16" and value >= 1 << 15 else value


def words_of_flags(flags, groups):
    """What the flags say: the bits that are 1, and More Data."""
    named = [str(group.bit) for group in groups if group.bit and flags >> group.bit & 1]
    return ["%04X in hex: bits %s" % (flags, " and ".join(named)), "are 1, their groups present;", "bit 0, More Data, is 0:", "the main group is present"]


def draw_octets(picture, octets, y, unit):
    for i, octet in enumerate(octets):
        picture.box(MARGIN + i * unit, y, unit, OCTET)
        picture.text(MARGIN + (i + 0.5) * unit, y + 16, "%02X" % octet, mono=True, size=13)


def draw_read(picture, x, y, wide, name, fill, lines):
    """What some octets are, and below it how they are read."""
    picture.box(x, y, wide, BOX, fill, thick=1.5)
    draw_centred(picture, x + wide / 2, y, BOX, name)
    draw_centred(picture, x + wide / 2, y + BOX + 2, 4 * 13, lines)


def present(groups, flags):
    return [group for group in groups if (flags >> group.bit & 1) == (group.bit > 0)]


def first_picture(title, rows, octets, flags_octets):
    """A notification with More Data 0: its octets, what each is, and how it is read."""
    picture, groups = Picture(title), groups_of(rows, flags_octets)
    flags, unit = int.from_bytes(octets[:flags_octets], "little"), INNER / len(octets)
    if flags & 1:
        raise ValueError("More Data is 1 in the first notification")
    y = picture.top
    draw_octets(picture, octets, y, unit)
    draw_read(picture, MARGIN, y + OCTET, flags_octets * unit, ["flags"], FLAGS, words_of_flags(flags, groups))
    at = flags_octets
    for field, group in [(field, group) for group in present(groups, flags) for field in group.fields]:
        piece = octets[at:at + field.octets]
        name = [field.name, "main group" if group.bit == 0 else "bit %d" % group.bit]
        hexed = "".join("%02X" % octet for octet in reversed(piece))
        draw_read(picture, MARGIN + at * unit, y + OCTET, field.octets * unit, name, TINTS[group.bit // 2 % 2], ["%s in hex" % hexed, str(number_of(piece, field.width))])
        at += field.octets
    if at != len(octets):
        raise ValueError("the groups of the first notification have %d octets and not %d" % (at, len(octets)))
    return picture.svg(y + OCTET + BOX + 60)


# The boxes of that way: where each is, how wide and how high it is, and its words; and the arrows between them, each with its word and how far it is off
# the middle.
SIDES = [("console", 10, 288), ("app", 382, 288)]
BOXES = {
    "sent": (22, 34, 84, 36, ["record"]), "parts": (204, 34, 84, 36, ["parts"]), "heard": (394, 34, 92, 36, ["notifications"]),
    "record": (574, 34, 84, 36, ["record"]), "machine": (22, 86, 84, 66, ["machine's", "state"]), "point": (184, 86, 104, 66, ["control point"]),
    "client": (394, 86, 92, 66, ["client"]), "capture": (394, 168, 92, 36, ["capture"]), "lines": (574, 168, 84, 36, ["lines of text"]),
}
ARROWS = [("sent", "parts", "split", 0), ("parts", "heard", "", 0), ("heard", "record", "collect", 0), ("client", "point", "write", -18),
          ("point", "client", "response", -3), ("client", "point", "confirm", 12), ("point", "client", "status", 27), ("machine", "point", "", -9),
          ("point", "machine", "", 9), ("capture", "lines", "list", 0)]
FOOT = 210


def draw_arrow(picture, start, end, words, aside):
    """An arrow from a box to another in the same row, with its word above it."""
    (x1, y1, wide1, high, _), (x2, _, wide2, _, _) = BOXES[start], BOXES[end]
    along = 1 if x2 > x1 else -1
    near, far = (x1 + wide1, x2) if along == 1 else (x1, x2 + wide2)
    y = picture.top + y1 + high / 2 + aside
    picture.line(near, y, far - 4 * along, y)
    picture.head(far, y, along, 0)
    if words:
        picture.text((near + far) / 2, y - 3, words, bold=True, plate=True)


def way_picture(title):
    """The way of a record from the console to the app, and of a write back, with the calls of this book."""
    picture = Picture(title)
    for name, x, wide in SIDES:
        picture.dashed_box(x, picture.top + 4, wide, FOOT)
        picture.text(x + 8, picture.top + 20, name, "start", bold=True)
    picture.hatch(306, picture.top + 4, 68, FOOT)
    picture.text(340, picture.top + 20, "radio", bold=True, plate=True)
    for x, y, wide, high, words in BOXES.values():
        picture.box(x, picture.top + y, wide, high, "#ffffff", thick=1.5)
        draw_centred(picture, x + wide / 2, picture.top + y, high, words)
    for arrow in ARROWS:
        draw_arrow(picture, *arrow)
    return picture.svg(picture.top + FOOT + 10)
