"""A record in its parts: strips of the payload's octets."""
from .names import draw_centred, draw_hanging, draw_strokes, name_lines
from .rows import groups_of, parts_of
from .svg import FLAGS, INNER, MARGIN, TINTS, Picture, text_width

HEADING = 14


def bit_words(group, wide):
    """`bit 3`, or `3` if that does not fit, or `main`."""
    if group.bit == 0:
        return group.name
    whole = "bit %d" % group.bit
    return whole if text_width(whole, bold=True) <= wide - 3 else str(group.bit)


def words_of(group):
    """A group's name; the main group's fields, since it is called main already."""
    return group.name if group.bit else ", ".join(field.name for field in group.fields)


def draw_octets(picture, group, x, foot, unit):
    """Short strokes at the foot between the octets, longer ones between the fields."""
    draw_strokes(picture, x, foot, unit, group.octets)
    for field in group.fields[1:]:
        at = x + (field.at - group.fields[0].at) * unit
        picture.line(at, foot, at, foot - 6, thick=1.5)


def draw_group(picture, group, x, y, unit, high, names):
    """Draws a group's box with its bit, and its name if it fits; otherwise returns the name, with the middle of its box."""
    wide = group.octets * unit
    picture.box(x, y, wide, high, TINTS[group.bit % 2], thick=1.5)
    draw_octets(picture, group, x, y + high, unit)
    lines = name_lines(words_of(group), wide, 2) if names else None
    if lines:
        picture.text(x + wide / 2, y + 11, bit_words(group, wide), bold=True, room=wide)
        draw_centred(picture, x + wide / 2, y + 14, high - 19, lines)
        return []
    draw_centred(picture, x + wide / 2, y, high - 4, [bit_words(group, wide)], bold=True, room=wide)
    return [(x + wide / 2, words_of(group))] if names else []


def draw_flags(picture, flags, x, y, unit, high):
    """The flags' box, each octet written in; `flags` above them if there is room."""
    picture.box(x, y, len(flags) * unit, high, FLAGS, thick=1.5)
    draw_strokes(picture, x, y + high, unit, len(flags))
    low = y + high / 2 + 2
    if high >= 36:
        picture.text(x + len(flags) * unit / 2, y + 12, "flags")
        low = y + 14 + (high - 18) / 2 + 4
    for i, octet in enumerate(flags):
        picture.text(x + (i + 0.5) * unit, low, octet, mono=True, room=unit)


def draw_strip(picture, flags, groups, y, unit, high, names):
    """Draws the flags and groups of a notification from the left margin on; returns the names that did not fit."""
    draw_flags(picture, flags, MARGIN, y, unit, high)
    x, hanging = MARGIN + len(flags) * unit, []
    for group in groups:
        hanging += draw_group(picture, group, x, y, unit, high, names)
        x += group.octets * unit
    return hanging


def last_alone_is_last(parts):
    """More Data is 0 in the last part and in no other."""
    if [part.more for part in parts] != [1] * (len(parts) - 1) + [0]:
        raise ValueError("More Data is not 0 in the last part alone")


def parts_picture(title, parts, fields, payload, flags_octets, names=True, shown=False, aside=""):
    """The parts of a record, each a strip of the payload's octets; without `names` the groups show only their bits. `aside` ends each heading."""
    picture = Picture(title, shown)
    read = parts_of(parts, groups_of(fields, flags_octets), payload, flags_octets)
    last_alone_is_last(read)
    unit, high, y = INNER / payload, 44 if names else 28, picture.top
    for part in read:
        heading = "part %d of %d: %d octets, More Data %d" % (part.number, len(read), part.octets, part.more) + aside
        picture.text(MARGIN, y + 11, heading, "start")
        y += HEADING
        picture.dashed_box(MARGIN, y, INNER, high)
        hanging = draw_strip(picture, part.flags, part.groups, y, unit, high, names)
        y += high + draw_hanging(picture, y + high, hanging) + 4
    return picture.svg(y)
