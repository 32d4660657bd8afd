"""The notification with all groups present, octet by octet."""
from .names import draw_centred, draw_hanging, draw_strokes, name_lines
from .rows import groups_of
from .svg import FLAGS, GREY, INNER, LINE, MARGIN, TINTS, Picture, text_width

MOST_OCTETS = 14
LABEL = 15
NUMBERS = 14
MOST_LINES = 3


def rows_of_groups(groups, flags_octets):
    """Whole groups, as many to a row as fit beside each other; the first row begins with the flags."""
    rows, used = [[]], flags_octets
    for group in groups:
        if group.octets > MOST_OCTETS:
            raise ValueError("group %s has %d octets, and a row at most %d" % (group.name, group.octets, MOST_OCTETS))
        if used + group.octets > MOST_OCTETS:
            rows.append([])
            used = 0
        rows[-1].append(group)
        used += group.octets
    return rows


def width_of_row(row):
    return sum(group.octets for group in row)


def label_of(group, wide):
    """The label above a group: its bit, and its name if that says more than its field's; only the bit if that does not fit."""
    if group.bit == 0:
        return "%s: bit 0=0" % group.name
    bit = "bit %d" % group.bit
    if [field.name for field in group.fields] == [group.name]:
        return bit
    whole = "%s: %s" % (bit, group.name)
    return whole if text_width(whole, bold=True) <= wide else bit


def draw_field(picture, field, x, y, unit, high):
    """Draws a field's box with its octet's number, its width and its name; returns the name if it does not fit."""
    wide = field.octets * unit
    picture.box(x, y, wide, high, stroke=GREY)
    draw_strokes(picture, x, y + high, unit, field.octets)
    picture.text(x + 4, y + 12, str(field.at), "start", fill="#333333")
    picture.text(x + wide - 4, y + 12, field.width, "end", fill="#333333")
    lines = name_lines(field.name, wide, MOST_LINES)
    draw_centred(picture, x + wide / 2, y + NUMBERS, high - NUMBERS - 2, lines or [])
    return [] if lines else [(x + wide / 2, field.name)]


def draw_group(picture, group, x, y, unit, high):
    """Draws a group, outlined, under its label; returns the names that did not fit."""
    wide, start, hanging = group.octets * unit, group.fields[0].at, []
    picture.area(x, y, wide, high, TINTS[group.bit % 2])
    for field in group.fields:
        hanging += draw_field(picture, field, x + (field.at - start) * unit, y, unit, high)
    picture.box(x, y, wide, high, thick=2)
    picture.text(x + 1, y - 5, label_of(group, wide), "start", bold=True)
    return hanging


def draw_flags(picture, flags_octets, y, unit, high):
    wide = flags_octets * unit
    picture.area(MARGIN, y, wide, high, FLAGS)
    draw_strokes(picture, MARGIN, y + high, unit, flags_octets)
    picture.text(MARGIN + 4, y + 12, "0", "start", fill="#333333")
    draw_centred(picture, MARGIN + wide / 2, y + NUMBERS, high - NUMBERS - 2, ["flags"])
    picture.box(MARGIN, y, wide, high, thick=2)


def row_height(row, unit):
    """High enough for the name with the most lines."""
    lines = [name_lines(field.name, field.octets * unit, MOST_LINES) or [] for group in row for field in group.fields]
    return NUMBERS + LINE * max([1] + [len(of_field) for of_field in lines]) + 6


def draw_row(picture, row, x, y, unit):
    """Draws a row of groups from a place on; returns where it ends, with the names below it."""
    high, hanging = row_height(row, unit), []
    for group in row:
        hanging += draw_group(picture, group, x, y, unit, high)
        x += group.octets * unit
    return y + high + draw_hanging(picture, y + high, hanging)


def whole_picture(title, rows, flags_octets):
    """The notification with all groups present, in rows of whole groups. The title is not shown: there is a heading above it."""
    picture = Picture(title, shown=False)
    groups = groups_of(rows, flags_octets)
    lines = rows_of_groups(groups, flags_octets)
    unit = INNER / max([flags_octets + width_of_row(lines[0])] + [width_of_row(row) for row in lines])
    draw_flags(picture, flags_octets, picture.top + LABEL, unit, row_height(lines[0], unit))
    x, y = MARGIN + flags_octets * unit, picture.top
    for row in lines:
        y = draw_row(picture, row, x, y + LABEL, unit) + 4
        x = MARGIN
    return picture.svg(y)
