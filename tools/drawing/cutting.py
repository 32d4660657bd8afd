"""How the splitting rule cuts a record: at each step what was tried, with the payload's end, and the part that is sent."""
from .names import draw_centred, draw_strokes
from .rows import cell, groups_of, named_groups, parts_of, whole_number
from .splitting import last_alone_is_last
from .svg import FLAGS, GREY, INNER, MARGIN, TINTS, Picture

HEADING = 15
HIGH = 22
WHITE = "#ffffff"
TRIED, OCTETS, SENT = "remaining groups", "octets with flags and main", "sent"


def tried_of(row, part, groups, flags_octets):
    """The groups that a step tried, the main group first; its octets and its part must be as the row says."""
    tried = groups[:1] + named_groups(cell(row, TRIED), groups[1:])
    octets = flags_octets + sum(group.octets for group in tried)
    if octets != whole_number(cell(row, OCTETS), OCTETS):
        raise ValueError("flags, main and groups %s take %d octets, not %s" % (cell(row, TRIED), octets, cell(row, OCTETS)))
    if cell(row, SENT) != "part %d" % part.number:
        raise ValueError("a step sends %s where part %d is next" % (cell(row, SENT), part.number))
    return tried


def what_to_send(tried, payload, flags_octets):
    """The splitting rule: all that was tried if it fits, otherwise the longest run of the lowest remaining groups that does."""
    if flags_octets + sum(group.octets for group in tried) <= payload:
        return tried
    run, used = [], flags_octets
    for group in tried[1:]:
        used += group.octets
        if used > payload:
            break
        run.append(group)
    return run


def steps_of(rows, parts, groups, payload, flags_octets):
    """The groups tried at each step, checked against the rule: its part, and what remains for the step after it."""
    if len(rows) != len(parts):
        raise ValueError("there are %d steps and %d parts" % (len(rows), len(parts)))
    steps, remaining = [], groups[1:]
    for row, part in zip(rows, parts):
        tried = tried_of(row, part, groups, flags_octets)
        if tried[1:] != remaining:
            raise ValueError("at part %d the remaining groups are not `%s`" % (part.number, cell(row, TRIED)))
        if part.groups != what_to_send(tried, payload, flags_octets):
            raise ValueError("part %d is not what the splitting rule sends at payload %d" % (part.number, payload))
        remaining = [group for group in remaining if group not in part.groups]
        steps.append(tried)
    return steps


class Scale:
    """What all strips of a picture share: how wide an octet is, how many the flags take, and where the payload ends."""

    def __init__(self, payload, flags_octets, groups):
        self.payload = payload
        self.flags_octets = flags_octets
        self.unit = INNER / max(payload, self.octets(groups))
        self.end = MARGIN + payload * self.unit

    def octets(self, groups):
        return self.flags_octets + sum(group.octets for group in groups)

    def middle(self, left, right):
        """Where a box's text goes: into the longer half, if the payload's end divides the box."""
        if left < self.end < right:
            return (left + self.end) / 2 if self.end - left >= right - self.end else (self.end + right) / 2
        return (left + right) / 2


def draw_box(picture, scale, x, y, octets, words, fill):
    """Draws a box of `octets` octets with its words, white in a grey outline if it was only tried; returns where it ends."""
    right = x + octets * scale.unit
    picture.box(x, y, right - x, HIGH, fill, GREY if fill == WHITE else "#000000")
    draw_strokes(picture, x, y + HIGH, scale.unit, octets)
    draw_centred(picture, scale.middle(x, right), y, HIGH - 2, [words] if words else [], room=right - x)
    return right


def draw_flags(picture, scale, y, flags):
    """Draws the box of the flags, with their octets if there are any; returns where the groups begin."""
    right = draw_box(picture, scale, MARGIN, y, scale.flags_octets, None if flags else "flags", FLAGS if flags else WHITE)
    for i, octet in enumerate(flags or []):
        picture.text(MARGIN + (i + 0.5) * scale.unit, y + HIGH / 2 + 3, octet, mono=True, room=scale.unit)
    return right


def draw_boxes(picture, scale, y, groups, flags=None):
    """A strip of boxes labelled with their bits: white if they were only tried; tinted, after the flags' octets, if they are sent."""
    x = draw_flags(picture, scale, y, flags)
    for group in groups:
        bit = str(group.bit) if group.bit else group.name
        x = draw_box(picture, scale, x, y, group.octets, bit, TINTS[group.bit % 2] if flags else WHITE)


def draw_step(picture, scale, y, tried, part):
    """Draws a step's strips, with headings: what was tried, if it does not fit, and what is sent; returns where the next begins."""
    octets = scale.octets(tried)
    sent = "%d octets: sent as part %d" % (part.octets, part.number)
    if octets <= scale.payload:
        sent = "%d octets: fits in %d, sent as part %d" % (octets, scale.payload, part.number)
    else:
        picture.text(MARGIN, y + 10, "%d octets: does not fit in %d" % (octets, scale.payload), "start")
        draw_boxes(picture, scale, y + HEADING, tried)
        y += HEADING + HIGH + 3
    picture.text(MARGIN, y + 10, sent, "start")
    draw_boxes(picture, scale, y + HEADING, part.groups, part.flags)
    return y + HEADING + HIGH + 11


def cut_picture(title, steps, parts, fields, payload, flags_octets):
    """The steps of the splitting rule, one below the other, all to one scale."""
    groups = groups_of(fields, flags_octets)
    read = parts_of(parts, groups, payload, flags_octets)
    last_alone_is_last(read)
    tried = steps_of(steps, read, groups, payload, flags_octets)
    picture, scale = Picture(title), Scale(payload, flags_octets, groups)
    y = picture.top
    picture.text(min(scale.end, MARGIN + INNER - 40), y + 10, "payload %d" % payload)
    for groups_tried, part in zip(tried, read):
        y = draw_step(picture, scale, y, groups_tried, part)
    picture.line(scale.end, picture.top + HEADING - 1, scale.end, y - 8, thick=2)
    return picture.svg(y - 2)
