"""What a collection answers to each part that is sent, when some are lost on the way."""
import re
from typing import List, NamedTuple

from .svg import INNER, LINE, MARGIN, Picture, lines_of, text_width

DROPPED = ", held groups dropped"
BOX = 34
WAY = 30
COLLECTION = 20
NARROWEST = 60


class Sent(NamedTuple):
    record: str
    part: str
    parts: str
    answer: str


def sent_of(line):
    """`record 1, part 0 of 3: waiting` in its pieces."""
    found = re.fullmatch(r"(record \d+), (part \d+) of (\d+): (.+)", line.strip())
    if not found:
        raise ValueError("`%s` does not say which part was sent" % line)
    if int(found.group(2).split()[1]) >= int(found.group(3)):
        raise ValueError("`%s`: there is no such part" % line)
    return Sent(*found.groups())


def mixed(answer):
    """Whether a record has values of two records: in record n every value is n."""
    return answer.startswith("record with") and len(set(re.findall(r"=(-?\d+)", answer))) > 1


def answer_lines(answer, wide):
    """An answer's words in lines; each field of a record begins its own."""
    whole = answer[:-len(DROPPED)] if answer.endswith(DROPPED) else answer
    if not re.fullmatch(r"lost|waiting|refused \d+|record with( [a-z_]+=-?\d+)+", whole):
        raise ValueError("`%s` is no answer that is known" % answer)
    if not whole.startswith("record with"):
        return lines_of(answer, wide)
    words = ["a mixture:" if mixed(whole) else "record with"] + whole.split()[2:]
    words[-1] += answer[len(whole):]
    return [line for word in words for line in lines_of(word, wide)]


def records_of(sent):
    """The parts of each record, those in a row together."""
    records: List[List[Sent]] = []
    for one in sent:
        if records and records[-1][0].record == one.record:
            records[-1].append(one)
        else:
            records.append([one])
    return records


def bracket_words(one, wide):
    """`record 1 in 3 parts`, or `record 1` if that does not fit."""
    whole = "%s in %s part%s" % (one.record, one.parts, "" if one.parts == "1" else "s")
    return whole if text_width(whole, bold=True) <= wide else one.record


def draw_brackets(picture, y, sent, unit):
    """A bracket over the parts of each record."""
    x = MARGIN
    for record in records_of(sent):
        wide = len(record) * unit
        picture.text(x + wide / 2, y + 11, bracket_words(record[0], wide - 6), bold=True)
        picture.path("M%d %dv-6h%dv6" % (x + 4, y + 22, wide - 8))
        x += wide


def draw_way(picture, x, y, lost):
    """An arrow down to the collection, or one that ends in a cross."""
    foot = y + (WAY / 2 if lost else WAY - 6)
    picture.line(x, y, x, foot, thick=1.5)
    if lost:
        picture.path("M%s %sl10 10m0 -10l-10 10" % (x - 5, foot - 5), thick=2.5)
        picture.text(x + 9, foot + 4, "lost", "start")
    else:
        picture.head(x, y + WAY - 1, 0, 1)


def draw_answer(picture, x, y, unit, answer):
    """Draws an answer below the collection, a record's outlined; returns how high it is."""
    if answer == "lost":
        return 0
    picture.line(x, y, x, y + 9, thick=1.5)
    picture.head(x, y + 14, 0, 1)
    outlined = answer.startswith("record ")
    lines = answer_lines(answer, unit - (8 if outlined else 5))
    high = LINE * len(lines) + 6
    if outlined:
        picture.box(x - unit / 2 + 2, y + 15, unit - 4, high, thick=2)
    picture.block(x, y + 28, lines)
    return 15 + high


def lost_picture(title, lines):
    """A column for each part that is sent: the part, its way to the collection, and the answer."""
    sent = [sent_of(line) for line in lines]
    if not sent or INNER / len(sent) < NARROWEST:
        raise ValueError("%d parts do not fit side by side in one picture" % len(sent))
    picture, unit, feet = Picture(title), INNER / len(sent), []
    draw_brackets(picture, picture.top, sent, unit)
    top = picture.top + 26
    bar = top + BOX + WAY
    for i, one in enumerate(sent):
        x = MARGIN + (i + 0.5) * unit
        picture.box(x - unit / 2 + 4, top, unit - 8, BOX, "#ffffff", thick=1.5)
        picture.block(x, top + 14, [one.record, one.part])
        draw_way(picture, x, top + BOX, one.answer == "lost")
        feet.append(draw_answer(picture, x, bar + COLLECTION, unit, one.answer))
    picture.box(MARGIN, bar, INNER, COLLECTION, "#e4e4e4", thick=1.5)
    picture.text(MARGIN + INNER / 2, bar + 14, "collection", bold=True)
    return picture.svg(bar + COLLECTION + max(feet) + 8)
