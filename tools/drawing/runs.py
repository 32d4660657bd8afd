"""The states of a spin down's run, with the calls that lead from one to another."""
import re
from typing import NamedTuple

from .rows import cell
from .svg import MARGIN, TINTS, WIDE, Picture, lines_of, text_width

CALL = "call"
BOX = 170
LEFT = MARGIN + BOX
RIGHT = WIDE - MARGIN - BOX
ROW = 19
BETWEEN = 44


class Change(NamedTuple):
    """A call in a state: the status that it gives, and the state to which it leads or the result that it has."""
    state: str
    call: str
    status: str
    to: str

    def words(self):
        return self.call + (": " + self.status if self.status else "")


def changes_of(rows):
    """The states, which are the columns after the call's, and what each call does in each."""
    states = [column for column in rows[0] if column != CALL]
    if len(states) != 3:
        raise ValueError("the states are %s and not three" % ", ".join(states))
    changes = []
    for row in rows:
        for state in states:
            status, to = re.fullmatch(r"(?:(status [0-9A-F ]+): )?(.*)", cell(row, state)).groups()
            if to not in states and not re.fullmatch(r"result [0-9A-F]{2}", to):
                raise ValueError("%s at %s leads to `%s`, which is neither a state nor a result" % (cell(row, CALL), state, to))
            changes.append(Change(state, cell(row, CALL), status or "", to))
    return states, changes


def between(changes, one, other):
    return [change for change in changes if (change.state, change.to) == (one, other)]


def check_drawn(states, changes):
    """Every call that changes the state has an arrow: no run to the first state of a run, that to the second, and both to no run."""
    none, first, second = states
    for change in changes:
        drawn = [(none, first), (first, second), (first, none), (second, none)]
        if change.to in states and change.to != change.state and (change.state, change.to) not in drawn:
            raise ValueError("no arrow leads from %s to %s" % (change.state, change.to))


def draw_state(picture, x, y, high, state, changes, fill):
    """A state's box, its name and the calls that only give a result there."""
    picture.box(x, y, BOX, high, fill, thick=1.5, more='rx="10"')
    lines = lines_of(state, BOX - 16, bold=True)
    results = ["%s: %s" % (change.call, change.to) for change in changes if change.state == state and change.to.startswith("result ")]
    top = y + (high - 14 * (len(lines) + len(results))) / 2 + 11
    for i, line in enumerate(lines):
        picture.text(x + BOX / 2, top + 14 * i, line, bold=True)
    for i, line in enumerate(results, len(lines)):
        picture.text(x + BOX / 2, top + 14 * i, line, room=BOX)


def draw_across(picture, x1, x2, y, words):
    """An arrow between the left box and a right one, the words above it."""
    if text_width(words) > abs(x2 - x1) - 16:
        raise ValueError("`%s` has no room on its arrow" % words)
    along = 1 if x2 > x1 else -1
    picture.line(x1 + along, y, x2 - 6 * along, y)
    picture.head(x2 - along, y, along, 0)
    picture.text((x1 + x2) / 2, y - 4, words)


def draw_rows(picture, y, changes, along):
    """An arrow for each change, one below another; where they end."""
    x1, x2 = (LEFT, RIGHT) if along == 1 else (RIGHT, LEFT)
    for i, change in enumerate(changes):
        draw_across(picture, x1, x2, y + (i + 0.8) * ROW, change.words())
    return y + len(changes) * ROW


def draw_down(picture, y, foot, changes):
    """The arrow from a run's first state down to its second, the words at its left."""
    x = RIGHT + BOX / 2
    picture.line(x, y + 1, x, foot - 6)
    picture.head(x, foot - 1, 0, 1)
    for i, change in enumerate(changes):
        picture.text(x - 10, y + BETWEEN / 2 + 4 + 13 * i, change.words(), "end")


def runs_picture(title, rows):
    """No run at the left, the two states of a run at the right, the second below the first."""
    states, changes = changes_of(rows)
    check_drawn(states, changes)
    none, first, second = states
    picture = Picture(title)
    top = picture.top + 2
    middle = draw_rows(picture, draw_rows(picture, top, between(changes, none, first), 1), between(changes, first, none), -1) + 6
    low = middle + BETWEEN
    foot = draw_rows(picture, low, between(changes, second, none), -1) + 6
    draw_down(picture, middle, low, between(changes, first, second))
    draw_state(picture, MARGIN, top, foot - top, none, changes, "#ffffff")
    draw_state(picture, RIGHT, top, middle - top, first, changes, TINTS[0])
    draw_state(picture, RIGHT, low, foot - low, second, changes, TINTS[1])
    return picture.svg(foot + 6)
