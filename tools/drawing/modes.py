"""The states of a machine, with the writes that lead from one to another."""
import re

from .rows import cell
from .svg import INNER, LINE, MARGIN, Picture, number, text_width

BOX = 150
GAP = (INNER - 3 * BOX) / 2
STATE = "machine"


def changes_of(rows):
    """Each row's state with each write and where it leads: a state of the table, or a result."""
    states = [cell(row, STATE) for row in rows]
    if len(set(states)) != 3 or len(states) != 3:
        raise ValueError("the states are %s and not three" % ", ".join(states))
    changes = [(cell(row, STATE), write, cell(row, write)) for row in rows for write in rows[0] if write != STATE]
    for state, write, to in changes:
        if to not in states and not re.fullmatch(r"result [0-9A-F]{2}", to):
            raise ValueError("%s at %s leads to `%s`, which is neither a state nor a result" % (write, state, to))
    return states, changes


def writes_between(changes, one, other):
    """The writes that lead from one state to another; a reset of the stopped machine changes nothing and is left out."""
    writes = [write for state, write, to in changes if (state, to) == (one, other)]
    return " or ".join(write for write in writes if (one, other, write) != ("stopped", "stopped", "01"))


def draw_state(picture, x, y, high, state, changes):
    """A state's box, its name and the writes that only give a result there."""
    picture.box(x, y, BOX, high, thick=1.5, more='rx="10"')
    picture.text(x + BOX / 2, y + 16, state, size=12, bold=True)
    results = ["%s: %s" % (write, to) for from_state, write, to in changes if from_state == state and to.startswith("result ")]
    picture.block(x + BOX / 2, y + 33, results, mono=True, room=BOX)


def draw_across(picture, x1, x2, y, writes):
    """An arrow between neighbours, the writes above it."""
    if writes:
        along = 1 if x2 > x1 else -1
        picture.line(x1 + along, y, x2 - 6 * along, y, thick=1.5)
        picture.head(x2 - along, y, along, 0)
        picture.text((x1 + x2) / 2, y - 5, writes, mono=True)


def draw_round(picture, x1, x2, y, down, writes):
    """An arrow between the first and the last state: below the boxes if `down` is 1, above them if it is -1."""
    if not writes:
        return
    along = 10 if x2 > x1 else -10
    far = y + 24 * down
    places = [(x1, y), (x1, far - 10 * down), (x1, far), (x1 + along, far), (x2 - along, far), (x2, far), (x2, far - 10 * down), (x2, y + 6 * down)]
    shape = "M%s %sL%s %sQ%s %s %s %sL%s %sQ%s %s %s %sL%s %s" % tuple(number(value) for place in places for value in place)
    picture.path(shape, thick=1.5)
    picture.head(x2, y + down, 0, -down)
    picture.text((x1 + x2) / 2, far + 4, writes, mono=True, plate=True)


def draw_loop(picture, x, y, writes):
    """An arrow from a state's top back to it, the writes beside it."""
    if writes:
        shape = "M%s %sv-10q0 -6 6 -6h12q6 0 6 6v4" % (number(x), number(y))
        picture.path(shape, thick=1.5)
        picture.head(x + 24, y - 1, 0, 1)
        picture.text(x + 31, y - 6, writes, "start", mono=True)


def draw_neighbours(picture, y, high, lefts, states, changes):
    """The arrows between neighbours: to the right above, to the left below."""
    for i in range(2):
        draw_across(picture, lefts[i] + BOX, lefts[i + 1], y + high * 0.36, writes_between(changes, states[i], states[i + 1]))
        draw_across(picture, lefts[i + 1], lefts[i] + BOX, y + high * 0.76, writes_between(changes, states[i + 1], states[i]))


def draw_arrows(picture, y, high, states, changes):
    """All arrows: between neighbours, between the first and the last around the boxes, and loops."""
    lefts = [MARGIN + i * (BOX + GAP) for i in range(3)]
    draw_neighbours(picture, y, high, lefts, states, changes)
    first, last = lefts[0] + BOX / 2, lefts[2] + BOX / 2
    draw_round(picture, last, first, y + high, 1, writes_between(changes, states[2], states[0]))
    draw_round(picture, first, last, y, -1, writes_between(changes, states[0], states[2]))
    for left, state in zip(lefts, states):
        draw_loop(picture, left + BOX / 2 + 10, y, writes_between(changes, state, state))


def room_above(states, changes):
    """How much room the arrows above the boxes take."""
    if writes_between(changes, states[0], states[2]):
        return 32
    return 18 if any(writes_between(changes, state, state) for state in states) else 2


def modes_picture(title, rows):
    """The three states in a row, in the order of the table."""
    states, changes = changes_of(rows)
    widest = max(text_width(writes_between(changes, one, other), mono=True) for one in states for other in states)
    if widest > GAP - 8:
        raise ValueError("the writes from one state to another have no room between two states")
    picture = Picture(title)
    results = max(sum(to.startswith("result ") for of_state, _, to in changes if of_state == state) for state in states)
    high = max(58, 27 + results * LINE)
    y = picture.top + room_above(states, changes)
    for i, state in enumerate(states):
        draw_state(picture, MARGIN + i * (BOX + GAP), y, high, state, changes)
    draw_arrows(picture, y, high, states, changes)
    return picture.svg(y + high + 34)
