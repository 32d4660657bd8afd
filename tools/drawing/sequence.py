"""A session as a sequence chart, from a program's lines: clients at the sides, the console between them."""
import re
from typing import NamedTuple

from .svg import GREY, LINE, Picture, lines_of, text_width

LIFELINES = {"client 0": 42, "console": 340, "client 1": 638}
CONSOLE = LIFELINES["console"]
PITCH = 13
NOTE = 470
HEADS = 20
OCTETS = r"[0-9A-F]{2}(?: [0-9A-F]{2})*"
CALLS = r"connects|disconnects|turns indications (?:on|off)|confirms|writes(?: nothing)?"


class Call(NamedTuple):
    """A client's call with the octets that it writes, and what comes back."""
    client: str
    call: str
    octets: str
    response: str
    status: str
    refused: str


def is_state(line):
    return line.startswith(("a machine is opened: ", "now: "))


def call_of(line):
    """`client 0 writes 01: response 80 01 01, status 01` in its pieces."""
    back = r"(?:: (?:response (%s)(?:, status (%s))?|(refused \d+)))?" % (OCTETS, OCTETS)
    found = re.fullmatch(r"(client \d+) (%s)(?: (%s))?%s" % (CALLS, OCTETS, back), line.strip())
    if not found:
        raise ValueError("`%s` is no line of a session that is known" % line)
    call = Call(*(words or "" for words in found.groups()))
    if call.client not in LIFELINES:
        raise ValueError("`%s`: a session is drawn for clients 0 and 1" % line)
    if (call.call == "writes") != (call.octets != "") or (call.response and not call.octets):
        raise ValueError("`%s`: the octets do not go with the call" % line)
    if call.call.startswith("writes") and not call.response and not call.refused:
        raise ValueError("`%s`: a write without an answer" % line)
    return call


def note_lines(line):
    return lines_of(line, NOTE - 12)


def height_of(line):
    """How high a line of the session is drawn."""
    if is_state(line):
        return LINE * len(note_lines(line)) + 7
    call = call_of(line)
    return PITCH * (2 if call.response or call.refused else 1)


def height_of_all(lines):
    return sum(height_of(line) for line in lines)


def draw_words(picture, left, y, words, octets):
    """Words and octets beside each other; the place between them does not depend on the font."""
    between = left + text_width(words)
    picture.text(between, y + 4, words, "end")
    picture.text(between + 5, y + 4, octets, "start", mono=True)


def draw_arrow(picture, x1, x2, y, words, octets="", dashed=False):
    """An arrow along a row whose middle is given, its words in the middle of it, the octets after them in monospace."""
    along = 1 if x2 > x1 else -1
    wide = text_width(words) + (5 + text_width(octets, mono=True) if octets else 0)
    if wide > abs(x2 - x1) - 40:
        raise ValueError("`%s %s` has no room on its arrow" % (words, octets))
    left = (x1 + x2 - wide) / 2
    if octets:
        draw_words(picture, left, y, words, octets)
    else:
        picture.text((x1 + x2) / 2, y + 4, words)
    near, beyond = (left - 4, left + wide + 4) if along == 1 else (left + wide + 4, left - 4)
    picture.line(x1, y, near, y, dashed=dashed)
    picture.line(beyond, y, x2 - 6 * along, y, dashed=dashed)
    picture.head(x2 - along, y, along, 0)


def draw_status(picture, client, y, octets):
    """The status at the console, on the side where the client is not."""
    away = 1 if LIFELINES[client] < CONSOLE else -1
    wide = text_width("status") + 5 + text_width(octets, mono=True)
    draw_words(picture, CONSOLE + 8 if away == 1 else CONSOLE - 8 - wide, y, "status", octets)


def draw_call(picture, y, call):
    """The call as an arrow to the console, and what comes back as one on the next row."""
    x = LIFELINES[call.client]
    draw_arrow(picture, x, CONSOLE, y + PITCH / 2, call.call, call.octets)
    if call.response:
        draw_arrow(picture, CONSOLE, x, y + 1.5 * PITCH, "response", call.response)
    if call.status:
        draw_status(picture, call.client, y + 1.5 * PITCH, call.status)
    if call.refused:
        draw_arrow(picture, CONSOLE, x, y + 1.5 * PITCH, call.refused, dashed=True)


def draw_note(picture, y, line):
    """A state as a note on the console's lifeline."""
    lines = note_lines(line)
    wide = max(text_width(words) for words in lines) + 12
    picture.box(CONSOLE - wide / 2, y + 2, wide, LINE * len(lines) + 3, "#fff3d6", GREY)
    picture.block(CONSOLE, y + 13.5, lines)


def draw_lifelines(picture, y, foot, lines):
    """The lifelines of the console and of the clients that call, each under its name."""
    calling = {call_of(line).client for line in lines if not is_state(line)} | {"console"}
    for name in [name for name in LIFELINES if name in calling]:
        x, wide = LIFELINES[name], text_width(name, bold=True) + 10
        picture.box(x - wide / 2, y, wide, HEADS - 3, "#e4e4e4", thick=1.5)
        picture.text(x, y + 12.5, name, bold=True)
        picture.line(x, y + HEADS - 3, x, foot, GREY)


def sequence_picture(title, lines):
    """A session in one picture, however long."""
    if not lines:
        raise ValueError("the session `%s` has no lines" % title)
    picture = Picture(title)
    y = picture.top + HEADS
    foot = y + height_of_all(lines) + 6
    draw_lifelines(picture, picture.top, foot, lines)
    for line in lines:
        if is_state(line):
            draw_note(picture, y, line)
        else:
            draw_call(picture, y, call_of(line))
        y += height_of(line)
    return picture.svg(foot + 4)


def stretches_of(lines):
    """The lines in stretches that each end with a line of state, where a picture may end."""
    stretches = [[]]
    for line in lines:
        stretches[-1].append(line)
        if is_state(line):
            stretches.append([])
    return [stretch for stretch in stretches if stretch]


def broken(lines, room):
    """As many stretches to a picture as it has room for; a picture begins with the state in which the one before it ends."""
    pictures = [[]]
    for stretch in stretches_of(lines):
        if pictures[-1] and height_of_all(pictures[-1] + stretch) > room:
            pictures.append(pictures[-1][-1:])
        pictures[-1] += stretch
        if height_of_all(pictures[-1]) > room:
            raise ValueError("no line of state stands between `%s` and `%s`, where the session must be broken" % (stretch[0], stretch[-1]))
    return pictures


def sequence_pictures(title, lines, most=800):
    """A session in as many pictures as it takes, none higher than `most`, each broken off at a line of state."""
    room = most - Picture(title + " (10 of 10)").top - HEADS - 10
    pictures = broken(lines, room)
    if len(pictures) == 1:
        return [sequence_picture(title, lines)]
    return [sequence_picture("%s (%d of %d)" % (title, i + 1, len(pictures)), one) for i, one in enumerate(pictures)]
