"""A spin down's run from a program's lines: the speeds of the flywheel one after another, the two targets, and the statuses where they are said."""
import re
from typing import NamedTuple

from .svg import GREY, MARGIN, TINTS, WIDE, Picture, number

LEFT = 84
RIGHT = WIDE - MARGIN
HIGH = 220
HEAD = 20
FOOT = 47

WORDS = {"14 04": "stop pedalling", "14 02": "success"}
FILLS = {"no run": "#ffffff", "a run that has said nothing": TINTS[0], "a run that has said 4": TINTS[1]}


class Speed(NamedTuple):
    """A speed that is fed, the status that it gives, and the run after it."""
    speed: int
    status: str
    run: str


class Coast(NamedTuple):
    """What is written to start the run, the response, its two targets, the run after that, and the speeds."""
    write: str
    response: str
    low: int
    high: int
    run: str
    speeds: list


def started(line):
    """What a start writes, its response, and the two targets in it, least octet first."""
    found = re.fullmatch(r"client \d+ writes (13 01): response (80 13 01((?: [0-9A-F]{2}){4}))", line)
    if not found:
        raise ValueError("`%s` is no start that succeeds" % line)
    octets = bytes.fromhex(found[3])
    return found[1], found[2], int.from_bytes(octets[:2], "little"), int.from_bytes(octets[2:], "little")


def coast_of(lines):
    """The lines of one run: a start, then speeds; a line of state says which run there is after the line before it."""
    write, response, low, high = started(lines[0])
    runs, speeds = [], []
    for line in lines[1:]:
        fed = re.fullmatch(r"flywheel speed (\d+)(?:: status (.. ..))?", line)
        state = re.fullmatch(r"now: .* holds control, (.*)", line)
        if fed:
            speeds.append(Speed(int(fed[1]), fed[2] or "", runs[-1] if runs else ""))
        elif state and state[1] in FILLS:
            runs.append(state[1])
            speeds[-1:] = [speeds[-1]._replace(run=state[1])] if speeds else []
        elif not line.endswith(" confirms"):
            raise ValueError("`%s` is no line of a run that is known" % line)
    if not speeds or not runs or not speeds[0].run:
        raise ValueError("no speeds, or no run before them")
    return Coast(write, response, low, high, runs[0], speeds)


class Scale:
    """Where a speed is drawn: its number in the row, from 1 on, along; the speed upwards from 0."""

    def __init__(self, top, speeds):
        self.top, self.foot = top, top + HIGH
        self.step = (RIGHT - LEFT) / (len(speeds) + 1)
        self.most = max(speed.speed for speed in speeds) * 1.1

    def x(self, i):
        return LEFT + i * self.step

    def y(self, speed):
        return self.foot - HIGH * speed / self.most


def bands_of(coast):
    """Each run with the number of the speed at which it begins and that at which it ends; the start is 0."""
    bands = [[coast.run, 0, 0]]
    for i, speed in enumerate(coast.speeds, 1):
        bands[-1][2] = i
        if speed.run != bands[-1][0]:
            bands.append([speed.run, i, i])
    return bands


def draw_bands(picture, scale, coast):
    """A tinted band for each run, its name above it; the last reaches to the right side."""
    bands = bands_of(coast)
    for run, begin, end in bands:
        left, right = scale.x(begin), RIGHT if run == bands[-1][0] else scale.x(end)
        picture.box(left, scale.top - HEAD, right - left, HIGH + HEAD, FILLS[run], GREY)
        picture.text((left + right) / 2, scale.top - HEAD + 14, run, bold=True, room=right - left)


def draw_target(picture, scale, name, speed):
    """A target as a dashed line, its name and number at the left."""
    y = scale.y(speed)
    picture.line(LEFT, y, RIGHT, y, dashed=True)
    picture.text(LEFT - 6, y + 4, "%s %d" % (name, speed), "end", bold=True)


def draw_status(picture, x, y, status):
    """A status below and before the point at which it is said, with its meaning."""
    picture.block(x - 6, y + 17, ["status " + status, WORDS[status]], anchor="end")


def label_of(place, after, speed, lines):
    """Where a speed's number begins: above its point, or below it if a dashed line, or the line to the point after it, would go through the number there."""
    x, y = place
    crossed = after[1] < y or any(y - 18 < line < y - 4 for line in lines)
    return x + (4 if speed.status else -4), y + (17 if crossed else -8)


def draw_speeds(picture, scale, coast):
    """The speeds as points on a line, each with its number; the one that gives a status is filled."""
    places = [(scale.x(i), scale.y(speed.speed)) for i, speed in enumerate(coast.speeds, 1)]
    lines = [scale.y(coast.low), scale.y(coast.high)]
    picture.path("M" + "L".join("%s %s" % (number(x), number(y)) for x, y in places), thick=1.5)
    for place, after, speed in zip(places, places[1:] + places[-1:], coast.speeds):
        style = 'fill="%s" stroke="#000000" stroke-width="1.5"' % ("#000000" if speed.status else "#ffffff")
        picture.draw("circle", style, cx=place[0], cy=place[1], r=3.5)
        picture.text(*label_of(place, after, speed, lines), str(speed.speed), "start")
        if speed.status:
            draw_status(picture, *place, speed.status)


def coast_picture(title, lines):
    """The run of a program's lines."""
    coast = coast_of(lines)
    picture = Picture(title)
    scale = Scale(picture.top + HEAD, coast.speeds)
    draw_bands(picture, scale, coast)
    for name, speed in (("high", coast.high), ("low", coast.low)):
        draw_target(picture, scale, name, speed)
    draw_speeds(picture, scale, coast)
    picture.block(LEFT, scale.foot + 14, ["write " + coast.write, "response " + coast.response], anchor="start")
    picture.text(RIGHT, scale.foot + 14, "the flywheel's speeds, in 0.01 km/h, one after another", "end")
    return picture.svg(scale.foot + FOOT - 10)
