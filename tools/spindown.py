#!/usr/bin/env python3
"""Prints what crates/spindown must print, from the words of documents 01 and 02 alone: a service crew's calls of a bike's control point and the speeds of its
flywheel, one per line, and the state when one changes it.

    python3 tools/spindown.py > crates/spindown/stdout
"""
import sys

sys.dont_write_bytecode = True

import runs
import session
from session import ON
from vectors import hexed, spelled

# The bike's features: "1 cadence, .. 14 power"; its target settings: "15 spin down".
FEATURES, TARGETS = {1, 14}, {15}
LOW, HIGH = 1000, 2000

CALLS = {"connects", ON, "disconnects"}

# Of each run its name; then what a client calls, or the speed of the flywheel, with the response and the status as they were worked out by hand. A client
# confirms each response.
STORY = {
    "control": [(0, "connects"), (0, ON), (0, "00", "80 00 01")],
    "a run through both targets": [
        (0, "13 01", "80 13 01 E8 03 D0 07"), (2900, ""), (2600, ""), (2300, ""), (2001, ""), (2000, "14 04"), (1700, ""), (2200, ""), (1500, ""),
        (1000, "14 02"), (900, "")],
    "writes that fail in a run": [
        (0, "13 01", "80 13 01 E8 03 D0 07"), (0, "13 01", "80 13 04"), (0, "13 03", "80 13 03"), (1, "connects"), (1, ON), (1, "13 02", "80 13 05"),
        (1, "disconnects"), "still"],
    "a run that is ignored": [(0, "13 02", "80 13 01"), (1000, ""), (0, "13 02", "80 13 01"), "still"],
    "a run that succeeds at once": [(0, "13 01", "80 13 01 E8 03 D0 07"), (1000, "14 02")],
    "a run that a reset ends": [(0, "13 01", "80 13 01 E8 03 D0 07"), (1500, "14 04"), (0, "01", "80 01 01, status 01"), (900, "")],
    "a run that the holder's disconnect ends": [
        (0, "00", "80 00 01"), (0, "13 01", "80 13 01 E8 03 D0 07"), (1500, "14 04"), (0, "disconnects"), (900, "")],
}


class Bike(session.Console):
    """The console of document 01 with document 02's spin down."""

    def __init__(self):
        super().__init__()
        self.run = runs.NO_RUN

    def state(self):
        who = "nobody" if self.holder is None else f"client {self.holder}"
        return f"{who} holds control, {self.run}"

    def write(self, client, octets):
        """"Op code 13 becomes supported with target bit 15", which this bike has; "not the holder (but for 00), 05"; "Each then awaits confirmation". """
        if octets[0] != 0x13:
            return super().write(client, octets)
        self.awaited = client
        result = runs.result(self.run, octets[1:]) if self.holder == client else 0x05
        if result == 0x01:
            self.run = runs.written(self.run, octets[1:])
        return ": response" + hexed(runs.response(result, octets[1:], LOW, HIGH))

    def succeed(self, client, op, octets):
        """"Reset .. ends a run"."""
        super().succeed(client, op, octets)
        self.run = runs.NO_RUN if op == 0x01 else self.run

    def disconnect(self, client):
        """"disconnect of the holder .. ends a run"."""
        self.run = runs.NO_RUN if self.holder == client else self.run
        super().disconnect(client)

    def flywheel(self, speed):
        status, self.run = runs.fed(self.run, speed, LOW, HIGH)
        return ": status" + hexed(status) if status else ""


def spoken(bike, caller, call, octets=b""):
    """Makes a client's call; returns its line."""
    return f"client {caller} {call}{hexed(octets)}{bike.call(caller, call, octets)}"


def lines_of(bike, step):
    """Takes a step of the story; returns its lines, less those of the state."""
    if len(step) == 3:
        client, octets, worked = step
        line = spoken(bike, client, "writes", bytes.fromhex(octets))
        assert line == f"client {client} writes {octets}: response {worked}", (line, worked)
        return [line, spoken(bike, client, "confirms")]
    if step[1] in CALLS:
        return [spoken(bike, *step)]
    speed, worked = step
    answer = bike.flywheel(speed)
    assert answer == (f": status {worked}" if worked else ""), (speed, answer, worked)
    return [f"flywheel speed {speed}{answer}"]


def play(bike, step):
    if step == "still":
        print("still: " + bike.state())
        return
    before = bike.state()
    print("\n".join(lines_of(bike, step)))
    if bike.state() != before:
        print("now: " + bike.state())


def main():
    bike = Bike()
    # "Feature value, 8 octets, two u32"
    print("Feature value:" + hexed(b"".join(spelled(sum(1 << bit for bit in bits), 4) for bits in (FEATURES, TARGETS))))
    print("a machine is opened: " + bike.state())
    for name, steps in STORY.items():
        print("== " + name)
        for step in steps:
            play(bike, step)


if __name__ == "__main__":
    main()
