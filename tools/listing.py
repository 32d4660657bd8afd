#!/usr/bin/env python3
"""Prints what crates/ftlist must print, and the capture that it reads, from document 01's words and tables alone.

    python3 tools/listing.py --capture > crates/ftlist/stdin
    python3 tools/listing.py > crates/ftlist/stdout
    python3 tools/listing.py --damaged --capture > examples/damaged.capture
    python3 tools/listing.py --damaged > examples/damaged.listing

The capture is of a cross trainer: the kind with the longest flags, a direction, and most of the signed numbers. Each of its notifications is there for
one sentence of document 01, and its answer is compared with the one worked out by hand. The damaged one, a short example for a reader, is of an indoor
bike.
"""
import sys

sys.dont_write_bytecode = True

from vectors import GREATEST, KINDS, all_groups, answered, bits_of, collect, encoded, sample, spelled

CROSS_TRAINER = 2

# What each is there for, the notifications, and the answers by the rules of an open collection.
NOTIFICATIONS = [
    ("backward; s16 at both ends", "C2 81 00 FF FF 00 00 00 80 FF 7F 00 80 FF 7F", "record 450 backward"),
    ("all groups in three parts, and the last part's direction", "3F 80 00 EE 03 47 42 0F FF 03 00 04 01 04 F2 03 F3 03 / "
     "C1 9F 00 F8 FF F7 FF E6 FF E5 FF E4 FF F6 03 F7 03 10 11 12 / 00 60 00 E9 03 FB 03 FC 03", "waiting, waiting, record 32766"),
    ("reserved bits, and octets after the last group", "04 00 FF C4 09 40 E2 01 01 02 03", "record 4"),
    ("a group that is held drops all", "07 00 00 E8 03 40 E2 01 / 03 00 00 E9 03 / 00 00 00 C5 09", "waiting, waiting dropped, record 2"),
    ("in the last part too", "81 01 00 FF FF FE FF / 00 01 00 C6 09 FD FF", "waiting, record 256 dropped"),
    ("a part without groups drops nothing", "09 00 00 3C 00 3A 00 / 01 00 00 / 10 00 00 C7 09 2C 01", "waiting, waiting, record 24"),
    ("nothing held after 31", "03 00 00 E8 03 / 00 80 / 00 00 00 C8 09", "waiting, 31 dropped, record 0"),
    ("a length of 0", "", "31"),
    ("nothing held after 32", "03 00 00 E8 03 / 44 00 00 C4 / 00 80 00 C9 09", "waiting, 32 dropped, record 0 backward"),
    ("nothing held after 30", "03 00 00 E8 03 / " + "00 " * 513 + "/ 00 00 00 CA 09", "waiting, 30 dropped, record 0"),
    ("512 octets", "00 " * 512, "record 0"),
    ("all groups in one notification, each number the greatest",
     encoded(CROSS_TRAINER, [0] + bits_of(all_groups(CROSS_TRAINER)), 1, sample(GREATEST, CROSS_TRAINER, all_groups(CROSS_TRAINER))).hex(),
     "record 32766 backward"),
]

# "37: capture ends inside a length or notification": a length of 9, and the five octets of a record that would be listed if they were taken for a notification.
CUT_SHORT = bytes.fromhex("09 00 00 00 00 CB 09")

# Document 01's example.
SAMPLE = bytes.fromhex("06 08 00 44 00 C4 09 B4 00 FA 00")
SAMPLE_LINES = ["record=1", "kind=6", "groups=68", "direction=0", "speed=2500", "cadence=180", "power=250"]

# The damaged capture: what each piece is, its octets as they stand in the capture, and the lines that it prints, worked out by hand. The first two octets
# of a notification are its length.
DAMAGED = [
    ("the kind: an indoor bike", "06", []),
    ("document 01's sample: a whole record", "08 00 44 00 C4 09 B4 00 FA 00",
     "record=1 kind=6 groups=68 direction=0 speed=2500 cadence=180 power=250".split()),
    ("a record in two parts: the first, with its average speed", "04 00 03 00 60 09", []),
    ("its last part, with its speed and cadence", "06 00 04 00 CE 09 B2 00",
     "record=2 kind=6 groups=6 direction=0 speed=2510 average_speed=2400 cadence=178".split()),
    ("a first part with average speed and cadence; the last part is lost", "06 00 07 00 6A 09 B0 00", []),
    ("a whole record with a cadence too: the held groups are dropped", "06 00 04 00 E2 09 AE 00",
     "record=3 kind=6 groups=4 direction=0 speed=2530 cadence=174".split()),
    ("1 octet: shorter than its flags", "01 00 44", ["refused=31"]),
    ("shorter than its flags and the groups that they name", "03 00 44 00 C4", ["refused=32"]),
    ("a whole record again", "06 00 40 00 EC 09 F0 00",
     "record=4 kind=6 groups=64 direction=0 speed=2540 power=240".split()),
    ("a length of 8 and 4 octets: the capture ends inside a notification", "08 00 44 00 F6 09", ["refused=37"]),
]


def record_lines(number, kind, groups, direction):
    """"Each record prints `record=` (1 up), `kind=`, `groups=` (the set in decimal), `direction=`, then each present field, main group first". The
    groups are those of a record, with the values of each by its bit."""
    mask = sum(1 << bit for bit in groups if bit)
    lines = [f"record={number}", f"kind={kind}", f"groups={mask}", f"direction={direction}"]
    return lines + [f"{name}={x}" for bit in sorted(groups) for (name, _), x in zip(KINDS[kind][bit], groups[bit])]


def listing(capture):
    """The lines of a capture: "36, then 11, are judged first and end the listing, 37 ends it where met"."""
    if len(capture) > 65536:
        return ["refused=36"]
    if capture == b"" or capture[0] not in KINDS:
        return ["refused=11"]
    kind, left, held, number, lines = capture[0], capture[1:], {}, 1, []
    while left:
        length = int.from_bytes(left[:2], "little")
        if len(left) < 2 + length:
            return lines + ["refused=37"]
        answer, _, held = collect(kind, None, held, left[2:2 + length])  # "It collects openly."
        if isinstance(answer, int):
            lines.append(f"refused={answer}")
        elif answer != "waiting":  # "Waiting prints nothing."
            lines += record_lines(number, kind, *answer)
            number += 1
        left = left[2 + length:]
    return lines


def capture():
    """"a kind octet, then for each notification a u16 length and its octets", each compared with its answer."""
    octets, held = bytes([CROSS_TRAINER]), {}
    for words, text, worked in NOTIFICATIONS:
        shorts = []
        for notification in (bytes.fromhex(part) for part in text.split("/")):
            answer, dropped, held = collect(CROSS_TRAINER, None, held, notification)
            shorts.append(answered(CROSS_TRAINER, answer, dropped)[0])
            octets += spelled(len(notification), 2) + notification
        assert ", ".join(shorts) == worked, (words, shorts)
    return octets + CUT_SHORT


def damaged():
    """The damaged capture; each piece is checked against the lines that it adds to those before it."""
    octets, lines = b"", []
    for words, text, printed in DAMAGED:
        octets += bytes.fromhex(text)
        lines += printed
        assert listing(octets) == lines, words
    return octets


def main():
    assert listing(SAMPLE) == SAMPLE_LINES
    octets = {"--damaged": damaged, "--sample": lambda: SAMPLE}.get("".join(sys.argv[1:2]), capture)()
    if "--capture" in sys.argv[1:]:
        sys.stdout.buffer.write(octets)
    else:
        print("\n".join(listing(octets)))


if __name__ == "__main__":
    main()
