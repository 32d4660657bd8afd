#!/usr/bin/env python3
"""Prints what crates/roundtrip must print, from document 01's words and tables alone: a record of each kind, its parts at payload 20, and its lines; then
three records of which parts are lost.

    python3 tools/roundtrip.py > crates/roundtrip/stdout
"""
import sys

sys.dont_write_bytecode = True

from listing import record_lines
from kinds import NAMES
from vectors import KINDS, all_groups, bits_of, collect, fields_of, hexed, split

PAYLOAD = 20
CROSS_TRAINER = 2

# The records that the program makes: a direction, and a number for each field of the main group and of the groups present.
RECORDS = {
    1: (0, dict(speed=1050, distance=4200, inclination=-25, ramp_angle=-14, positive_gain=310, negative_gain=125, total_energy=415,
                energy_per_hour=780, energy_per_minute=13, heart_rate=152, belt_force=-120, power_output=-95)),
    2: (1, dict(speed=640, average_speed=615, step_rate=58, average_step_rate=55, stride_count=890, inclination=35, ramp_angle=20,
                resistance=45, power=185, total_energy=96, energy_per_hour=660, energy_per_minute=11)),
    3: (0, dict(floors=24, steps=412, step_rate=62, positive_gain=85, total_energy=130, energy_per_hour=540, energy_per_minute=9,
                heart_rate=138, metabolic_equivalent=82, elapsed=900, remaining=300)),
    4: (0, dict(floors=31, step_rate=74, average_step_rate=70, positive_gain=112, total_energy=164, energy_per_hour=720,
                energy_per_minute=12, heart_rate=145, elapsed=1260, remaining=540)),
    5: (0, dict(stroke_rate=52, stroke_count=318, average_stroke_rate=50, distance=2750, pace=118, average_pace=121, power=205,
                average_power=192, total_energy=148, energy_per_hour=840, energy_per_minute=14, heart_rate=156, elapsed=665)),
    6: (0, dict(speed=3250, cadence=168, distance=12400, resistance=18, power=-35, average_power=176, total_energy=287,
                energy_per_hour=720, energy_per_minute=12, heart_rate=131, elapsed=1500)),
}

# The parts that are lost, each by its record and its number; and what a collection answers to the others, worked out by hand: an open one takes part 1 of
# record 1 for record 2's, as none of record 2's groups is held; a fixed one drops it, as part 0 is not above it, and then misses part 1 of record 2.
LOST = [(1, 0), (1, 2), (2, 1)]
WHOLE = ["waiting", "waiting", "record with distance=3 power=3 speed=3"]
OPEN = ["waiting", "waiting", "record with distance=2 power=1 speed=2"] + WHOLE
FIXED = ["waiting", "waiting, held groups dropped", "refused 34, held groups dropped"] + WHOLE


def groups_of(kind, values):
    """The optional groups that have a field among the values."""
    return sum(1 << bit for bit, group in enumerate(KINDS[kind]) if bit and any(name in values for name, _ in group))


def run(kind, direction, values):
    """The parts, each given to an open collection, and the lines of the record that comes out."""
    groups, held, part, answer = groups_of(kind, values), {}, 0, "waiting"
    while answer == "waiting":
        octets, parts = split(kind, groups, direction, values, PAYLOAD, part, PAYLOAD)
        print(f"part={part} of {parts}:{hexed(octets)}")
        answer, _, held = collect(kind, None, held, octets)
        part += 1
    print("\n".join(record_lines(1, kind, *answer)))


def answered(answer, dropped):
    """What a collection of a cross trainer answers; for a record, a field of each part: distance is in the first, power in the second, speed in the last."""
    if answer == "waiting":
        said = answer
    elif isinstance(answer, int):
        said = f"refused {answer}"
    else:
        groups, _ = answer
        values = {name: x for bit in groups for (name, _), x in zip(KINDS[CROSS_TRAINER][bit], groups[bit])}
        said = "record with distance={distance} power={power} speed={speed}".format(**values)
    return said + (", held groups dropped" if dropped else "")


def run_lost(told, worked):
    """Three records with all groups, in which every value of record n is n: the parts that are not lost, given in order to a collection."""
    groups, held, answers = all_groups(CROSS_TRAINER), {}, []
    for number, part in [(number, part) for number in (1, 2, 3) for part in (0, 1, 2)]:
        values = {name: number for name, _ in fields_of(CROSS_TRAINER, [0] + bits_of(groups))}
        octets, parts = split(CROSS_TRAINER, groups, 0, values, PAYLOAD, part, PAYLOAD)
        said = "lost"
        if (number, part) not in LOST:
            answer, dropped, held = collect(CROSS_TRAINER, told, held, octets)
            said = answered(answer, dropped)
            answers.append(said)
        print(f"record {number}, part {part} of {parts}: {said}")
    assert answers == worked, answers


def main():
    for kind, (direction, values) in RECORDS.items():
        print("== " + NAMES[kind])
        run(kind, direction, values)
    print("== a lost part, open")
    run_lost(None, OPEN)
    print("== a lost part, fixed")
    run_lost(all_groups(CROSS_TRAINER), FIXED)


if __name__ == "__main__":
    main()
