#!/usr/bin/env python3
"""Prints what crates/vectors must print: the run cases of the record layer and of the collector, from document 01's words and tables alone.

    python3 tools/vectors.py > crates/vectors/stdout
"""
import sys

sys.dont_write_bytecode = True

from collecting import COLLECTIONS, OPENINGS

# "E is energy: total u16, per hour u16, per minute u8. H heart rate u8, M metabolic equivalent u8, T elapsed u16, R remaining u16."
E = "total_energy u16, energy_per_hour u16, energy_per_minute u8"
SLOPE = "inclination s16, ramp_angle s16"
GAIN = "positive_gain u16, negative_gain u16"
EHMTR = [E, "heart_rate u8", "metabolic_equivalent u8", "elapsed u16", "remaining u16"]
RESISTANCE, POWER, AVERAGE_POWER = "resistance s16", "power s16", "average_power s16"

# The main group, then the groups of the bits 1, 2, 3 ..
TABLE = {
    1: ["speed u16", "average_speed u16", "distance u24", SLOPE, GAIN, "pace u8", "average_pace u8", *EHMTR,
        "belt_force s16, power_output s16"],
    2: ["speed u16", "average_speed u16", "distance u24", "step_rate u16, average_step_rate u16", "stride_count u16", GAIN, SLOPE,
        RESISTANCE, POWER, AVERAGE_POWER, *EHMTR],
    3: ["floors u16, steps u16", "step_rate u16", "average_step_rate u16", "positive_gain u16", *EHMTR],
    4: ["floors u16", "step_rate u16", "average_step_rate u16", "positive_gain u16", "stride_count u16", *EHMTR],
    5: ["stroke_rate u8, stroke_count u16", "average_stroke_rate u8", "distance u24", "pace u16", "average_pace u16", POWER,
        AVERAGE_POWER, RESISTANCE, *EHMTR],
    6: ["speed u16", "average_speed u16", "cadence u16", "average_cadence u16", "distance u24", RESISTANCE, POWER, AVERAGE_POWER, *EHMTR],
}
KINDS = {kind: [[tuple(field.split()) for field in group.split(", ")] for group in groups] for kind, groups in TABLE.items()}

LEAST = {"u8": 0, "u16": 0, "u24": 0, "s16": -32768}
GREATEST = {"u8": 255, "u16": 65535, "u24": 16777215, "s16": 32767}
OCTETS = {"u8": 1, "u16": 2, "u24": 3, "s16": 2}

# A number for each name, no two the same.
OWN = dict(
    speed=1001, floors=1002, steps=1003, stroke_rate=4, stroke_count=1005, average_speed=1006, distance=1000007, inclination=-8,
    ramp_angle=-9, positive_gain=1010, negative_gain=1011, pace=12, average_pace=13, total_energy=1014, energy_per_hour=1015,
    energy_per_minute=16, heart_rate=17, metabolic_equivalent=18, elapsed=1019, remaining=1020, belt_force=-21, power_output=-22,
    step_rate=1023, average_step_rate=1024, stride_count=1025, resistance=-26, power=-27, average_power=-28, average_stroke_rate=29,
    cadence=1030, average_cadence=1031)


def all_groups(kind):
    return sum(1 << bit for bit in range(1, len(KINDS[kind])))


def bits_of(mask):
    return [bit for bit in range(mask.bit_length()) if mask >> bit & 1]


def fields_of(kind, bits):
    return [field for bit in bits for field in KINDS[kind][bit]]


def spelled(x, octets):
    return (x % 256 ** octets).to_bytes(octets, "little")


def flags_length(kind):
    return 3 if kind == 2 else 2


def length_of(kind, bits):
    return flags_length(kind) + sum(OCTETS[width] for _, width in fields_of(kind, bits))


def part_sets(kind, groups, payload):
    """The bits of each part, bit 0 for the main group."""
    sets, left = [], bits_of(groups)
    while length_of(kind, [0] + left) > payload:
        run = max(n for n in range(len(left) + 1) if length_of(kind, left[:n]) <= payload)
        sets.append(left[:run])
        left = left[run:]
    return sets + [[0] + left]


def encoded(kind, bits, direction, values):
    flags = sum(1 << bit for bit in bits if bit) + (0 if 0 in bits else 1) + (direction << 15)
    body = b"".join(spelled(values[name], OCTETS[width]) for name, width in fields_of(kind, bits))
    return spelled(flags, flags_length(kind)) + body


def well_formed(kind, groups, direction, values):
    if groups & ~all_groups(kind) or direction > (1 if kind == 2 else 0):
        return False
    present = dict(fields_of(kind, [0] + bits_of(groups)))
    return all(LEAST[present[name]] <= x <= GREATEST[present[name]] if name in present else x == 0 for name, x in values.items())


def split(kind, groups, direction, values, payload, part, lent):
    """A part's octets and the number of parts, or a refusal's number."""
    if kind not in KINDS:
        return 11
    if not 20 <= payload <= 512:
        return 12
    if not well_formed(kind, groups, direction, values):
        return 13
    sets = part_sets(kind, groups, payload)
    if part >= len(sets):
        return 15
    octets = encoded(kind, sets[part], direction, values)
    return 14 if len(octets) > lent else (octets, len(sets))


def read(kind, octets):
    """Groups, whether the part is the last, direction and values; or a refusal's number."""
    if kind not in KINDS:
        return 11
    if len(octets) > 512:
        return 30
    if len(octets) < flags_length(kind):
        return 31
    flags = int.from_bytes(octets[:flags_length(kind)], "little")
    groups = flags & all_groups(kind)
    last = flags % 2 == 0
    bits = ([0] if last else []) + bits_of(groups)
    if len(octets) < length_of(kind, bits):
        return 32
    values, at = {}, flags_length(kind)
    for name, width in fields_of(kind, bits):
        values[name] = int.from_bytes(octets[at:at + OCTETS[width]], "little", signed=width == "s16")
        at += OCTETS[width]
    return groups, last, (flags >> 15 & 1 if kind == 2 else 0), values


def hexed(octets):
    return "".join(f" {x:02X}" for x in octets)


def sample(choice, kind, groups):
    """The values of the present fields, by width or by name."""
    return {name: choice[name] if name in choice else choice[width] for name, width in fields_of(kind, [0] + bits_of(groups))}


def run_record(choice, kind, groups, direction, payload):
    values = sample(choice, kind, groups)
    back, joined, part, parts = {}, 0, 0, 1
    while part < parts:
        octets, parts = split(kind, groups, direction, values, payload, part, 64)
        print(f"kind={kind} groups={groups} direction={direction} payload={payload} part={part} of {parts} "
              f"length={len(octets)}:{hexed(octets)}")
        named, last, heading, found = read(kind, octets)
        joined |= named
        back.update(found)
        part += 1
    equal = last and (joined, heading, back) == (groups, direction, values)
    print("back=equal" if equal else "back=different")


def run_kinds(choice):
    for kind, direction in [(1, 0), (2, 0), (2, 1), (3, 0), (4, 0), (5, 0), (6, 0)]:
        for groups in [all_groups(kind), 0] + [1 << bit for bit in range(1, len(KINDS[kind]))]:
            run_record(choice, kind, groups, direction, 20)


def run_table():
    """The rows of "Numbers to hold against the code", each compared with its lengths and flags."""
    for kind, direction, payload, lengths, flags in [
        (1, 0, 20, [17, 19], "7F 00; 80 1F"),
        (2, 1, 20, [18, 20, 9], "3F 80 00; C1 9F 00; 00 E0 00"),
        (3, 0, 20, [19, 6], "FF 01; 00 00"),
        (4, 0, 20, [19, 6], "FF 01; 00 02"),
        (5, 0, 20, [16, 16], "FF 00; 00 1F"),
        (6, 0, 20, [17, 15], "FF 00; 00 1F"),
        (6, 0, 29, [28, 4], "FF 1F; 00 00"),
        (6, 0, 30, [30], "FE 1F"),
    ]:
        groups = all_groups(kind)
        parts = [encoded(kind, bits, direction, sample(OWN, kind, groups)) for bits in part_sets(kind, groups, payload)]
        assert [len(part) for part in parts] == lengths
        assert ";".join(hexed(part[:flags_length(kind)]) for part in parts) == " " + flags
        run_record(OWN, kind, groups, direction, payload)


def read_case(words, kind, octets):
    """A notification, read when every number held is 7."""
    answer = read(kind, octets)
    if isinstance(answer, int):
        said = f"refused={answer} held=unchanged"
    else:
        groups, last, direction, values = answer
        shown = " ".join(f"{name}={values.get(name, 7)}" for name in ("speed", "cadence", "power"))
        said = f"groups={groups} direction={direction} last={'yes' if last else 'no'} {shown}"
    print(f"{words}: kind={kind} length={len(octets)} {said}")


def read_cases():
    read_case("kind 0", 0, bytes(2))
    read_case("kind 7", 7, bytes(2))
    read_case("no octets", 1, b"")
    read_case("two octets of three flags", 2, bytes.fromhex("00 80"))
    read_case("plain", 2, bytes.fromhex("00 81 00 C4 09 85 FF"))
    read_case("both", 2, bytes.fromhex("00 81 FF C4 09 85 FF 01 02 03"))
    read_case("one octet", 6, bytes.fromhex("44"))
    read_case("cut short", 6, bytes.fromhex("44 00 C4"))
    read_case("plain", 6, bytes.fromhex("44 00 C4 09 B4 00 FA 00"))
    read_case("reserved bits", 6, bytes.fromhex("44 E0 C4 09 B4 00 FA 00"))
    read_case("octets after", 6, bytes.fromhex("44 00 C4 09 B4 00 FA 00 01 02 03"))
    read_case("both", 6, bytes.fromhex("44 E0 C4 09 B4 00 FA 00 01 02 03"))
    read_case("513 octets", 6, bytes(513))
    read_case("512 octets", 6, bytes(512))


def split_case(words, kind, groups, direction, payload=20, part=0, room=64, **changed):
    """A part of the record in which each present field has its own number, except for those changed."""
    listed = groups & all_groups(kind) if kind in KINDS else 0
    values = {**(sample(OWN, kind, listed) if kind in KINDS else {}), **changed}
    answer = split(kind, groups, direction, values, payload, part, room)
    if isinstance(answer, int):
        said = f"refused={answer} lent=unchanged"
    else:
        octets, parts = answer
        said = f"parts={parts} length={len(octets)}:{hexed(octets)} past=unchanged"
    print(f"{words}: kind={kind} groups={groups} direction={direction} payload={payload} part={part} room={room} {said}")


def split_cases():
    split_case("kind 0", 0, 0, 0)
    split_case("kind 7", 7, 0, 0)
    split_case("payload 19", 6, 0, 0, payload=19)
    split_case("payload 513", 6, 0, 0, payload=513)
    split_case("payload 512", 6, 0, 0, payload=512)
    split_case("bit 0", 1, 1, 0)
    split_case("bit 13 of a treadmill", 1, 1 << 13, 0)
    split_case("bit 15 of a cross trainer", 2, 1 << 15, 0)
    split_case("bit 31", 2, 1 << 31, 0)
    split_case("average speed 1, absent", 1, 0, 0, average_speed=1)
    split_case("cadence 1, of another kind", 1, 0, 0, cadence=1)
    split_case("pace 255", 1, 1 << 5, 0, pace=255)
    split_case("pace 256", 1, 1 << 5, 0, pace=256)
    split_case("distance 16777215", 1, 1 << 2, 0, distance=16777215)
    split_case("distance 16777216", 1, 1 << 2, 0, distance=16777216)
    split_case("direction 1 of a treadmill", 1, 0, 1)
    split_case("direction 2 of a cross trainer", 2, 0, 2)
    split_case("no such part", 1, all_groups(1), 0, part=2)
    split_case("one octet short", 1, all_groups(1), 0, room=16)
    split_case("long enough", 1, all_groups(1), 0, room=17)
    split_case("longer", 1, all_groups(1), 0)
    split_case("no octets lent", 1, all_groups(1), 0, room=0)
    split_case("order", 7, 0, 1, payload=19, part=9, room=0)
    split_case("order", 1, 0, 1, payload=19, part=9, room=0)
    split_case("order", 1, 0, 1, part=9, room=0)
    split_case("order", 1, 0, 0, part=9, room=0)
    split_case("order", 1, 0, 0, room=0)
    split_case("order", 1, 0, 0, room=4)


def number_case(width, octets):
    x = int.from_bytes(octets, "little", signed=width == "s16")
    print(f"{width}{hexed(octets)} is {x} and back{hexed(spelled(x, OCTETS[width]))}")


def feature_case(octets):
    """"Feature value, 8 octets, two u32", each with the bits 0 to 16 named."""
    if len(octets) != 8:
        print(f"feature{hexed(octets)} refused=22")
        return
    features, targets = (int.from_bytes(octets[at:at + 4], "little") & (1 << 17) - 1 for at in (0, 4))
    print(f"feature{hexed(octets)} features={features} targets={targets} and back{hexed(spelled(features, 4) + spelled(targets, 4))}")


def plain_cases():
    print("numbers")
    for octets in ("FF FF", "00 80", "FF 7F", "00 00"):
        number_case("s16", bytes.fromhex(octets))
    for octets in ("FF FF FF", "01 02 03"):
        number_case("u24", bytes.fromhex(octets))
    print("feature values")
    feature_case(bytes.fromhex("FF FF FF FF FF FF FF FF"))
    feature_case(bytes.fromhex("00 00 01 00 00 00 02 00"))
    feature_case(bytes.fromhex("86 56 00 00 0C 20 00 00"))
    feature_case(bytes(7))
    feature_case(bytes(9))


def opening(kind, told):
    """"opening a collection 11, 35": a refusal's number, or none. An open collection is told nothing."""
    if kind not in KINDS:
        return 11
    return 35 if told is not None and told & ~all_groups(kind) else None


def collect(kind, told, held, octets):
    """The answer to a notification, whether held groups were dropped unused, and what is held after it: for each bit, its group's values."""
    answer = read(kind, octets)  # 30 to 32, and rule 1
    if isinstance(answer, int):
        return answer, held != {}, {}
    groups, last, direction, values = answer
    its = {bit: [values[name] for name, _ in KINDS[kind][bit]] for bit in bits_of(groups)}
    if told is not None and groups & ~told:
        return 33, held != {}, {}
    if told is None:  # rule 2
        drops = any(bit in held for bit in its)
    else:
        drops = its != {} and held != {} and not min(its) > max(held)
    joined = its if drops else {**held, **its}  # rule 3
    if not last:
        return "waiting", drops, joined
    if told is not None and set(joined) != set(bits_of(told)):  # rule 4
        return 34, held != {}, {}
    joined[0] = [values[name] for name, _ in KINDS[kind][0]]
    return (joined, direction), drops, {}


def answered(kind, answer, dropped):
    """An answer in short and in full."""
    word = " dropped" if dropped else ""
    if answer == "waiting":
        short, said = answer, answer
    elif isinstance(answer, int):
        short, said = str(answer), f"refused={answer}"
    else:
        joined, direction = answer
        groups = sum(1 << bit for bit in joined if bit)
        fields = fields_of(kind, sorted(joined))
        numbers = [x for bit in sorted(joined) for x in joined[bit]]
        formed = well_formed(kind, groups, direction, {name: x for (name, _), x in zip(fields, numbers)})
        wire = "".join(f" {int.from_bytes(spelled(x, OCTETS[width]), 'little')}" for (_, width), x in zip(fields, numbers))
        short = f"record {groups}" + (" backward" if direction else "")
        said = f"record kind={kind} groups={groups} direction={direction} numbers:{wire} formed={'yes' if formed else 'no'}"
    return short + word, f"{said} dropped={'yes' if dropped else 'no'}"


def collection_case(words, kind, told, notifications=(), worked=""):
    """A collection and its notifications, each answer compared with the one worked out by hand."""
    refusal = opening(kind, told)
    said = f"refused={refusal}" if refusal else "opened"
    print(f"{words}: kind={kind} {'open' if told is None else f'told={told}'} {said}")
    held, shorts = {}, []
    for octets in notifications:
        answer, dropped, held = collect(kind, told, held, octets)
        short, said = answered(kind, answer, dropped)
        shorts.append(short)
        print(f"length={len(octets)}:{hexed(octets[:20])} {said}")
    assert ", ".join(shorts) == worked, (words, shorts)


def collection_cases():
    print("collections")
    for words, kind, told in OPENINGS:
        collection_case(words, kind, told)
    for kind, told, cases in COLLECTIONS:
        for words, text, worked in cases:
            collection_case(words, kind, told, [bytes.fromhex(octets) for octets in text.split("/")], worked)
    held, rest = bytes.fromhex("03 00 E8 03"), bytes.fromhex("0C 00 C4 09 B4 00 B6 00")
    collection_case("30 before 33", 6, 14, [held, bytes([0xFF]) * 513, rest], "waiting, 30 dropped, 34")
    collection_case("512 octets", 6, None, [bytes(512)], "record 0")


def main():
    print("values=least")
    run_kinds(LEAST)
    print("values=greatest")
    run_kinds(GREATEST)
    print("values=own")
    run_table()
    print("notifications")
    read_cases()
    print("splits")
    split_cases()
    plain_cases()
    collection_cases()


if __name__ == "__main__":
    main()
