"""The tables of the kinds, from document 01's words and tables alone: each kind's flags, fields and parts; all kinds side by side; how a record is cut."""
from markdown import table
from vectors import GREATEST, KINDS, LEAST, OCTETS, OWN, all_groups, encoded, flags_length, hexed, length_of, part_sets, spelled

NAMES = {1: "treadmill", 2: "cross trainer", 3: "step climber", 4: "stair climber", 5: "rower", 6: "indoor bike"}

# "Slope is inclination .., then ramp angle"; "Gain is positive u16, then negative u16"; "E is energy: total u16, per hour u16, per minute u8".
SHARED = {"inclination": "slope", "positive_gain": "gain", "total_energy": "energy"}

# "inclination s16, in tenths of a percent, then ramp angle s16, in tenths of a degree"
UNITS = {"inclination": "tenths of a percent ", "ramp_angle": "tenths of a degree "}

# Source document 000, 4.5.1.5, 4.6.1.4 and 4.7.1.3: "Step per Minute Rate"; 4.8.1.6 and 4.8.1.7, of a rower: "pace (time per 500 meters)"
STEPS = {"step_rate": "steps per minute "}
PACES = {"pace": "time per 500 meters ", "average_pace": "time per 500 meters "}

# Source document 000, tables 4.5 to 4.10: the feature that each group of each kind belongs to, by the group's name here
ANSWERS = {
    "average_speed": 0, "cadence": 1, "average_cadence": 1, "average_stroke_rate": 1, "distance": 2, "slope": 3, "gain": 4, "positive_gain": 4, "pace": 5,
    "average_pace": 5, "step_rate and average_step_rate": 6, "step_rate": 6, "average_step_rate": 6, "resistance": 7, "stride_count": 8, "energy": 9,
    "heart_rate": 10, "metabolic_equivalent": 11, "elapsed": 12, "remaining": 13, "power": 14, "average_power": 14, "belt_force and power_output": 15}


def group_name(bit, group):
    first = group[0][0]
    if bit == 0:
        return "main"
    return first if len(group) == 1 else SHARED.get(first, " and ".join(name for name, _ in group))


def unit(kind, name):
    return {**UNITS, **STEPS, **(PACES if kind == 5 else {})}.get(name, "")


def flags(kind):
    """"Bit 0 is More Data: the main group is present exactly when it is 0."; "Kind 2 has direction in bit 15 (0 forward, 1 backward). All other bits are
    reserved: written 0, ignored when read." """
    rows = [("0", "More Data: the main group is present exactly when this bit is 0")]
    rows += [(bit, "1: " + group_name(bit, group) + " present") for bit, group in enumerate(KINDS[kind]) if bit]
    if kind == 2:
        rows.append(("15", "direction: 0 forward, 1 backward"))
    first, last = len(rows), 8 * flags_length(kind) - 1
    rows.append((f"{first} to {last}", "reserved: written 0, ignored when read"))
    print("## Flags\n")
    table(["bit", "what it says"], rows)


def fields(kind):
    rows, at = [], flags_length(kind)
    for bit, group in enumerate(KINDS[kind]):
        for name, width in group:
            rows.append(("bit %d is %d" % (bit, bit > 0), group_name(bit, group), name, width, at, unit(kind, name)))
            at += OCTETS[width]
    measured = any(row[-1] for row in rows)
    columns = ["present when", "group", "field", "width", "first octet"] + ["unit"] * measured
    print("\n## Fields\n")
    print("| " + " | ".join(columns) + " |\n" + "|---" * len(columns) + "|")
    for row in rows:
        print("| " + " | ".join(str(cell) for cell in row[:5]) + (" | " + row[5] + "|" if measured else " |"))


def page(kind):
    everything = [0] + list(range(1, len(KINDS[kind])))
    print("# Kind %d: %s\n" % (kind, NAMES[kind]))
    print("Flags: %d octets. With all groups present: %d octets.\n" % (flags_length(kind), length_of(kind, everything)))
    flags(kind)
    fields(kind)
    parts(kind, 20)
    print()


def groups_of(bits):
    """The groups of a part: bit 0 stands for the main group in `part_sets`."""
    return " ".join("main" if bit == 0 else str(bit) for bit in sorted(bits))


def flag_octets(kind, bits, direction):
    zeros = {name: 0 for group in KINDS[kind] for name, _ in group}
    return hexed(encoded(kind, bits, direction, zeros)[:flags_length(kind)]).strip()


def parts(kind, payload):
    print("\n## Parts at payload %d\n" % payload)
    rows = []
    for number, bits in enumerate(part_sets(kind, all_groups(kind), payload)):
        directions = (0, 1) if kind == 2 else (0,)
        shown = [flag_octets(kind, bits, direction) for direction in directions]
        rows.append((number, *shown, length_of(kind, bits), groups_of(bits)))
    columns = ["flags, forward", "flags, backward"] if kind == 2 else ["flags"]
    table(["part"] + columns + ["length", "groups"], rows)


def cut(kind, payload):
    """"While flags, main group and all remaining optional groups don't fit in one payload, a part with More Data 1 is sent .." """
    print("\n## The cut at payload %d\n" % payload)
    left, rows = [bit for bit in range(1, len(KINDS[kind]))], []
    for number, bits in enumerate(part_sets(kind, all_groups(kind), payload)):
        whole = length_of(kind, [0] + left)
        rows.append((groups_of(left), whole, "yes" if whole <= payload else "no", "part %d" % number, groups_of(bits), length_of(kind, bits)))
        left = [bit for bit in left if bit not in bits]
    table(["remaining groups", "octets with flags and main", "fits", "sent", "groups in it", "its octets"], rows)


def splitting():
    print("\n# Splitting")
    parts(6, 29)
    parts(6, 30)
    cut(6, 20)


def place_of(kind, field):
    """The bit of a field's group, or `main`, and its width; nothing if the kind has no such field."""
    for bit, group in enumerate(KINDS[kind]):
        for name, width in group:
            if name == field:
                return f"{bit or 'main'} {width}"
    return ""


def answering(kind, feature):
    """The bits of a kind's groups that belong to a feature."""
    return " ".join(str(bit) for bit, group in enumerate(KINDS[kind]) if bit and ANSWERS[group_name(bit, group)] == feature)


def all_kinds(features):
    """`features`: the names of the features, by their bits; the last, user data retention, has no group."""
    print("\n# All kinds\n\n## Kinds\n")
    table(["kind", "name", "octets of flags", "octets with all groups", "parts at payload 20"],
          [(kind, name, flags_length(kind), length_of(kind, range(len(KINDS[kind]))), len(part_sets(kind, all_groups(kind), 20)))
           for kind, name in NAMES.items()])
    print("\n## Fields\n")
    table(["field", *NAMES.values()], [(field, *(place_of(kind, field) for kind in KINDS)) for field in OWN])
    print("\n## Features and groups\n")
    table(["feature", "name", *NAMES.values()],
          [(bit, name, *(answering(kind, bit) for kind in KINDS)) for bit, name in enumerate(features[:-1])])


def end(number, octets):
    """A number, and the octets that it is sent as."""
    return f"{number}: {hexed(spelled(number, octets)).strip()}"


def widths():
    """"Widths: u8, u16, u24, s16 (two's complement, −32,768 to 32,767)."; "least octet first" """
    print("\n# Widths\n\n## Widths\n")
    table(["width", "octets", "least", "greatest"],
          [(width, n, end(LEAST[width], n), end(GREATEST[width], n)) for width, n in OCTETS.items()])
