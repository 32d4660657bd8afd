#!/usr/bin/env python3
"""Writes what the program `conformance` must print, from documents 01 and 02 and source document 003 alone:

    python3 tools/conformance.py > crates/conformance/stdout

Every server test case has its line, in the order of source document 003, with what was read, notified or sent, and the verdict: `pass` if the
outcome is the one that the test suite expects, `departs` if document 01 has another or asks for one more step, `outside` if what is tested lies
outside documents 01 and 02.
"""
import sys

sys.dont_write_bytecode = True

from vectors import KINDS, all_groups, encoded, fields_of, flags_length, length_of, part_sets, sample


def octets(text):
    return bytes.fromhex(text)


def spelled(data):
    return "".join(" %02X" % x for x in data)


def line(case, verdict):
    print("FTMS/SR/" + case + ": " + verdict)


def departs(why):
    return "departs (%s)" % why


def outside(why, group, numbers, label=""):
    for number in numbers:
        line("%s/BV-%02d-C%s" % (group, number, label), "outside (%s)" % why)


# The machine data, section 4.6.

# "features 0 average speed, 1 cadence, 2 distance, .."
FEATURES = ["average speed", "cadence", "distance", "inclination", "elevation gain", "pace", "step count", "resistance", "stride count", "energy",
            "heart rate", "metabolic equivalent", "elapsed", "remaining", "power", "belt force and power output", "user data retention"]

# A number for each name, no two the same.
SAMPLE = dict(
    speed=1000, floors=12, steps=340, stroke_rate=48, stroke_count=210, average_speed=950, distance=70000, inclination=-25, ramp_angle=-14,
    positive_gain=61, negative_gain=22, pace=60, average_pace=63, total_energy=310, energy_per_hour=620, energy_per_minute=10, heart_rate=135,
    metabolic_equivalent=83, elapsed=1800, remaining=600, belt_force=9, power_output=180, step_rate=64, average_step_rate=58, stride_count=1020,
    resistance=50, power=205, average_power=198, average_stroke_rate=46, cadence=170, average_cadence=164)

assert len(set(SAMPLE.values())) == len(SAMPLE)

# The cases of a complete record, and those of elapsed time with the last step of each.
COMPLETE = {1: 1, 2: 13, 3: 27, 4: 35, 5: 44, 6: 55}
ELAPSED = {1: (12, 12), 2: (25, 12), 3: (33, 12), 4: (42, 12), 5: (54, 12), 6: (65, 13)}

# Tables 4.6 to 4.11 of source document 003: a case, the feature that it needs, and the fields that the record includes.
ENERGY = "energy: total_energy energy_per_hour energy_per_minute"
SUPPORTED = {
    1: """02 average speed: average_speed
          03 distance: distance
          04 inclination: inclination ramp_angle
          05 elevation gain: positive_gain negative_gain
          06 pace: pace average_pace
          07 """ + ENERGY + """
          08 heart rate: heart_rate
          09 metabolic equivalent: metabolic_equivalent
          10 remaining: remaining
          11 belt force and power output: belt_force power_output""",
    2: """14 average speed: average_speed
          15 distance: distance
          16 step count: step_rate average_step_rate
          17 stride count: stride_count
          18 elevation gain: positive_gain negative_gain
          19 inclination: inclination ramp_angle
          20 resistance: resistance
          21 power: power average_power
          22 """ + ENERGY + """
          23 heart rate: heart_rate
          24 metabolic equivalent: metabolic_equivalent
          26 remaining: remaining""",
    3: """28 step count: step_rate average_step_rate
          29 elevation gain: positive_gain
          30 """ + ENERGY + """
          31 heart rate: heart_rate
          32 metabolic equivalent: metabolic_equivalent
          34 remaining: remaining""",
    4: """36 step count: step_rate average_step_rate
          37 elevation gain: positive_gain
          38 stride count: stride_count
          39 """ + ENERGY + """
          40 heart rate: heart_rate
          41 metabolic equivalent: metabolic_equivalent
          43 remaining: remaining""",
    5: """45 cadence: average_stroke_rate
          46 distance: distance
          47 pace: pace average_pace
          48 power: power average_power
          49 resistance: resistance
          50 """ + ENERGY + """
          51 heart rate: heart_rate
          52 metabolic equivalent: metabolic_equivalent
          53 remaining: remaining""",
    6: """56 average speed: average_speed
          57 cadence: cadence average_cadence
          58 distance: distance
          59 resistance: resistance
          60 power: power average_power
          61 """ + ENERGY + """
          62 heart rate: heart_rate
          63 metabolic equivalent: metabolic_equivalent
          64 remaining: remaining""",
}

# "decimal value of 257 in UINT16 format", or 255, in source document 000; "per minute u8" in document 01.
ONE_OCTET_ENERGY = "energy per minute is one octet"


def bits_with(kind, names):
    """The bits of the groups that hold these fields, and no other field."""
    bits = [bit for bit, group in enumerate(KINDS[kind]) if bit and set(names) & {name for name, _ in group}]
    assert [name for name, _ in fields_of(kind, bits)] == names
    return bits


def notified(kind, groups):
    """The notifications of a record at the default payload, each checked for what the test suite looks at."""
    values = sample(SAMPLE, kind, groups)
    sets = part_sets(kind, groups, 20)
    text, named = "", 0
    for bits in sets:
        data = encoded(kind, bits, 0, values)
        flags = int.from_bytes(data[:flags_length(kind)], "little")
        reserved = flags & ~(all_groups(kind) | 1 | (0x8000 if kind == 2 else 0))
        assert not reserved and (flags % 2 == 0) == (0 in bits) == (bits is sets[-1]) and len(data) == length_of(kind, bits) <= 20
        named |= flags & all_groups(kind)
        text += " notified" + spelled(data)
    assert named == groups
    return text


def data_case(number, kind, groups, verdict, label="", feature=None):
    head = "CN/BV-%02d-C%s kind %d" % (number, label, kind)
    if feature:
        head += " feature %d" % FEATURES.index(feature)
    line(head + notified(kind, groups), verdict)


def kind_cases(kind):
    number = COMPLETE[kind]
    energy = 1 << bits_with(kind, ["total_energy", "energy_per_hour", "energy_per_minute"])[0]
    # BV-27 looks for the step rate in the same notification as the step climber's main group.
    late = "; the step rate is not in the last notification" if kind == 3 else ""
    data_case(number, kind, all_groups(kind) & ~energy, "pass", " steps 1 to 5 without energy")
    data_case(number, kind, all_groups(kind), departs(ONE_OCTET_ENERGY + late), " steps 1 to 5 with energy")
    outside("radio: notifications are disabled", "CN", [number], " steps 6 to 8")
    for row in SUPPORTED[kind].splitlines():
        number, words = row.split(maxsplit=1)
        feature, names = words.split(": ")
        groups = sum(1 << bit for bit in bits_with(kind, names.split()))
        data_case(int(number), kind, groups, departs(ONE_OCTET_ENERGY) if groups == energy else "pass", feature=feature)
    number, last = ELAPSED[kind]
    data_case(number, kind, 1 << bits_with(kind, ["elapsed"])[0], "pass", " steps 1 to 6", "elapsed")
    outside("radio: link loss; timers: elapsed time", "CN", [number], " steps 7 to %d" % last)


# The control point, sections 4.8 to 4.10.


# "01 gives 01; 07 gives 04; 08 gives 02 and its parameter; 02 to 06 give op code plus 3, 09 to 12 op code plus 1, 14 gives 15, each with the
# parameter. 00 gives none." Of 13: "a start or an ignore gives none".
def status(sent):
    op = sent[0]
    if op in (0x00, 0x13):
        return b""
    first = {0x01: 0x01, 0x07: 0x04, 0x08: 0x02, 0x14: 0x15}.get(op)
    if first is None:
        first = op + 3 if op <= 0x06 else op + 1
    return bytes([first]) + sent[1:]


# The target speeds of the machine under test, low and high.
SPEEDS = (1000, 2000)


def response(sent, result):
    """"Response: 80, op code, result."; "A successful start answers 80 13 01 followed by a low and a high target speed, u16 each" """
    started = sent == octets("1301") and result == 1
    return bytes([0x80, sent[0], result]) + b"".join(speed.to_bytes(2, "little") for speed in SPEEDS if started)


def feed(speed, warned):
    """"The status is 14 with 2 success or 4 stop pedalling": a speed in a run that has said 4 or not yet, what it says, and whether 4 has been said."""
    low, high = SPEEDS
    value = 2 if speed <= low else 4 if speed <= high and not warned else None
    return " flywheel %d status" % speed + spelled([0x14, value] if value else []), warned or value == 4


def spin_down(*speeds):
    """A start, and the speeds that are fed in its run."""
    text, warned = exchange("1301", 1), False
    for speed in speeds:
        said, warned = feed(speed, warned)
        text += said
    return text


def exchange(text, result):
    sent = octets(text)
    if result == 20:
        return " sent" + spelled(sent) + " refused 20"
    said = status(sent) if result == 1 else b""
    return " sent" + spelled(sent) + " response" + spelled(response(sent, result)) + " status" + spelled(said)


def case(name, *exchanges, verdict="pass"):
    line(name + "".join(exchange(*e) for e in exchanges), verdict)


ONE_OCTET_LEVEL = departs("the resistance level is one octet")


def status_cases():
    for number, sent in [
        ("01", "01"), ("02", "0801"), ("03", "0802"), ("04", "no call is the safety key"), ("05", "07"), ("06", "028813"), ("07", "030A00"),
        ("08", "0432"), ("25", "043200"), ("09", "056400"), ("10", "0687"), ("11", "09F401"), ("12", "0AD007"), ("13", "0BD007"),
        ("14", "0C881300"), ("15", "0D100E"), ("16", "0E08070807"), ("17", "0FF40158020807"), ("18", "105802B004B00458022C01"),
        ("19", "111027F4010164"), ("20", "12C800"), ("21", "flywheel"), ("22", "14C800"), ("23", "no call revokes control"),
        ("24", "radio: to whom a status is sent"),
    ]:
        if " " in sent:
            outside(sent, "FMSN", [int(number)])
        elif sent == "flywheel":  # "Any value from 0x01 to 0x04": 4 at the high target speed, 2 at the low one
            line("FMSN/BV-%s-C" % number + spin_down(2000, 1000), "pass")
        elif sent == "043200":
            case("FMSN/BV-%s-C" % number, (sent, 3), verdict=ONE_OCTET_LEVEL)
        else:
            case("FMSN/BV-%s-C" % number, (sent, 1))


def procedure_cases():
    for number, sent in enumerate([
        "00", "01", "02E803", "03FBFF", "043200", "05C800", "0678", "07", "0801", "0802", "092C01", "0A1027", "0BE803", "0C701101", "0D0807",
        "0E2C015802", "0F2C0158028403", "103C007800B400F0002C01", "1118FC2C012833", "123A52", "1301 1302", "14B400",
    ], 1):
        # 21 has "0x01 or 0x02": both are written.
        result, verdict = {5: (3, ONE_OCTET_LEVEL)}.get(number, (1, "pass"))
        case("CW/BV-%02d-C" % number, *((each, result) for each in sent.split()), verdict=verdict)


def error_cases():
    case("SPE/BV-01-C", ("07", 1), ("07", 4))
    # Its steps confirm the second response and the third, not the first.
    case("SPE/BV-02-C steps 3 to 6", ("07", 1), ("0801", 20), verdict=departs("a response awaits confirmation"))
    case("SPE/BV-02-C with step 4 confirmed", ("07", 1), ("0801", 1), ("0801", 4),
         verdict=departs("the first response is confirmed before the next write"))
    case("SPE/BV-03-C", ("81", 2))
    case("SPE/BV-04-C", ("027117", 3), ("02FFFF", 3))
    for number, below, least, greatest, above in [
        ("05", "039BFF", "039CFF", "039600", "039700"),
        ("06", "0409", "040A", "0464", "0465"),
        ("07", "050900", "050A00", "05F401", "05F501"),
        ("08", "063B", "063C", "06C8", "06C9"),
    ]:
        case("SPE/BI-%s-C alternatives 1, 3" % number, (below, 3), (above, 3))
        case("SPE/BI-%s-C alternatives 2, 4" % number, (least, 1), (greatest, 1))
    case("SPE/BV-09-C", ("07", 5))


def main():
    for group in ("SGGIT/SER", "SGGIT/SDP"):
        outside("radio: discovery", group, [1])
    outside("radio: discovery", "SGGIT/CHA", range(1, 8))
    outside("Training Status", "SGGIT/CHA", [8])
    outside("radio: discovery", "SGGIT/CHA", range(9, 16))
    outside("service 1.0.1: Feature indications", "SGGIT/CHA", [16])
    outside("service 1.0.1: Feature indications", "SGGIT/ISFC", [1])
    line("CR/BV-01-C read FF FF 01 00 FF FF 01 00", "pass")
    outside("Training Status", "CR", [2])
    outside("no call reads a range", "CR", range(3, 8))
    outside("radio: descriptors", "CON", range(1, 7))
    outside("Training Status", "CON", [7])
    outside("radio: descriptors", "CON", [8, 9])
    for kind in KINDS:
        kind_cases(kind)
    outside("Training Status", "TSN", [1, 2, 3])
    status_cases()
    procedure_cases()
    error_cases()


if __name__ == "__main__":
    main()
