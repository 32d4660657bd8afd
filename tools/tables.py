#!/usr/bin/env python3
"""Prints what crates/fttables must print: the reference's tables, from document 01's words and tables and W-201 and W-206 of document 02 alone.

    python3 tools/tables.py > crates/fttables/stdout
"""
import sys

sys.dont_write_bytecode = True

from header import header
from kinds import all_kinds, page, splitting, widths
from markdown import table
from runs import tables as spin_down
from vectors import KINDS, OCTETS

FEATURES = """average speed, cadence, distance, inclination, elevation gain, pace, step count, resistance, stride count, energy, heart rate,
metabolic equivalent, elapsed, remaining, power, belt force and power output, user data retention"""

TARGETS = """speed, inclination, resistance, power, heart rate, energy, steps, strides, distance, training time, time in two heart rate zones,
time in three heart rate zones, time in five heart rate zones, bike simulation, wheel circumference, spin down, cadence"""

# "Op codes and parameters", from 00 on, with spin down at 13: "parameter 1 starts, 2 ignores".
OP_CODES = """request control; reset; speed u16; inclination s16; resistance u8; power s16; heart rate u8; start or resume;
stop (1) or pause (2) u8; energy u16; steps u16; strides u16; distance u24; time u16; two zones, a u16 each; three zones, a u16 each;
five zones, a u16 each; wind s16, grade s16, rolling u8, drag u8; wheel u16;
spin down: start (1) or ignore (2) u8; cadence u16"""

# "Ranges .. exist for speed u16, inclination s16, resistance s16, power s16, heart rate u8."
RANGES = {0x02: "speed", 0x03: "inclination", 0x04: "resistance", 0x05: "power", 0x06: "heart rate"}

REFUSALS = [
    (10, "client above 3"),
    (11, "kind not 1 to 6"),
    (12, "payload not 20 to 512"),
    (13, "record not well formed"),
    (14, "lent output shorter than this answer"),
    (15, "part number not below the number of parts"),
    # "16 also for an increment of 0"; "16 also when the low target is not below the high one"
    (16, "some range has least above greatest or an increment of 0, or the low target speed is not below the high one"),
    (17, "client not connected; for connect, already connected"),
    (18, "write of no octets"),
    (19, "indications off (ATT FD)"),
    (20, "a response awaits confirmation (ATT FE)"),
    (21, "confirm by a client to whom no response is due"),
    (22, "Feature value not 8 octets"),
    (30, "notification above 512 octets"),
    (31, "shorter than its flags"),
    (32, "shorter than flags and named groups"),
    (33, "fixed: a group not in the told set"),
    (34, "fixed: incomplete at the last part"),
    (35, "told set has a bit not listed for the kind"),
    (36, "capture above 65,536 octets"),
    (37, "capture ends inside a length or notification"),
]

# "Where several apply, the splitter's order is ..", each call with its refusals in order
ORDERS = [
    ("splitting", [11, 12, 13, 15, 14]),
    # "30 to 32 are judged on it just before 13"
    ("splitting called from C", [11, 12, 30, 31, 32, 13, 15, 14]),
    # "a notification 30 to 34 upward", without 33 and 34, which need a told set; its kind first, as everywhere
    ("reading a notification", [11, 30, 31, 32]),
    ("reading a Feature value", [22]),
    ("opening a collection", [11, 35]),
    # "a notification 30 to 34 upward"; before that, as everywhere, the kind: a collection whose opening was refused may have an unknown one
    ("collecting a notification", [11, 30, 31, 32, 33, 34]),
    ("opening a machine", [22, 16]),
    # "connect, disconnect and indications 10, 17"
    ("connect", [10, 17]),
    ("disconnect", [10, 17]),
    ("indications", [10, 17]),
    ("write", [10, 17, 18, 19, 20]),
    ("confirm", [10, 17, 21]),
    # "The library call itself refuses only with 14"
    ("listing a capture", [14]),
    # "36, then 11, are judged first and end the listing, 37 ends it where met"; "It collects openly.", and a notification that is there whole "prints
    # `refused=` and goes on": 30 to 32
    ("a line of a listing", [36, 11, 37, 30, 31, 32]),
]

# "A write is judged in this order: 10, 17, 18, 19, 20; unsupported op code, result 02; .."
ENDS = {"write": ", then the results"}

# "A refusal writes no lent octet. 10 to 22 leave the state unchanged."; "A refusal 30 to 34 leaves nothing held."; "36, then 11, are judged first and end the
# listing, 37 ends it where met"
CONSOLE = "the console as it was"
LEAVES = {
    "splitting": "the lent octets as they were",
    "splitting called from C": "the lent octets and numbers as they were",
    "reading a notification": "the lent numbers as they were",
    "reading a Feature value": "nothing: the call has no state",
    "opening a collection": "a collection that holds nothing, not to be used",
    "collecting a notification": "11: the collection as it was; 30 to 34: nothing held",
    "opening a machine": "a console with no target setting, its ranges and target speeds all 0, not to be used",
    "connect": CONSOLE, "disconnect": CONSOLE, "indications": CONSOLE, "write": CONSOLE, "confirm": CONSOLE,
    "listing a capture": "the lent octets as they were",
    "a line of a listing": "36, 11 and 37: the listing ends; 30 to 32: nothing held, and the listing goes on",
}

# "A write is judged in this order: ..", after the refusals; "result 03 for neither 1 nor 2, 04 for a start during a run"; "result 03 also for a target off the steps"
RESULTS = [
    ("02", "the op code is not supported"),
    ("05", "the client does not hold control (but for 00)"),
    ("03", "wrong length, a value outside its range or off its steps, or 08 or 13 with neither 1 nor 2"),
    ("04", "00 finds another holder, 07 finds running, 08 with 1 finds stopped, 08 with 2 finds anything but running, or 13 with 1 finds a run"),
    ("01", "otherwise: success"),
]


def words(text, mark):
    return [word.strip() for word in text.split(mark)]


def parameter(name):
    """"one u16 for each zone"; the widths that a parameter names."""
    zones = {"two": 2, "three": 3, "five": 5}.get(name.split()[0], 1)
    return zones * [word.strip(",") for word in name.split() if word.strip(",") in OCTETS]


def bare(name):
    """A name without its widths."""
    for width in OCTETS:
        name = name.replace(", a %s each" % width, "").replace(" " + width, "")
    return name


def target_bit(op):
    """"00, 01, 07, 08 are always supported; 02 to 06 need target bits 0 to 4, 09 to 12 need 5 to 14, 14 needs 16."; "13 becomes supported with target bit 15" """
    if op in (0x00, 0x01, 0x07, 0x08):
        return "always supported"
    return {0x13: 15, 0x14: 16}.get(op, op - 2 if op <= 0x06 else op - 4)


def status(op, octets):
    """"01 gives 01; 07 gives 04; 08 gives 02 and its parameter; 02 to 06 give op code plus 3, 09 to 12 op code plus 1, 14 gives 15 .. 00 gives none."; "a start or an ignore gives none" """
    if op in (0x00, 0x13):
        return "none"
    first = {0x01: 0x01, 0x07: 0x04, 0x08: 0x02, 0x14: 0x15}.get(op, op + 3 if op <= 0x06 else op + 1)
    return "%02X" % first + (" and the parameter" if octets else "")


def op_code(op, name):
    """The cells after an op code's name."""
    widths = parameter(name)
    octets = sum(OCTETS[width] for width in widths)
    return ", ".join(widths) or "none", octets, RANGES.get(op, "none"), target_bit(op), status(op, octets)


def op_codes():
    rows = [("%02X" % op, bare(name)) + op_code(op, name) for op, name in enumerate(words(OP_CODES, ";"))]
    table(["op code", "name", "parameter", "octets", "range", "target bit it needs", "status where it succeeds"], rows)


def calls_that_give(number):
    return ", ".join(call for call, order in ORDERS if number in order)


def calls():
    print("# Feature value\n\n## Features\n")
    table(["bit", "name"], enumerate(words(FEATURES, ",")))
    print("\n## Target settings\n")
    table(["bit", "name"], enumerate(words(TARGETS, ",")))
    print("\n# Control point\n\n## Op codes\n")
    op_codes()
    print("\n## Results\n")
    table(["result", "given when"], RESULTS)
    print("\n# Refusals\n\n## Refusal numbers\n")
    table(["no.", "given exactly when", "by"], [(number, when, calls_that_give(number)) for number, when in REFUSALS])
    print("\n## Orders\n")
    table(["call", "order", "what a refusal leaves"],
          [(call, ", ".join(str(number) for number in order) + ENDS.get(call, ""), LEAVES[call]) for call, order in ORDERS])


# "07 sets running, 08 stopped (1) or paused (2)"; 01 "stops"
WRITES = {"07": "running", "08 01": "stopped", "08 02": "paused", "01": "stopped"}

# "A successful start answers 80 13 01 followed by a low and a high target speed"; "Reset, .. or an ignore ends a run"
SUCCESSES = [
    ("00", "gives the client control"),
    ("01", "zeroes every setting, stops the machine, frees control and ends a run"),
    ("07", "sets the machine running"),
    ("08 01", "stops the machine"),
    ("08 02", "pauses the machine"),
    ("02 to 06, 09 to 12, 14", "stores the parameter octets as the setting"),
    ("13 01", "starts a run; the target speeds follow the result in the response"),
    ("13 02", "ends a run"),
]

# Source document 000, table 4.15; the zones, tables 4.17 to 4.19; 11, table 4.20; the response to 13, table 4.22
UNITS = """02 speed, kilometers per hour, 0.01; 03 inclination, percent, 0.1; 04 resistance, none, 0.1; 05 power, watts, 1;
06 heart rate, beats per minute, 1; 09 energy, Calories, 1; 0A steps, steps, 1; 0B strides, strides, 1; 0C distance, meters, 1; 0D time, seconds, 1;
0E/0F/10 each zone, seconds, ; 11 wind, meters per second, 0.001; 11 grade, percent, 0.01; 11 rolling, none, 0.0001; 11 drag, kilograms per meter, 0.01;
12 wheel, millimeters, 0.1; 13 target speeds in the response, kilometers per hour, 0.01; 14 cadence, 1/minute, 0.5"""

WIDTHS = {0x02: "u16", 0x03: "s16", 0x04: "s16", 0x05: "s16", 0x06: "u8"}

# "Each range gets its increment, u16 (for heart rate u8)."
INCREMENTS = {op: "u8" if op == 0x06 else "u16" for op in WIDTHS}

# A range: its least value, its greatest and its increment; then each target that is written, with the answer as it was worked out by hand.
STEPS = [
    ("speed", 1000, 2000, 10, {990: "03", 1000: "01", 1005: "03", 1010: "01", 2000: "01", 2010: "03"}),
    ("speed", 1000, 2000, 1, {1005: "01"}),
    ("inclination", -32768, 32767, 65535, {-32768: "01", -32767: "03", 0: "03", 32766: "03", 32767: "01"}),
    ("resistance", -5, 3, 2, {0: "03", 1: "01", 2: "03", 3: "01"}),
    ("power", -32768, 32767, 65535, {-32768: "01", -1: "03", 32767: "01"}),
    ("heart rate", 0, 25, 10, {20: "01", 25: "03"}),
    ("heart rate", 60, 70, 20, {60: "01", 70: "03"}),
    ("speed", 1000, 2000, 0, {1000: "refused 16"}),
    ("inclination", -30, 150, 0, {-30: "refused 16"}),
    ("resistance", -5, 3, 0, {0: "refused 16"}),
    ("power", 0, 500, 0, {0: "refused 16"}),
    ("heart rate", 60, 200, 0, {60: "refused 16"}),
]


def state_after(state, write):
    """"04 when .. 07 finds running, 08 with 1 finds stopped, or 08 with 2 finds anything but running" """
    refused = {"07": state == "running", "08 01": state == "stopped", "08 02": state != "running"}.get(write, False)
    return "result 04" if refused else WRITES[write]


def unit_rows():
    for entry in words(UNITS, ";"):
        name, unit, resolution = words(entry, ",")
        op, name = name.split(" ", 1)
        yield op.replace("/", ", "), name, unit, resolution


def admitted(least, greatest, increment, target):
    """"A target is allowed when it is in the range and its distance from the least value is a multiple of the increment." """
    return least <= target <= greatest and (target - least) % increment == 0


def answer(least, greatest, increment, target):
    """"Refusals: 16 also for an increment of 0; result 03 also for a target off the steps." """
    if increment == 0:
        return "refused 16"
    return "01" if admitted(least, greatest, increment, target) else "03"


def step_rows():
    for name, least, greatest, increment, targets in STEPS:
        for target, worked in targets.items():
            assert answer(least, greatest, increment, target) == worked, (name, least, greatest, increment, target)
            yield name, least, greatest, increment, target, worked


def machine():
    print("\n# Machine\n\n## States\n")
    table(["machine", *WRITES], [(state, *(state_after(state, write) for write in WRITES)) for state in ("stopped", "running", "paused")])
    print("\n## Successes\n")
    table(["write", "what its success does"], SUCCESSES)
    print("\n## Units\n")
    table(["op code", "parameter", "unit", "resolution"], unit_rows())
    print("\n## Ranges\n")
    names = words(OP_CODES, ";")
    table(["range", "least and greatest", "increment", "op code", "its parameter"],
          [(RANGES[op], width, INCREMENTS[op], "%02X" % op, parameter(names[op])[0]) for op, width in WIDTHS.items()])
    print("\n## Steps\n")
    table(["range", "least", "greatest", "increment", "target", "answer"], step_rows())


def keys():
    """"Each record prints `record=` (1 up), `kind=`, `groups=` (the set in decimal), `direction=`, .." """
    print("\n# Listing\n\n## Keys\n")
    table(["key", "what follows it"], [
        ("`record=`", "the number of the record, counted from 1"),
        ("`kind=`", "the kind, 1 to 6"),
        ("`groups=`", "the set of optional groups: the sum of 2 to the power of each bit"),
        ("`direction=`", "0 forward, 1 backward; 0 for every kind but the cross trainer"),
        ("`refused=`", "the number of a refusal")])


if __name__ == "__main__":
    for each in KINDS:
        page(each)
    calls()
    machine()
    spin_down()
    all_kinds(words(FEATURES, ","))
    widths()
    splitting()
    keys()
    header(dict(REFUSALS))
