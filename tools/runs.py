"""The rules of a spin down's runs, from document 02's words alone (W-201), and the tables of them that fttables must print."""
from markdown import table
from vectors import hexed, spelled

START, IGNORE = b"\x01", b"\x02"  # "parameter 1 starts, 2 ignores"

# "The status is 14 with 2 success or 4 stop pedalling"
SUCCESS, STOP = b"\x14\x02", b"\x14\x04"

# There is no run, or it is one that has not yet said 4, or one that has.
NO_RUN, QUIET, WARNED = "no run", "a run that has said nothing", "a run that has said 4"
RUNS = [NO_RUN, QUIET, WARNED]


def result(run, parameter):
    """The result of 13 by the holder: "result 03 for neither 1 nor 2, 04 for a start during a run". """
    if parameter not in (START, IGNORE):
        return 0x03
    return 0x04 if parameter == START and run != NO_RUN else 0x01


def response(number, parameter, low, high):
    """"A successful start answers 80 13 01 followed by a low and a high target speed, u16 each", others three octets."""
    targets = spelled(low, 2) + spelled(high, 2) if (number, parameter) == (0x01, START) else b""
    return bytes([0x80, 0x13, number]) + targets


def written(run, parameter):
    """The run after 13: "parameter 1 starts", and "an ignore ends a run"."""
    return run if result(run, parameter) != 0x01 else QUIET if parameter == START else NO_RUN


def fed(run, speed, low, high):
    """The status at a speed and the run after it: "above the high speed nothing happens, at the first speed at or below it the console says 4, at or below
    the low speed, even at once, it says success only and the run is over. Outside a run a speed does nothing". """
    if run == NO_RUN or speed > high:
        return b"", run
    if speed <= low:
        return SUCCESS, NO_RUN
    return (STOP, WARNED) if run == QUIET else (b"", run)


LOW, HIGH = 1000, 2000

# What is written, where, and by whom: the run that it finds, or the result that comes before those of the holder. "Op code 13 becomes supported with target
# bit 15": without it "unsupported op code, result 02; not the holder (but for 00), 05".
WRITES = [
    ("13 01", "target bit 15 is 0", NO_RUN, 0x02),
    ("13 01", "the client does not hold control", NO_RUN, 0x05),
    ("13", "the parameter is missing", NO_RUN, None),
    ("13 03", "the parameter is neither 1 nor 2", NO_RUN, None),
    ("13 01", "there is no run: it starts", NO_RUN, None),
    ("13 01", "there is a run", QUIET, None),
    ("13 02", "there is a run: it is ignored", QUIET, None),
    ("13 02", "there is no run", NO_RUN, None),
]


def write_row(octets, where, run, before):
    """"a start or an ignore gives none": no status."""
    parameter = bytes.fromhex(octets)[1:]
    number = before or result(run, parameter)
    after = run if before else written(run, parameter)
    return octets, where, hexed(response(number, parameter, LOW, HIGH)).strip(), "none", after


def write_cell(run, parameter):
    """Where a write by the holder leads: a run, or the result if that is not success."""
    number = result(run, parameter)
    return written(run, parameter) if number == 0x01 else f"result {number:02X}"


def speed_cell(run, speed):
    status, after = fed(run, speed, LOW, HIGH)
    return f"status{hexed(status)}: {after}" if status else after


# "Reset, disconnect of the holder or an ignore ends a run without a status of its own": that of 01 is the reset's; nothing else ends one.
CALLS = [
    ("write 13 01", lambda run: write_cell(run, START)),
    ("write 13 02", lambda run: write_cell(run, IGNORE)),
    ("write 01", lambda run: "status 01: " + NO_RUN),
    ("the holder disconnects", lambda run: NO_RUN),
    ("another client disconnects", lambda run: run),
    ("speed above high", lambda run: speed_cell(run, HIGH + 1)),
    ("speed at or below high, above low", lambda run: speed_cell(run, HIGH)),
    ("speed at or below low", lambda run: speed_cell(run, LOW)),
]

# "16 also when the low target is not below the high one"
TARGETS = [(1999, 2000), (2000, 2000), (2001, 2000)]


def tables():
    print("\n# Spin down\n\n## Writes\n")
    table(["write", "where", "response", "status", "after it"], [write_row(*row) for row in WRITES])
    print("\n## Runs\n")
    table(["call", *RUNS], [(call, *(cell(run) for run in RUNS)) for call, cell in CALLS])
    print("\n## Target speeds\n")
    table(["low", "high", "opening a machine"], [(low, high, "done" if low < high else "refused 16") for low, high in TARGETS])
