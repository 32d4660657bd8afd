#!/usr/bin/env python3
"""Prints what crates/session must print, from the words of documents 01 and 02 alone: the calls of two clients of a treadmill's control point, one per line,
and the state when a call changes it.

    python3 tools/session.py > crates/session/stdout
"""
import sys

sys.dont_write_bytecode = True

from conformance import status
from tables import OP_CODES, RANGES, admitted, parameter, target_bit, words
from vectors import OCTETS, hexed, spelled

# The target settings of the treadmill: "0 speed, 1 inclination, .. 3 power"; no spin down, which is 15.
TARGETS = {0, 1, 3}
# Its features: "0 average speed, .. 2 distance, 3 inclination, .. 12 elapsed, .. 15 belt force and power output"
FEATURES = {0, 2, 3, 12, 15}
# Its ranges: "least, greatest, both allowed", and the increment, which "stands in the same shared range as the two ends".
ALLOWED = {"speed": (100, 2000, 10), "inclination": (-30, 150, 5), "resistance": (0, 0, 1), "power": (0, 500, 1), "heart rate": (0, 0, 1)}

# The widths of each op code's parameter.
PARAMETERS = {op: parameter(name) for op, name in enumerate(words(OP_CODES, ";"))}

ON = "turns indications on"

# Who calls, the call, what is written, and the answer as it was worked out by hand: the result, or a refusal's number in words.
STORY = [
    (0, "connects"), (0, ON),
    (0, "writes", "00", "01"), (0, "confirms"),
    (0, "writes", "02 E8 03", "01"), (0, "confirms"),
    (0, "writes", "02 ED 03", "03"), (0, "confirms"),
    (0, "writes", "02 DA 07", "03"), (0, "confirms"),
    (0, "writes", "07", "01"), (1, "connects"), (1, ON), (1, "writes", "00", "refused 20"), (0, "confirms"),
    (1, "writes", "00", "04"), (1, "confirms"),
    (1, "writes", "07", "05"), (1, "confirms"),
    (0, "writes", "07", "04"), (0, "confirms"),
    (0, "writes", "08 02", "01"), (0, "confirms"),
    (0, "writes", "07", "01"), (0, "confirms"),
    (0, "writes", "04 32", "02"), (0, "confirms"),
    (0, "writes", "08 01", "01"), (0, "confirms"),
    (0, "disconnects"),
    (1, "writes", "00", "01"), (1, "confirms"),
    (1, "writes", "01", "01"), (1, "confirms"),
]


def supported(op):
    """"00, 01, 07, 08 are always supported", others by their target bits."""
    return op in PARAMETERS and (target_bit(op) == "always supported" or target_bit(op) in TARGETS)


def allowed(op, octets):
    """Neither "wrong length" nor "value outside its range or 08 with neither 1 nor 2", nor "a target off the steps"."""
    widths = PARAMETERS[op]
    if len(octets) != sum(OCTETS[width] for width in widths):
        return False
    if op != 0x08 and op not in RANGES:
        return True
    return admitted(*(1, 2, 1) if op == 0x08 else ALLOWED[RANGES[op]], int.from_bytes(octets, "little", signed=widths == ["s16"]))


class Console:
    """"At first it is stopped, no client is connected, nobody holds control, and every setting is zero." """

    def __init__(self):
        self.mode, self.holder, self.settings = "stopped", None, {}
        self.indications = {}  # for each client that is connected, whether they are on
        self.awaited = None  # the client whose response awaits confirmation

    def state(self):
        who = "nobody" if self.holder is None else f"client {self.holder}"
        speed = int.from_bytes(self.settings.get(0x02, b""), "little")
        return f"{self.mode}, {who} holds control, speed {speed}"

    def refusal(self, client, call, octets):
        """"A write is judged in this order: 10, 17, 18, 19, 20"; "connect, disconnect and indications 10, 17; confirm 10, 17, 21". """
        connected = client in self.indications
        judged = [(10, client > 3), (17, connected if call == "connects" else not connected)]
        if call == "writes":
            judged += [(18, octets == b""), (19, not self.indications.get(client)), (20, self.awaited is not None)]
        if call == "confirms":
            judged += [(21, self.awaited != client)]
        return next((number for number, applies in judged if applies), None)

    def result(self, client, op, octets):
        """"unsupported op code, result 02; not the holder (but for 00), 05; .. result 03; then 04 ..; else 01". """
        if not supported(op):
            return 0x02
        if op != 0x00 and self.holder != client:
            return 0x05
        if not allowed(op, octets):
            return 0x03
        if op == 0x00:  # "00 finds another holder"
            found = self.holder not in (None, client)
        elif op == 0x07:  # "07 finds running"
            found = self.mode == "running"
        else:  # "08 with 1 finds stopped, or 08 with 2 finds anything but running"
            found = op == 0x08 and (self.mode == "stopped" if octets[0] == 1 else self.mode != "running")
        return 0x04 if found else 0x01

    def succeed(self, client, op, octets):
        """"00 gives control; 01 zeroes every setting, stops and frees control; 07 sets running, 08 stopped (1) or paused (2)"; others store."""
        if op == 0x00:
            self.holder = client
        elif op == 0x01:
            self.mode, self.holder, self.settings = "stopped", None, {}
        elif op == 0x07:
            self.mode = "running"
        elif op == 0x08:
            self.mode = "stopped" if octets[0] == 1 else "paused"
        else:
            self.settings[op] = octets

    def write(self, client, octets):
        """"Response: 80, op code, result. Each then awaits confirmation"; and the status octets if it succeeds."""
        result = self.result(client, octets[0], octets[1:])
        self.awaited = client
        said = ": response" + hexed([0x80, octets[0], result])
        if result != 0x01:
            return said
        self.succeed(client, octets[0], octets[1:])
        return said + (", status" + hexed(status(octets)) if status(octets) else "")

    def disconnect(self, client):
        """"Disconnect frees control held by that client, its indications and its awaited response." """
        del self.indications[client]
        self.holder = None if self.holder == client else self.holder
        self.awaited = None if self.awaited == client else self.awaited

    def call(self, client, call, octets):
        """Makes a call; returns the answer as its line shows it."""
        number = self.refusal(client, call, octets)
        if number:
            return f": refused {number}"
        if call == "writes":
            return self.write(client, octets)
        if call == "disconnects":
            self.disconnect(client)
        elif call == "confirms":
            self.awaited = None
        else:  # "Indications are off at connect"
            self.indications[client] = call == ON
        return ""


def main():
    console = Console()
    # "Feature value, 8 octets, two u32"
    print("Feature value:" + hexed(b"".join(spelled(sum(1 << bit for bit in bits), 4) for bits in (FEATURES, TARGETS))))
    print("a machine is opened: " + console.state())
    for client, call, *written in STORY:
        octets, worked = written if written else ("", "")
        before = console.state()
        answer = console.call(client, call, bytes.fromhex(octets))
        assert answer.split(", ")[0].endswith(worked) if written else answer == "", (client, call, answer)
        print(f"client {client} {call}" + (" " + octets if octets else "") + answer)
        if console.state() != before:
            print("now: " + console.state())


if __name__ == "__main__":
    main()
