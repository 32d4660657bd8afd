"""The rows of the reference's tables, read once for all pictures; rows that contradict themselves are rejected with a plain sentence."""
import re
from typing import List, NamedTuple

OCTETS = {"u8": 1, "s16": 2, "u16": 2, "u24": 3}


class Field(NamedTuple):
    name: str
    width: str
    octets: int
    at: int


class Group(NamedTuple):
    """A group with its fields; the main group has bit 0."""
    bit: int
    name: str
    fields: List[Field]

    @property
    def octets(self):
        return sum(field.octets for field in self.fields)


class Part(NamedTuple):
    number: int
    flags: List[str]
    octets: int
    groups: List[Group]

    @property
    def more(self):
        """More Data as it stands in the flags."""
        return int(self.flags[0], 16) & 1


def cell(row, column):
    if column not in row:
        raise ValueError("a row has no column `%s`: %s" % (column, row))
    return row[column].strip()


def whole_number(words, what):
    if not re.fullmatch(r"[0-9]+", words):
        raise ValueError("%s is `%s`, which is no number" % (what, words))
    return int(words)


def presence(words):
    """The bit of `bit 3 is 1`, or 0 for the main group's `bit 0 is 0`."""
    found = re.fullmatch(r"bit (\d+) is ([01])", words)
    if not found or (int(found.group(1)) == 0) != (found.group(2) == "0"):
        raise ValueError("`%s` does not say when a group is present" % words)
    return int(found.group(1))


def groups_of(rows, flags_octets):
    """The groups of the field table, in order; each field must begin where the one before it ends."""
    groups, at = [], flags_octets
    for row in rows:
        bit, name, width = presence(cell(row, "present when")), cell(row, "group"), cell(row, "width")
        if width not in OCTETS:
            raise ValueError("field %s has width `%s`, which is not known" % (cell(row, "field"), width))
        field = Field(cell(row, "field"), width, OCTETS[width], whole_number(cell(row, "first octet"), "the octet of " + cell(row, "field")))
        if field.at != at:
            raise ValueError("field %s is at octet %d, where octet %d comes next" % (field.name, field.at, at))
        at += field.octets
        add_field(groups, bit, name, field)
    if not groups or groups[0].bit != 0:
        raise ValueError("the fields do not begin with the main group")
    return groups


def add_field(groups, bit, name, field):
    """A field joins the last group, or begins one with a higher bit."""
    if (bit == 0) != (name == "main"):
        raise ValueError("field %s: bit %d and group `%s` do not go together" % (field.name, bit, name))
    if groups and groups[-1].bit == bit:
        if groups[-1].name != name:
            raise ValueError("bit %d names two groups, %s and %s" % (bit, groups[-1].name, name))
        groups[-1].fields.append(field)
    elif groups and groups[-1].bit > bit:
        raise ValueError("bit %d comes after bit %d" % (bit, groups[-1].bit))
    else:
        groups.append(Group(bit, name, [field]))


def named_groups(words, groups):
    """The groups of `main 7 8 9`, which must ascend."""
    of_bit = {group.bit: group for group in groups}
    bits = [0 if word == "main" else whole_number(word, "a group") for word in words.split()]
    for bit in bits:
        if bit not in of_bit:
            raise ValueError("`%s` names bit %d, which is no group" % (words, bit))
    if bits != sorted(set(bits)):
        raise ValueError("the groups `%s` do not ascend" % words)
    return [of_bit[bit] for bit in bits]


def flags_of(words, flags_octets):
    flags = words.split()
    if len(flags) != flags_octets or not all(re.fullmatch(r"[0-9A-F]{2}", octet) for octet in flags):
        raise ValueError("`%s` is not %d octets of flags" % (words, flags_octets))
    return flags


def flags_agree(part, groups):
    """The flags name the part's groups and no others, and More Data is 0 exactly when the main group is present."""
    value = sum(int(octet, 16) << 8 * i for i, octet in enumerate(part.flags))
    for group in groups:
        named = (value >> group.bit & 1) == (0 if group.bit == 0 else 1)
        if named != (group in part.groups):
            raise ValueError("part %d: flags %s and the part's groups do not agree on %s" % (part.number, " ".join(part.flags), group.name))


def parts_of(rows, groups, payload, flags_octets):
    """The parts of a table of parts, checked against the fields and the payload."""
    parts = []
    for row in rows:
        part = Part(
            whole_number(cell(row, "part"), "a part's number"),
            flags_of(cell(row, "flags"), flags_octets),
            whole_number(cell(row, "length"), "a part's length"),
            named_groups(cell(row, "groups"), groups),
        )
        if part.number != len(parts):
            raise ValueError("part %d stands where part %d should" % (part.number, len(parts)))
        part_agrees(part, groups, payload, flags_octets)
        parts.append(part)
    return parts


def part_agrees(part, groups, payload, flags_octets):
    flags_agree(part, groups)
    octets = flags_octets + sum(group.octets for group in part.groups)
    if octets != part.octets:
        raise ValueError("part %d has %d octets, but its flags and groups take %d" % (part.number, part.octets, octets))
    if octets > payload:
        raise ValueError("part %d has %d octets, more than the payload, %d" % (part.number, octets, payload))
