"""The header host/hordivasz_layout.h, from document 01's words and tables alone."""
from kinds import NAMES, group_name, unit
from vectors import KINDS, OCTETS, all_groups, flags_length, length_of, part_sets

# "payload not 20 to 512", "notification above 512 octets", "capture above 65,536 octets"
LEAST_PAYLOAD, GREATEST_PAYLOAD, LONGEST_NOTIFICATION, LONGEST_CAPTURE = 20, 512, 512, 65536

# The refusals of the two calls that return one: the splitter's of a C host, and the listing call's, 14; then those that are in a listing alone
RETURNED = {11: "unknown kind", 12: "payload out of range", 13: "not well formed", 14: "output too short", 15: "no such part",
            30: "notification too long", 31: "shorter than flags", 32: "shorter than groups"}
LISTED = {36: "capture too long", 37: "capture cut short"}

BEGINNING = """
# hordivasz_layout.h

/*
 * The layouts for C: of each kind its number, the masks of its groups, the octets of its flags and
 * fields, and the octets of a record with all its groups; the least and greatest sizes; and the
 * refusals. Macros and one enum, for any C or C++ compiler; it needs no other header.
 *
 * The kinds' numbers and the widths are this reference's: the service's own text leaves widths to
 * the assigned numbers. A unit is given where the documents of this reference give one.
 *
 * Do not edit: the program fttables prints this file from the tables that the proved code runs on.
 * Copyright (c) 2026 the Hordivasz maintainers; see LICENSE.
 */
#ifndef HORDIVASZ_LAYOUT_H
#define HORDIVASZ_LAYOUT_H
"""

FLAGS = """
/*
 * The kinds. In the flags, which are sent least octet first, bit 0 is More Data: the main group is
 * present exactly when it is 0. Each optional group is present exactly when its bit is 1: the flags
 * of a record are the masks of its groups, joined by |. A cross trainer that goes backward adds
 * BACKWARD_MASK, which is not a group. The fields follow in the order in which they are sent, those
 * of a group after the group's mask. ALL_GROUPS is all masks together; LONGEST is the octets of a
 * record with all groups, as one notification.
 */"""

RETURNS = """
/*
 * What hordivasz_split and hordivasz_list return: 0, or a refusal. hordivasz.h has the order in
 * which they are judged. From C, 13 can only mean that More Data is 1.
 */"""


def macro(words, value, comment=""):
    """A macro by its words."""
    print("#define HORDIVASZ_%s %s" % (words.upper().replace(" ", "_"), value) + (" /* %s */" % comment if comment else ""))


def said(words, *macros):
    """A comment, and numbers under it."""
    print("\n/* %s */" % words)
    for name, number in macros:
        macro(name, "%du" % number)


def sizes():
    everything = {kind: range(len(groups)) for kind, groups in KINDS.items()}
    said("The payload, the most octets that a notification may have: from the first to the second.",
         ("least payload", LEAST_PAYLOAD), ("greatest payload", GREATEST_PAYLOAD))
    said("No record has more parts, at any payload.",
         ("most parts", max(len(part_sets(kind, all_groups(kind), LEAST_PAYLOAD)) for kind in KINDS)))
    said("No record, sent as one notification, has more octets.",
         ("longest record", max(length_of(kind, bits) for kind, bits in everything.items())))
    said("Longer notifications are refused with 30, longer captures with 36.",
         ("longest notification", LONGEST_NOTIFICATION), ("longest capture", LONGEST_CAPTURE))


def kind_macros(kind, name):
    print("\n/* Kind %d: %s. */" % (kind, name))
    macro(name, "%du" % kind)
    macro(name + " flags octets", "%du" % flags_length(kind))
    for bit, group in enumerate(KINDS[kind]):
        if bit:
            macro(f"{name} {group_name(bit, group)} mask", "(1u << %d)" % bit)
        for field, width in group:
            macro(f"{name} {field} octets", "%du" % OCTETS[width], f"{width} {unit(kind, field)}".rstrip())
    if kind == 2:
        macro(name + " backward mask", "(1u << 15)")
    macro(name + " all groups", "0x%04Xu" % all_groups(kind))
    macro(name + " longest", "%du" % length_of(kind, range(len(KINDS[kind]))))


def refusals(words):
    """With document 01's words on when each is given."""
    print(RETURNS)
    macro("done", "0u")
    for number, name in RETURNED.items():
        macro(name, "%du" % number, words[number])
    print("\n/* In a listing's lines `refused=` only, beside 11 and 30 to 32: no call returns them. */")
    for number, name in LISTED.items():
        macro(name, "%du" % number, words[number])
    members = [name.upper().replace(" ", "_") for name in {**RETURNED, **LISTED}.values()]
    print("\n/* The same numbers as an enum, for a switch: the calls return uint32_t, so cast what they return. */\nenum hordivasz_refusal {\n    HORDIVASZ_REFUSAL_NONE = HORDIVASZ_DONE,")
    print(",\n".join("    HORDIVASZ_REFUSAL_%s = HORDIVASZ_%s" % (name, name) for name in members) + "\n};")


def header(words):
    print(BEGINNING, end="")
    sizes()
    print(FLAGS)
    macro("more data mask", "(1u << 0)")
    for kind, name in NAMES.items():
        kind_macros(kind, name)
    refusals(words)
    print("\n#endif")
