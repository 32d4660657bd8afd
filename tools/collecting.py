"""The cases of collections that tools/vectors.py runs, each with its answers by document 01's rules, worked out by hand.

Most are of an indoor bike's average speed (flags 02), cadence (04) and average cadence (08); a part whose flags include 01 has More Data 1.
"""

# Words, kind, and the told set: None if the collection is open.
OPENINGS = [
    ("kind 0", 0, None), ("kind 7", 7, None), ("11 before 35", 7, 1), ("bit 0", 6, 1), ("bit 13 of a bike", 6, 1 << 13),
    ("bit 15 of a cross trainer", 2, 1 << 15), ("bit 31", 2, 1 << 31), ("all groups", 6, 8190), ("all groups", 2, 32766),
    ("no group", 1, 0)]

# Kind and told set, then the cases: words, notifications, and the answers by the rules.
COLLECTIONS = [
    (6, None, [
        ("the sample", "44 00 C4 09 B4 00 FA 00", "record 68"),
        ("all groups", "FF 00 EE 03 06 04 07 04 47 42 0F E6 FF E5 FF E4 FF / 00 1F E9 03 F6 03 F7 03 10 11 12 FB 03 FC 03",
         "waiting, record 8190"),
        ("no octets", "", "31"),
        ("one octet", "44", "31"),
        ("cut short", "44 00 C4", "32"),
        ("octets after the last group", "03 00 E8 03 01 02 / 04 00 C4 09 B4 00 03", "waiting, record 6"),
        ("reserved bits", "03 E0 E8 03 / 04 E0 C4 09 B4 00", "waiting, record 6"),
        ("a group that is held drops all", "07 00 E8 03 B4 00 / 05 00 B5 00 / 00 00 C4 09", "waiting, waiting dropped, record 4"),
        ("in the last part too", "07 00 E8 03 B4 00 / 04 00 C4 09 B5 00", "waiting, record 4 dropped"),
        ("no group that is held", "09 00 B6 00 / 03 00 E8 03 / 04 00 C4 09 B4 00", "waiting, waiting, record 14"),
        ("a part without groups", "03 00 E8 03 / 01 00 / 00 00 C4 09", "waiting, waiting, record 2"),
        ("no group at all", "01 00 / 00 00 C4 09", "waiting, record 0"),
        ("nothing held after 31", "03 00 E8 03 / 44 / 00 00 C4 09", "waiting, 31 dropped, record 0"),
        ("nothing held after 32", "03 00 E8 03 / 44 00 C4 / 00 00 C4 09", "waiting, 32 dropped, record 0"),
        ("nothing held after a record", "03 00 E8 03 / 04 00 C4 09 B4 00 / 00 00 C4 09", "waiting, record 6, record 0"),
        ("part 2, then 1 and 3 of the next record", "05 00 B4 00 / 03 00 E9 03 / 08 00 C5 09 B7 00", "waiting, waiting, record 14"),
    ]),
    (6, 14, [
        ("three parts", "03 00 E8 03 / 05 00 B4 00 / 08 00 C4 09 B6 00", "waiting, waiting, record 14"),
        ("one part", "0E 00 C4 09 E8 03 B4 00 B6 00", "record 14"),
        ("octets after the last group", "03 00 E8 03 01 / 0C 00 C4 09 B4 00 B6 00 02 03", "waiting, record 14"),
        ("reserved bits", "03 E0 E8 03 / 0C E0 C4 09 B4 00 B6 00", "waiting, record 14"),
        ("a part without groups", "07 00 E8 03 B4 00 / 01 00 / 08 00 C4 09 B6 00", "waiting, waiting, record 14"),
        ("1 held, then 1", "03 00 E8 03 / 03 00 E9 03 / 0C 00 C4 09 B4 00 B6 00", "waiting, waiting dropped, record 14"),
        ("1 and 3 held, then 2", "0B 00 E8 03 B6 00 / 05 00 B4 00 / 00 00 C4 09", "waiting, waiting dropped, 34 dropped"),
        ("2 held, then all", "05 00 B5 00 / 0E 00 C4 09 E8 03 B4 00 B6 00", "waiting, record 14 dropped"),
        ("34, nothing held before", "02 00 C4 09 E8 03", "34"),
        ("34, 1 held before", "03 00 E8 03 / 00 00 C4 09", "waiting, 34 dropped"),
        ("34 after a drop", "0B 00 E8 03 B6 00 / 04 00 C4 09 B4 00", "waiting, 34 dropped"),
        ("33, nothing held before", "11 00 07 00 00", "33"),
        ("33 before rule 2", "05 00 B4 00 / 13 00 E9 03 07 00 00", "waiting, 33 dropped"),
        ("33 in the last part", "03 00 E8 03 / 1C 00 C4 09 B4 00 B6 00 07 00 00", "waiting, 33 dropped"),
        ("33 before 34", "10 00 C4 09 07 00 00", "33"),
        ("32 before 33", "11 00 07", "32"),
        ("nothing held after 31", "03 00 E8 03 / 44 / 0C 00 C4 09 B4 00 B6 00", "waiting, 31 dropped, 34"),
        ("nothing held after 32", "03 00 E8 03 / 05 00 B4 / 0C 00 C4 09 B4 00 B6 00", "waiting, 32 dropped, 34"),
        ("nothing held after 33", "03 00 E8 03 / 11 00 07 00 00 / 0C 00 C4 09 B4 00 B6 00", "waiting, 33 dropped, 34"),
        ("nothing held after 34", "03 00 E8 03 / 00 00 C4 09 / 0C 00 C4 09 B4 00 B6 00", "waiting, 34 dropped, 34"),
        ("nothing held after a record", "0E 00 C4 09 E8 03 B4 00 B6 00 / 00 00 C4 09", "record 14, 34"),
        ("part 2, then 1 and 3 of the next record", "05 00 B4 00 / 03 00 E9 03 / 08 00 C5 09 B7 00", "waiting, waiting dropped, 34 dropped"),
    ]),
    (6, 0, [
        ("no group", "00 00 C4 09 / 01 00 / 00 00 C5 09", "record 0, waiting, record 0"),
        ("a group", "02 00 C4 09 E8 03", "33"),
    ]),
    (2, None, [
        ("two octets of three flags", "00 80", "31"),
        ("backward, then forward", "03 80 00 E8 03 / 04 00 00 C4 09 01 02 03", "waiting, record 6"),
        ("forward, then backward", "03 00 00 E8 03 / 04 80 00 C4 09 01 02 03", "waiting, record 6 backward"),
    ]),
    (2, 32766, [
        ("all groups", "3F 80 00 EE 03 47 42 0F FF 03 00 04 01 04 F2 03 F3 03 / "
         "C1 9F 00 F8 FF F7 FF E6 FF E5 FF E4 FF F6 03 F7 03 10 11 12 / 00 E0 00 E9 03 FB 03 FC 03",
         "waiting, waiting, record 32766 backward"),
    ]),
]
