"""The crates as a stack, from the lines of crates.txt: each library stands on the libraries that it uses, and each program names those that it uses."""
from .svg import GREY, INNER, LINE, MARGIN, TINTS, Picture, lines_of, text_width

# Each library with its left and right side in the stack and its words. Its row is computed: one above the highest library that it uses.
LIBRARIES = {
    "record": (0, 660, "the record layer: field tables, records, splitting, Feature value"),
    "text": (0, 290, "text in a buffer, names of fields"),
    "service": (290, 660, "the layer above: collector and control point"),
    "reference": (0, 150, "tables of a kind, in Markdown"),
    "listing": (150, 360, "a capture as lines of text"),
    "output": (360, 490, "printing, for the programs"),
    "demands": (490, 660, "the demands, stated and proved"),
    "phone": (150, 360, "what the calls from C do"),
    "phone_c": (150, 360, "the calls from C, as a library for C"),
}
TINTED = {"record": TINTS[0], "service": TINTS[1]}

# Each program with its words, in the order in which they are drawn.
PROGRAMS = {
    "ftlist": "lists a capture",
    "roundtrip": "splits and collects records",
    "session": "two clients, one console",
    "spindown": "a crew calibrates a bike",
    "fttables": "prints the tables",
    "vectors": "worked cases of records",
    "conformance": "the server test cases",
    "replay": "replays scripts of calls",
}

# What is drawn after the programs and is not a crate, with its words and what it uses.
HOST = ("host/", "C header, example, tests", ["phone_c", "ftlist", "replay"])

GAP = 4
BRICK = 47
ACROSS = 3
BETWEEN = 8


def closure(crates, name):
    """Every crate of the list that a crate uses, itself or through others."""
    found = set()
    for used in crates[name]:
        if used in crates:
            found |= {used} | closure(crates, used)
    return found


def direct(crates, name):
    """The crates that a crate uses, less those that these use; in the order of the list."""
    used = [other for other in crates if other in crates[name]]
    return [one for one in used if not any(one in closure(crates, other) for other in used)]


def row_of(crates, name):
    """How many libraries stand below each other under a library."""
    return 1 + max([row_of(crates, used) for used in crates[name] if used in crates], default=-1)


def under(rows, name):
    """Every library that is under a library in the stack."""
    left, right, _ = LIBRARIES[name]
    below = [other for other in rows if rows[other] == rows[name] - 1 and LIBRARIES[other][0] < right and left < LIBRARIES[other][1]]
    return set(below).union(*(under(rows, other) for other in below))


def check_known(crates, programs):
    """Every crate has its place, and no place is left without its crate."""
    for name in crates:
        if name not in (PROGRAMS if name in programs else LIBRARIES):
            raise ValueError("no place for the crate %s of crates.txt" % name)
    for name in [*LIBRARIES, *PROGRAMS, *HOST[2]]:
        if name not in crates:
            raise ValueError("the crate %s is not in crates.txt" % name)


def check_stack(crates, rows):
    """Each library has under it exactly the libraries that it uses."""
    for name in rows:
        if under(rows, name) != closure(crates, name):
            shown, used = (", ".join(sorted(names)) or "nothing" for names in (under(rows, name), closure(crates, name)))
            raise ValueError("%s would stand on %s, but by crates.txt it uses %s" % (name, shown, used))


def draw_label(picture, y, word, words):
    """What the boxes below are, and how they are to be read."""
    picture.text(MARGIN, y, word, "start", size=12, bold=True)
    picture.text(MARGIN + text_width(word, 12, bold=True) + 8, y, words, "start")


def draw_brick(picture, foot, row, name):
    left, right, words = LIBRARIES[name]
    x, wide, y = MARGIN + left + GAP / 2, right - left - GAP, foot - (row + 1) * (BRICK + GAP)
    picture.box(x, y, wide, BRICK, TINTED.get(name, "#ffffff"), thick=1.5)
    lines = lines_of(words, wide - 8)
    if 14 + len(lines) * LINE > BRICK:
        raise ValueError("the words of %s have no room in its box" % name)
    top = y + (BRICK - 14 - len(lines) * LINE) / 2 + 11
    picture.text(x + wide / 2, top, name, size=12, bold=True)
    picture.block(x + wide / 2, top + 14, lines)


def cells(crates):
    """The boxes above the libraries: each one's name, its words and what it uses, the programs first."""
    return [(name, words, direct(crates, name)) for name, words in PROGRAMS.items()] + [HOST]


def uses(used, wide):
    """The lines in a box that say what it uses."""
    return lines_of("uses " + ", ".join(used), wide - 8)


def draw_cell(picture, x, y, wide, high, cell):
    name, words, used = cell
    if name in PROGRAMS:
        picture.box(x, y, wide, high, "#ffffff", thick=1.5, more='rx="10"')
    else:
        picture.dashed_box(x, y, wide, high)
    lines = lines_of(words, wide - 8)
    picture.text(x + wide / 2, y + 16, name, size=12, bold=True)
    picture.block(x + wide / 2, y + 30, lines)
    picture.block(x + wide / 2, y + 30 + len(lines) * LINE, uses(used, wide), fill=GREY)


def draw_cells(picture, y, crates):
    """The programs in rows, and host/ after the last; where they end."""
    wide, made = (INNER - (ACROSS - 1) * BETWEEN) / ACROSS, cells(crates)
    high = 27 + LINE * max(len(lines_of(words, wide - 8)) + len(uses(used, wide)) for _, words, used in made)
    for i, cell in enumerate(made):
        draw_cell(picture, MARGIN + i % ACROSS * (wide + BETWEEN), y + i // ACROSS * (high + BETWEEN), wide, high, cell)
    return y + -(-len(made) // ACROSS) * (high + BETWEEN)


def kit_words(crates, programs):
    """Which libraries are the kit's, and who uses them."""
    kit = sorted({used for name in crates for used in crates[name] if used not in crates})
    users = [name for name in crates if name not in programs and any(used in kit for used in crates[name])]
    return "Programs%s also use libraries of the Rattle kit: %s." % ("".join(" and " + name for name in users), ", ".join(kit))


def layers_picture(title, crates, programs):
    """The programs above, the libraries below; `crates`: what each uses, by its name, and `programs` the names of those that are programs."""
    check_known(crates, programs)
    rows = {name: row_of(crates, name) for name in LIBRARIES}
    check_stack(crates, rows)
    picture = Picture(title)
    draw_label(picture, picture.top + 16, "Programs", "each uses the libraries that it names, and all that these use")
    y = draw_cells(picture, picture.top + 24, crates) + 6
    draw_label(picture, y + 10, "Libraries", "each uses all libraries under it")
    foot = y + 18 + (max(rows.values()) + 1) * (BRICK + GAP)
    for name, row in rows.items():
        draw_brick(picture, foot, row, name)
    picture.text(MARGIN, foot + 14, kit_words(crates, programs), "start", fill=GREY)
    return picture.svg(foot + 24)
