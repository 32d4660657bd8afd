"""Lays out a kind's page for paper: what comes before `The code` on the left page, the code and its output on the right one.

The tables of the flags and of the fields are side by side. The room that the pictures leave is divided among the rows of the tables, and on the right page
among the lines of code, so that full pages are dense and the others are not half empty."""
import pages
import sheet
from pages import element, text_of

# The text area and the least size of a letter in a picture, in CSS pixels.
WIDTH = sheet.pixels(sheet.TEXT_WIDTH)
HEIGHT = sheet.pixels(sheet.TEXT_HEIGHT)
LEAST_LETTER = sheet.LEAST_LETTER * sheet.PIXELS

RIGHT_PAGE = "the code"

# A row of a table: the least height, the one for which pictures are made smaller, and the greatest; how much of it is space and rule below its line; and
# what a line of text takes.
LEAST_ROW, GOOD_ROW, GREATEST_ROW = 11.2, 12.6, 17.0
ROW_EDGE = 1.4
LINE = 14.2

# The greatest room between two blocks of the left page that is there only to fill it.
GREATEST_GAP = 26.0

# A line of code: the least and the greatest height, the one from which its letters are larger, and how many of the larger ones fit beside each other.
LEAST_CODE, GREATEST_CODE, LARGER_CODE, LARGER_COLUMNS = 11.2, 14.0, 12.6, 103


def spread(page, folder, less):
    """The two boxes of a kind's page, left and right; `folder` has its pictures, and `less` CSS pixels of the pages' height are not used."""
    top, sections = cut(page.tree)
    names = [text_of(section[0]).lower() for section in sections]
    turn = names.index(RIGHT_PAGE) if RIGHT_PAGE in names else len(sections)
    left = element("div", None, [head(top)], class_="left")
    left.extend(top[2:] if is_note(top[1:2]) else top[1:])
    left.extend(laid_out(sections[:turn]))
    right = element("div", None, [child for section in sections[turn:] for child in section], class_="right")
    fit_tables(left, folder, HEIGHT - less)
    fit_code(right, HEIGHT - less)
    return [left, right]


def cut(tree):
    """What comes before the first second-level heading, and each such heading with what follows it."""
    top, sections = [], []
    for child in tree:
        if child.tag == "h2":
            sections.append([])
        (sections[-1] if sections else top).append(child)
    return top, sections


def is_note(elements):
    """Whether the first of some elements is a paragraph all in italics."""
    if not elements or elements[0].tag != "p":
        return False
    return len(elements[0]) == 1 and elements[0][0].tag == "em" and not (elements[0].text or "").strip() and not (elements[0][0].tail or "").strip()


def head(top):
    """The title with the line of the edition beside it."""
    box = element("div", None, [top[0]], class_="beside")
    if is_note(top[1:2]):
        box.append(top[1])
    return box


def laid_out(sections):
    """The sections of the left page in their order, the first two with tables side by side."""
    made = []
    tables = [section for section in sections if first_table(section) is not None]
    pair = tables[:2] if len(tables) > 2 else []
    for section in sections:
        if pair and section is pair[0]:
            made.extend(with_note_beside(above_table(section)))
        elif pair and section is pair[1]:
            made.append(side_by_side(pair[0], section))
            made.extend(below_table(section))
        else:
            made.extend(with_note_beside(section))
    return made


def first_table(section):
    return next((place for place, child in enumerate(section) if child.tag == "table"), None)


def above_table(section):
    """What a section has above its table, its heading and its picture, and its note."""
    place = first_table(section)
    return section[:place] + [child for child in section[place:] if is_note([child])]


def below_table(section):
    """What a section has below its table, except the note."""
    return [child for child in section[first_table(section) + 1:] if not is_note([child])]


def with_note_beside(section):
    """A section whose note is beside its heading and not below its table."""
    notes = [child for child in section if is_note([child])]
    rest = [child for child in section[1:] if child not in notes]
    return [element("div", None, [section[0]] + notes, class_="beside")] + rest


def side_by_side(narrow, wide):
    """The table of one section beside the table of the other, which has its heading and note above."""
    first = element("div", None, [narrow[first_table(narrow)]], class_="narrow")
    second = element("div", None, with_note_beside(wide[:first_table(wide) + 1] + [child for child in wide if is_note([child])]), class_="wide")
    return element("div", None, [first, second], class_="pair")


def fit_tables(left, folder, page_height):
    """Gives the rows of the left page's tables the height that fills the page; if it is small, the pictures are made a little smaller first."""
    rows = table_rows(left)
    room = page_height - text_height(left)
    pictures = list(sized_pictures(left, folder))
    heights = sum(height for _, _, height, _ in pictures)
    least = max((LEAST_LETTER / letter if letter > 0 else 1.0 for _, _, _, letter in pictures), default=1.0)
    scale = min(max((room - rows * GOOD_ROW) / max(heights, 1.0), least), 1.0)
    resize(pictures, scale)
    row = min(max((room - heights * scale) / max(rows, 1), LEAST_ROW), GREATEST_ROW)
    for table in left.iter("table"):
        table.set("style", f"line-height: {row - ROW_EDGE:.2f}px")
    spread_out(left, room - heights * scale - rows * row)


def resize(pictures, scale):
    for picture, width, height, _ in pictures:
        picture.set("style", f"width: {width * scale:.1f}px; height: {height * scale:.1f}px")


def spread_out(left, spare):
    """Puts the room that is left between the blocks of the left page."""
    blocks = [child for child in left if child.get("class") in ("picture", "pair") or child.tag == "table"]
    gap = min(max(spare, 0) / max(len(blocks), 1), GREATEST_GAP)
    for block in blocks:
        block.set("style", block.get("style", "") + f"; margin-bottom: {3 + gap:.1f}px")


def table_rows(left):
    """How many rows of tables are below each other on the left page."""
    pair = next((box for box in left.iter("div") if box.get("class") == "pair"), [])
    columns = [sum(1 for _ in column.iter("tr")) for column in pair]
    return sum(1 for _ in left.iter("tr")) - sum(columns) + max(columns, default=0)


def sized_pictures(tree, folder):
    """Each picture with its width, its height and its smallest letter, in CSS pixels, as it is printed, which is at most as wide as the page."""
    for picture in tree.iter("img"):
        drawing = pages.drawing(folder / picture.get("src"))
        if drawing is not None:
            width, height = pages.picture_size(drawing)
            fit = min(1.0, WIDTH / width)
            yield picture, width * fit, height * fit, pages.least_letter(drawing) * fit


def text_height(left):
    """About the height of the left page's text: its title, its headings and its paragraphs."""
    lines = sum(1 + len(text_of(child)) // 135 for child in left if child.tag == "p" and child.find("img") is None)
    headings = sum(1 for _ in left.iter("h2"))
    pictures = sum(1 for _ in left.iter("img"))
    return 25 + lines * LINE + headings * 21 + pictures * 6


def fit_code(right, page_height):
    """Gives the lines of code the height that fills the right page."""
    blocks = list(right.iter("pre"))
    lines = [line for block in blocks for line in "".join(block.itertext()).splitlines()]
    text = sum(1 + len(text_of(child)) // 125 for child in right if child.tag == "p")
    room = page_height - 30 - text * LINE * 1.3 - len(blocks) * 24
    height = min(max(room / max(len(lines), 1), LEAST_CODE), GREATEST_CODE)
    larger = height >= LARGER_CODE and max(map(len, lines), default=0) <= LARGER_COLUMNS
    for block in blocks:
        block.set("style", f"line-height: {height:.2f}px; font-size: {8 if larger else 7.5}pt")
