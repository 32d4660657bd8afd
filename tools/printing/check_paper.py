"""Checks the PDF: nothing outside the margins, no heading alone at a page's foot, no page more than half empty, each kind on two facing pages, the headers and
footers, and the page numbers of the table of contents."""
import re

import pages
import paper
import pdf
import sheet

# How far, in millimetres, the edge of a letter may be from where it is set.
NEAR = 0.5

# A blank strip lower than this, in millimetres, is only the space of a line or a paragraph.
STRIP = 10

# How high a title is, in millimetres.
TITLE = 6

LEFT_PAGE_END = "the-code"


def check(root, made, work):
    """What is wrong with the PDF, a line for each."""
    path = made / "book.pdf"
    sheets = pdf.read(path, work)
    places = pdf.destinations(path)
    titles = {name: pages.title_of_file(made / (name + ".html")) for name, _ in pages.entries(root)}
    wrong = (work / paper.SAID).read_text(encoding="utf-8").splitlines()
    for page in sheets:
        wrong += outside_margins(page) + header_and_footer(page, pages.edition(root), set(titles.values()))
        wrong += lone_heading(page, places) + half_empty(page, len(sheets))
    wrong += kinds_facing(titles, places, sheets)
    wrong += contents(pages.entries(root), titles, places, sheets)
    return [f"book.pdf: {line}" for line in wrong]


def outside_margins(page):
    """Words and ink in the margins; the lines of the header and the footer are judged by their words."""
    left, right = sheet.sides(page.number)
    bottom = sheet.TOP + sheet.TEXT_HEIGHT
    inked = {"left": page.ink(0, sheet.PAGE_HEIGHT, 0, left - NEAR),
             "right": page.ink(0, sheet.PAGE_HEIGHT, right + NEAR),
             "upper": page.ink(0, sheet.HEADER[0]) or page.ink(sheet.HEADER[1], sheet.TOP - NEAR),
             "lower": page.ink(bottom + NEAR, sheet.FOOTER[0]) or page.ink(sheet.FOOTER[1], sheet.PAGE_HEIGHT)}
    wrong = [f"page {page.number}: ink in the {name} margin" for name, found in inked.items() if found]
    words = [word.text for word in page.words if word.left < left - NEAR or word.right > right + NEAR]
    if words:
        wrong.append(f"page {page.number}: outside the text area: {' '.join(words[:8])}")
    return wrong


def words_between(page, top, bottom):
    """The words whose middle is between two places, from left to right."""
    words = [word for word in page.words if top <= (word.top + word.bottom) / 2 <= bottom]
    return " ".join(word.text for word in sorted(words, key=lambda word: word.left))


def header_and_footer(page, edition, titles):
    """Every page has its number, and all but the first the edition and the title of a page."""
    wrong = []
    if words_between(page, sheet.TOP + sheet.TEXT_HEIGHT, sheet.PAGE_HEIGHT) != str(page.number):
        wrong.append(f"page {page.number}: its footer is not its number")
    header = words_between(page, 0, sheet.TOP - NEAR)
    expected = [f"{title} Edition {edition}" if page.number % 2 == 0 else f"Edition {edition} {title}" for title in titles]
    if header not in (expected if page.number > 1 else [""]):
        wrong.append(f"page {page.number}: its header is not a title and the edition: {header}")
    return wrong


def lone_heading(page, places):
    """A heading with nothing below it. Only the lowest can be one."""
    headings = [(top, name) for name, (number, top) in places.items() if number == page.number and name != "contents"]
    if not headings:
        return []
    top, name = max(headings)
    end = max((bottom for _, line_top, bottom in page.lines() if abs(line_top - top) < 2), default=top + 5)
    if page.ink(end + NEAR, sheet.TOP + sheet.TEXT_HEIGHT):
        return []
    return [f"page {page.number}: a heading stands alone at the foot: {name}"]


def half_empty(page, count):
    """A page, except the last, of which more than half is blank."""
    blank = page.blank(sheet.TOP, sheet.TOP + sheet.TEXT_HEIGHT, STRIP)
    if page.number == count or blank <= sheet.TEXT_HEIGHT / 2:
        return []
    return [f"page {page.number}: more than half empty: {blank:.0f} mm of {sheet.TEXT_HEIGHT}"]


def at_top(place):
    """Whether a destination is the first of its page."""
    return place[1] < sheet.TOP + 2


def kinds_facing(titles, places, sheets):
    """Each kind begins on an even page and ends with the next one; its code begins there."""
    names = list(titles)
    wrong = []
    for name, behind in zip(names, names[1:] + [None]):
        if not pages.KIND.match(titles[name]):
            continue
        start = places.get(name, (0, 0))
        after = places.get(behind, (0, 0)) if behind else (len(sheets) + 1, 0)
        code = places.get(f"{name}--{LEFT_PAGE_END}", (0, 0))
        if start[0] % 2 == 1 or start[0] == 0 or not at_top(start):
            wrong.append(f"page {start[0]}: a kind does not begin at the top of a left page: {name}")
        if not all(titles[name] in words_between(page, 0, sheet.TOP - NEAR) for page in sheets[start[0] - 1:start[0] + 1]):
            wrong.append(f"page {start[0]}: a kind's name is not in the headers of its two pages: {name}")
        if after[0] != start[0] + 2 or not at_top(after) or code[0] != start[0] + 1 or not at_top(code):
            wrong.append(f"page {start[0]}: a kind does not take two facing pages, its code the right one: {name}")
    return wrong


def contents(entries, titles, places, sheets):
    """Each page number of the table of contents is the number of the page that has that title."""
    number, top = places["contents"]
    lines = [re.sub(r"[ .]+", " ", text).strip() for text, line_top, _ in sheets[number - 1].lines() if line_top >= top - 1]
    wrong = []
    for name, entry in entries:
        said = [line for line in lines if re.fullmatch(re.escape(re.sub(r"[ .]+", " ", entry).strip()) + r" (\d+)", line)]
        stands = title_page(titles[name], places.get(name), sheets)
        if not said:
            wrong.append(f"page {number}: not in the table of contents: {entry}")
        elif int(said[0].rsplit(" ", 1)[1]) != stands:
            wrong.append(f"page {number}: the table of contents says {said[0].rsplit(' ', 1)[1]}, but it is {stands}: {entry}")
    return wrong


def title_page(title, place, sheets):
    """The page that has a title at its destination; 0 if there is none. What is beside the title is to its right."""
    if place is None:
        return 0
    number, top = place
    return number if words_between(sheets[number - 1], top - 1, top + TITLE).startswith(title) else 0
