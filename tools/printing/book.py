"""Makes the reference as HTML and as a PDF in target/book/, or checks it; tools/book runs this."""
import sys

sys.dont_write_bytecode = True

import shutil
from pathlib import Path

import check_paper
import check_screen
import pages
import paper
import pdf
import screen
import sheet

ROOT = Path(__file__).resolve().parents[2]

# What is made, and the files on the way there.
MADE = ROOT / "target" / "book"
WORK = ROOT / "target" / "book.work"


def make():
    """Makes everything anew beside the old, which it then replaces."""
    new = MADE.with_name("book.new")
    for folder in (new, WORK):
        shutil.rmtree(folder, ignore_errors=True)
        folder.mkdir(parents=True)
    book = pages.read(ROOT)
    screen.make(ROOT, new, book)
    shutil.copy(paper.make(ROOT, WORK, book), new / "book.pdf")
    shutil.rmtree(MADE, ignore_errors=True)
    new.rename(MADE)
    say_room()


def say_room():
    """Prints how much of each page is left at its foot, for whoever writes the text."""
    end = sheet.TOP + sheet.TEXT_HEIGHT
    rooms = [f"{end - page.lowest(sheet.TOP, end):.0f}" for page in pdf.read(MADE / "book.pdf", WORK)]
    print(f"target/book/index.html, target/book/book.pdf: {len(rooms)} pages; millimetres left at the foot of each: {' '.join(rooms)}")


def is_old():
    """Whether something is missing or older than what it is made of."""
    made = MADE / "book.pdf"
    if not made.exists() or not (WORK / "paper.html").exists():
        return True
    time = made.stat().st_mtime
    return any(not source.exists() or source.stat().st_mtime > time for source in sources())


def sources():
    """The files that the book is made of; a copied one is below files/ with .html after its name. A folder is newer if a file was removed from it."""
    yield from (ROOT / "VERSION", ROOT / "tools" / "book", *Path(__file__).parent.glob("*.*"))
    yield from (pages.reference(ROOT), *pages.reference(ROOT).iterdir())
    for copy in (MADE / "files").rglob("*.html"):
        if copy.name != "index.html":
            yield ROOT / copy.relative_to(MADE / "files").with_suffix("")


def check():
    """Prints on standard error what is wrong; returns the number of lines."""
    wrong = check_screen.check(MADE, WORK) + check_paper.check(ROOT, MADE, WORK)
    for line in wrong:
        print(line, file=sys.stderr)
    return len(wrong)


def main():
    checking = sys.argv[1:] == ["--check"]
    try:
        if not checking or is_old():
            make()
        return 1 if checking and check() > 0 else 0
    except (pages.Wrong, OSError) as wrong:
        print(wrong, file=sys.stderr)
        return 1


if __name__ == "__main__":
    sys.exit(main())
