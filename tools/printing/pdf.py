"""Reads a PDF with poppler's tools: its words with their places, its destinations, and its ink."""
import re
import subprocess
import xml.etree.ElementTree as ElementTree
from dataclasses import dataclass
from pathlib import Path
from tempfile import TemporaryDirectory

import pages
import sheet

DESTINATION = re.compile(r'\s*(\d+) \[ XYZ\s+(-?[\d.]+)\s+(-?[\d.]+)\s+\S+\s*\] "(.*)"')

# Dots per millimetre at which the ink is examined, and from what lightness on a dot is blank.
DOTS = 4
WHITE = 245


@dataclass
class Word:
    text: str
    left: float
    top: float
    right: float
    bottom: float


@dataclass
class Sheet:
    """A page of the PDF: its words, and its ink as rows of grey dots; all places are in millimetres from its left upper corner."""
    number: int
    words: list
    rows: list

    def ink(self, top, bottom, left=0.0, right=sheet.PAGE_WIDTH):
        """Whether there is ink in a rectangle."""
        columns = slice(round(left * DOTS), round(right * DOTS))
        return any(row[columns] and min(row[columns]) < WHITE for row in self.rows[round(top * DOTS):round(bottom * DOTS)])

    def blank(self, top, bottom, least):
        """How much of the height between two places is blank, in strips at least `least` high."""
        total, strip = 0, 0
        for row in self.rows[round(top * DOTS):round(bottom * DOTS)] + [b"\x00"]:
            if min(row) >= WHITE:
                strip += 1
            else:
                total += strip if strip >= least * DOTS else 0
                strip = 0
        return total / DOTS

    def lowest(self, top, bottom):
        """The place of the lowest ink between two places; the upper one if there is none."""
        for row in range(round(bottom * DOTS) - 1, round(top * DOTS) - 1, -1):
            if min(self.rows[row]) < WHITE:
                return (row + 1) / DOTS
        return top

    def lines(self):
        """The text of each line with its top and its bottom, from the top down."""
        lines = []
        for word in sorted(self.words, key=lambda word: (round(word.bottom), word.left)):
            if lines and abs(lines[-1][2] - word.bottom) < 1.2:
                lines[-1] = (lines[-1][0] + " " + word.text, min(lines[-1][1], word.top), lines[-1][2])
            else:
                lines.append((word.text, word.top, word.bottom))
        return lines


def output(*command):
    """What a command prints."""
    done = subprocess.run(command, check=False, capture_output=True)
    if done.returncode != 0:
        raise pages.Wrong(f"{command[0]}: {done.stderr.decode(errors='replace').strip()}")
    return done.stdout


def read(path, work):
    """All pages of a PDF."""
    all_words = words(path)
    all_rows = ink(path, work)
    return [Sheet(number, page, rows) for number, (page, rows) in enumerate(zip(all_words, all_rows), 1)]


def words(path):
    """The words of each page."""
    text = output("pdftotext", "-bbox", path, "-").decode("utf-8")
    text = re.sub(r"[\x00-\x08\x0b\x0c\x0e-\x1f]", " ", text)
    found = []
    for page in ElementTree.fromstring(text).iter("{http://www.w3.org/1999/xhtml}page"):
        found.append([word(one) for one in page])
    return found


def word(one):
    left, top, right, bottom = (float(one.get(name)) / sheet.POINTS for name in ("xMin", "yMin", "xMax", "yMax"))
    return Word(one.text or "", left, top, right, bottom)


def destinations(path):
    """For each destination's name, its page and its top in millimetres."""
    found = {}
    for line in output("pdfinfo", "-dests", path).decode("utf-8").splitlines():
        place = DESTINATION.match(line)
        if place:
            found[place.group(4)] = (int(place.group(1)), sheet.PAGE_HEIGHT - float(place.group(3)) / sheet.POINTS)
    return found


def ink(path, work):
    """The rows of dots of each page, as pdftoppm draws them."""
    with TemporaryDirectory(dir=work) as folder:
        output("pdftoppm", "-gray", "-r", str(DOTS * 25.4), path, Path(folder) / "ink")
        return [grey_rows(drawn.read_bytes()) for drawn in sorted(Path(folder).iterdir())]


def grey_rows(data):
    """The rows of a PGM of single octets."""
    head = re.match(rb"P5\s+(\d+)\s+(\d+)\s+255\s", data)
    width = int(head.group(1))
    dots = data[head.end():]
    return [dots[place:place + width] for place in range(0, len(dots), width)]
