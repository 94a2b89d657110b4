"""Soundings: the tables that `bukzarn run` writes of a recording, read back as levels.

A table has a line for each printed number: frame, domain, number. The decoder, domain 0, prints the values of a level
one after another; what other domains print are marks at that level.
"""
import math
import re
from argparse import ArgumentTypeError
from dataclasses import dataclass, field
from pathlib import Path

from . import kinds

NUMBER = re.compile("-?[0-9]+")
HEAD = ["frame", "domain", "number"]
DECODER = 0

NO_TABLE = "not a table of frames, domains and numbers: make one with 'bukzarn run IMAGE --frames FILE --length N --out csv'"

# Some ten times what an ascent of two hours with a level each second has.
LONGEST_TABLE = 4_000_000

# The most digits that a number of a table has, with its sign, and the range of printed numbers.
LONGEST_NUMBER = 20
LEAST, GREATEST = -(1 << 31), (1 << 31) - 1


class Unreadable(Exception):
    """A file that is no table, or a table without levels."""


@dataclass(frozen=True)
class Column:
    """What a number stands for, and by what it is divided to give its unit."""
    name: str
    scale: int = 1

    def text(self, value):
        return f"{value:.1f}" if self.scale > 1 else f"{value:g}"


def columns(text):
    """Columns from words like `pressure/10,temperature/10,humidity`."""
    found = []
    for word in text.split(","):
        name, _, scale = word.strip().partition("/")
        if not name or (scale and not (scale.isascii() and scale.isdecimal() and 1 <= int(scale[:6]) and len(scale) <= 6)):
            raise ArgumentTypeError(f"'{word}' is no column: write NAME or NAME/DIVISOR, with commas between them")
        found.append(Column(name, int(scale or 1)))
    if "pressure" not in [c.name for c in found]:
        raise ArgumentTypeError("one column must be the pressure")
    return found


COLUMNS_TEXT = "pressure/10,temperature/10,humidity"
COLUMNS = columns(COLUMNS_TEXT)


@dataclass
class Level:
    """The values of a level by column, and what the watches printed at it: pairs of domain and number."""
    frame: int
    values: list
    marks: list = field(default_factory=list)


@dataclass
class Sounding:
    """The levels of a recording in order, with the file that they come from."""
    name: str
    columns: list
    levels: list

    def text(self):
        """A line for each level."""
        head = ["frame", *(c.name for c in self.columns)]
        rows = [[str(e.frame), *(c.text(v) for c, v in zip(self.columns, e.values))] for e in self.levels]
        widths = [max(len(row[i]) for row in [head, *rows]) for i in range(len(head))]
        lines = []
        for row, marks in zip([head, *rows], [["watches"], *(e.marks for e in self.levels)]):
            said = [m if isinstance(m, str) else f"{m[0]}:{m[1]}" for m in marks]
            lines.append("  ".join([*(cell.rjust(w) for cell, w in zip(row, widths)), *said]).rstrip())
        return "\n".join(lines) + "\n"

    def has(self, *names):
        """Are these among the columns?"""
        return set(names) <= {c.name for c in self.columns}

    def values(self, name):
        """The values of a column, level by level; the dew point follows from temperature and humidity, where it can."""
        if name == DEW_POINT:
            return [dew_point(t, h) for t, h in zip(self.values("temperature"), self.values("humidity"))]
        i = [c.name for c in self.columns].index(name)
        return [e.values[i] for e in self.levels]


# The dew point over water, by Magnus' formula with the numbers of the WMO's guide (No. 8, annex 4.B).
DEW_POINT = "dew point"
MAGNUS_FACTOR, MAGNUS_ZERO = 17.62, 243.12
COLDEST, WARMEST = -120, 60


def dew_point(temperature, humidity):
    """In degrees, of a temperature in degrees and a humidity in per cent; None where air is never so."""
    if not (COLDEST <= temperature <= WARMEST and 0 < humidity <= 200):
        return None
    logarithm = math.log(humidity / 100) + MAGNUS_FACTOR * temperature / (MAGNUS_ZERO + temperature)
    return MAGNUS_ZERO * logarithm / (MAGNUS_FACTOR - logarithm)


def numbers(line, where):
    """The three numbers of a line."""
    words = line.replace(",", " ").split()
    if len(words) != 3 or any(len(w) > LONGEST_NUMBER or not NUMBER.fullmatch(w) for w in words):
        raise Unreadable(f"{where}: expected frame, domain and number, but found '{line.strip()[:40]}'")
    frame, domain, number = map(int, words)
    if frame < 0 or not 0 <= domain < kinds.DOMAIN_LIMIT:
        raise Unreadable(f"{where}: frames count from 0, and domains are 0 to {kinds.DOMAIN_LIMIT - 1}")
    if not LEAST <= number <= GREATEST:
        raise Unreadable(f"{where}: a printed number is from {LEAST} to {GREATEST}, but this is {number}")
    return frame, domain, number


def levels(rows, names, file=""):
    """The levels of a table's rows. Marks that come before the first level of their frame belong to it. Numbers of the
    decoder that do not divide into columns are refused, with the file's name; without one they are left out."""
    found, open_values, early, frame = [], [], [], None

    def leave():
        if open_values and file:
            count = len(open_values) + len(names) * sum(level.frame == frame for level in found[::-1])
            raise Unreadable(f"{file}: frame {frame} has {count} numbers of the decoder, which do not divide into {len(names)} columns "
                             f"({', '.join(c.name for c in names)}): say with --columns what it prints, or leave out what a "
                             f"run did not finish with --cut")

    for at, domain, number in rows:
        if at != frame:
            leave()
            frame, open_values, early = at, [], []
        if domain != DECODER:
            own = found and found[-1].frame == frame
            (found[-1].marks if own else early).append((domain, number))
            continue
        open_values.append(number / names[len(open_values)].scale)
        if len(open_values) == len(names):
            found.append(Level(frame, open_values, early))
            open_values, early = [], []
    leave()
    return found


def read(file, names, cut=False):
    """The sounding of a table's file."""
    with open(file, "rb") as opened:
        data = opened.read(LONGEST_TABLE + 1)
    if len(data) > LONGEST_TABLE:
        raise Unreadable(f"{file} has more than {LONGEST_TABLE:,} bytes: no ascent is so long, so cut it into parts")
    try:
        lines = data.decode("utf-8-sig").splitlines()
    except UnicodeDecodeError:
        raise Unreadable(f"{file} is {NO_TABLE}") from None
    if not lines or lines[0].replace(",", " ").split() != HEAD:
        raise Unreadable(f"{file} is {NO_TABLE}")
    rows = (numbers(line, f"{file}, line {n}") for n, line in enumerate(lines[1:], 2) if line.strip())
    found = levels(rows, names, "" if cut else file)
    if not found:
        raise Unreadable(f"{file} has no level: no frame for which the decoder printed {len(names)} numbers")
    return Sounding(Path(file).stem, names, found)
