"""Words, numbers and signs of the text form, each with its place."""
import re
from dataclasses import dataclass

from . import hints
from .printable import printable

# So much of a line is shown, around the place that is meant.
EXCERPT_WIDTH = 100


@dataclass(frozen=True)
class Place:
    """A place of a text. `text` is its line, `column` counts from 1."""
    file: str
    line: int
    text: str = None
    column: int = 1

    def __str__(self):
        return f"{printable(self.file)}, line {self.line}, column {self.column}"

    def excerpt(self):
        """The line, and below it a sign at the column, each behind a line break; nothing where the line is not known."""
        if self.text is None:
            return ""
        line, at = self.text.replace("\t", " "), self.column - 1
        start = max(len(line) - len(line.lstrip()), at - EXCERPT_WIDTH // 2)
        part = line[start:start + EXCERPT_WIDTH].rstrip()
        before = "... " if start > len(line) - len(line.lstrip()) else ""
        after = " ..." if len(line.rstrip()) > start + EXCERPT_WIDTH else ""
        caret = " " * len(before + printable(part[:max(0, at - start)]))
        return f"\n    {before}{printable(part)}{after}\n    {caret}^"


class SourceError(Exception):
    """What is wrong in a text, and where; `missing` is the name that is not bound, or the word that was expected."""

    def __init__(self, place, words, missing=""):
        super().__init__(f"{place}: {words}")
        self.place, self.words, self.missing = place, words, missing

    def excerpt(self):
        """The line of the text with a sign below what is meant."""
        return self.place.excerpt()


@dataclass(frozen=True)
class Token:
    """kind is "name", "number", "sign" or "end"; a keyword is a name."""
    kind: str
    text: str
    place: Place


KEYWORDS = frozenset("""
    domain mask type frame width signed little let in define if then else print install mark with new cell label read
    at to of on as from function advice pointcut lower watches abort true false unit truth number reference object
    stack keep match takedown var records bytes term const and or not
""".split())

PATTERN = re.compile(r"""
    (?P<space>[ \t\r]+ | \#.*)
  | (?P<number>(0x[0-9a-fA-F]+ | [0-9]+) (?![A-Za-z0-9_]))
  | (?P<name>[A-Za-z_][A-Za-z0-9_]*)
  | (?P<sign><= | >= | != | := | == | [-+*<>=;:,(){}\[\].])
""", re.VERBOSE)


LONGEST_NAME = 100

# Far more than the texts of images with 1,024 terms have.
TOKEN_LIMIT = 60_000

# Signs of other languages that begin like one of this.
FOREIGN = frozenset(("+=", "-=", "++", "->", "=>"))


def tokens(text, file):
    """The tokens of a text, with one of kind "end" as the last. A comment runs from # to the line's end."""
    found, place = [], Place(file, 1, text.split("\n", 1)[0])
    for n, line in enumerate(text.split("\n"), 1):
        at = 0
        while at < len(line):
            place = Place(file, n, line, at + 1)
            match = PATTERN.match(line, at)
            if not match or line[at:at + 2] in FOREIGN:
                raise SourceError(place, hints.foreign(line, at))
            if len(found) > TOKEN_LIMIT:
                raise SourceError(place, f"the text has more than {TOKEN_LIMIT:,} words and signs: no image is so large")
            if match.lastgroup == "name" and len(match.group()) > LONGEST_NAME:
                raise SourceError(place, f"a name has at most {LONGEST_NAME} letters, this one has {len(match.group())}")
            if match.lastgroup != "space":
                found.append(Token(match.lastgroup, match.group(), place))
            at = match.end()
    last = found[-1].place if found else place
    return found + [Token("end", "the end of the text", last)]
