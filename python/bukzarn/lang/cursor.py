"""A walk over the tokens of a text: what stands next, and what is said where something else is expected."""
from . import forms, hints
from .lexer import KEYWORDS, SourceError

# More digits than any number that fits has.
LONGEST_NUMBER = 100

BEHIND_A_TERM = ("then", "else", "in")
OPENERS = {")": "(", "}": "{", "]": "["}


def shortened(word, limit=40):
    """A word as a message shows it."""
    return word if len(word) <= limit else word[:limit] + "..."


class Cursor:
    """Walks the tokens of a text. `form` is the construct that is under way, for messages."""

    def __init__(self, tokens):
        self.tokens, self.at, self.form = tokens, 0, ""

    @property
    def next(self):
        return self.tokens[self.at]

    @property
    def place(self):
        return self.next.place

    def fail(self, words, place=None, missing=""):
        raise SourceError(place or self.place, words, missing)

    def sees(self, *texts):
        return self.next.kind != "end" and self.next.text in texts

    def accept(self, text):
        if self.sees(text):
            self.at += 1
            return True
        return False

    def within(self, form, read, *given, **more):
        """What `read` gives inside a construct, whose form is told if something is missing there."""
        outer, self.form = self.form, form
        made = read(*given, **more)
        self.form = outer
        return made

    def expected(self, what, mend=None, missing=""):
        """Fails because something else stands here, and tells what to write: the given mend, else what replaces the sign,
        else the construct's form."""
        token = self.next
        found = token.text if token.kind == "end" else f"'{shortened(token.text)}'"
        told = hints.instead(token.text) or forms.write(self.form) if mend is None else mend
        self.fail(f"expected {what}, but found {found}{told}", missing=missing)

    def take(self, text, where):
        """Takes a word or sign of a construct. Behind a whole term something else may be a sign of another language."""
        if not self.accept(text):
            self.expected(f"'{text}' {where}", None if text in BEHIND_A_TERM else forms.write(self.form), text)

    def close(self, sign, opened):
        """Takes the sign that closes one whose place is `opened`."""
        if not self.accept(sign):
            self.expected(f"'{sign}' for the '{OPENERS[sign]}' in line {opened.line}, column {opened.column}",
                          hints.behind(self.next))

    def name(self, what):
        """A word that is no keyword."""
        token = self.next
        if token.kind != "name" or token.text in KEYWORDS:
            kept = f", which is a word of the language{forms.write(self.form)}" if token.text in KEYWORDS else None
            self.expected(f"a name for {what}", kept)
        self.at += 1
        return token.text

    def number(self, what, low, high):
        """A number, with its sign, from low to high."""
        place, sign = self.place, -1 if self.accept("-") else 1
        if self.next.kind != "number":
            self.expected("a number behind the sign" if sign < 0 else f"a number for {what}")
        if len(self.next.text) > LONGEST_NUMBER:
            self.fail(f"{what} must be from {low} to {high}, but has {len(self.next.text)} digits", place)
        n = sign * int(self.next.text, 0 if self.next.text[:2] == "0x" else 10)
        if not low <= n <= high:
            self.fail(f"{what} must be from {low} to {high}, but is {n}", place)
        self.at += 1
        return n

    def new_name(self, what, known):
        place, name = self.place, self.name(what)
        if name in known:
            self.fail(f"{what} is declared twice: {name}", place)
        return name
