"""The layout of a sonde's frame: names for bytes, and the terms that read them.

The calculus has no multiplication. A field of several bytes is put together with the function `times16`, which adds its
argument to itself 16 times: 256 · hi + lo is times16(times16(hi)) + lo, for two bindings. The highest byte of a signed
field goes through `signed8`, which takes 256 off a byte with the highest bit set; so no sum on the way leaves the range
of numbers, at whose ends sums stop (card 2). An apply needs a function of the current domain, so each domain that reads
such a field gets its own functions. The assembler binds them around the whole text, and those of a watch around that
watch, so that a procedure is the same with and without it.
"""
from dataclasses import dataclass

from . import kinds, terms, types


@dataclass(frozen=True)
class Field:
    """A field of the frame: its first byte, how many bytes, with a sign or not, lowest byte first or not."""
    offset: int
    width: int = 1
    signed: bool = False
    little: bool = False


def total(name, count):
    """A variable added to itself, count times, as a flat tree."""
    if count == 1:
        return terms.variable(name, types.NUMBER)
    return terms.plus(total(name, count // 2), total(name, count - count // 2))


def times16(p):
    return terms.function("n", types.NUMBER, total("n", 16), p)


def signed8(p):
    """The function that gives a byte its sign."""
    n = terms.variable("n", types.NUMBER)
    body = terms.branch(terms.less(terms.number(127), n), terms.minus(n, terms.number(256)), n)
    return terms.function("n", types.NUMBER, body, p)


FUNCTIONS = {"times16": times16, "signed8": signed8}


class FieldFunctions:
    """The functions that the fields of one text need, each for the domains that use it."""

    def __init__(self):
        self.used = {}

    def call(self, function, p, e):
        """The function of domain p, applied."""
        name = f"{function} at {p}"
        self.used[name] = FUNCTIONS[function](p)
        return terms.apply(terms.variable(name, self.used[name].type), e)

    def around(self, root, p):
        """A text's term, which runs at domain p, with the functions that it uses bound around it."""
        for name, made in reversed(self.used.items()):
            root = terms.let(name, made, root, p)
        return root

    def field(self, f, base, p):
        """The value of a field, read at domain p. `base` is a variable or a number that is added to each offset."""
        offsets = range(f.offset, f.offset + f.width)
        value = None
        for offset in reversed(offsets) if f.little else offsets:
            byte = terms.frame_byte(moved(base, offset))
            if value is not None:
                value = terms.plus(self.call("times16", p, self.call("times16", p, value)), byte)
            else:
                value = self.call("signed8", p, byte) if f.signed else byte
        return value


def moved(base, offset):
    """base + offset as a term; one number where the base is none or a number."""
    if base is None:
        return terms.number(offset)
    if base.kind == kinds.NUMBER:
        return terms.number(base.fields[0] + offset)
    return terms.plus(base, terms.number(offset)) if offset else base
