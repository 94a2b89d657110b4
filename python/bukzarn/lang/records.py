"""Records as bytes (document 01, "The image"): a length, a kind, then fields, all little-endian.

A record may be longer than its known fields, and the rest is skipped; one of a kind with a group may not, since its
length says how many labels, methods, bodies or entries it has (document 02, cards 1, 3 and 6).
"""
import struct
from dataclasses import dataclass

from . import kinds


@dataclass(frozen=True)
class Record:
    """A record as it stands in an image: its known fields, and the bytes behind them. A number is one field, with its
    sign."""
    offset: int
    kind: int
    fields: tuple
    skipped: bytes = b""

    def parts(self, letter):
        """The fields of one letter: "a" types, "e" terms, "p" domains and so on."""
        letters = kinds.fields(self.kind, len(self.fields))
        return [f for f, l in zip(self.fields, letters) if l == letter]

    @property
    def children(self):
        """The terms that it names, in record order; an entry of a match that stands for anything names none."""
        letters = kinds.fields(self.kind, len(self.fields))
        return [f - (l == "x") for f, l in zip(self.fields, letters) if l == "e" or l == "x" and f > 0]


def record(kind, *fields):
    """The bytes of a record. A field is a 16-bit number, or bytes that are taken as they are."""
    body = b"".join(f if isinstance(f, bytes) else struct.pack("<H", f) for f in fields)
    return struct.pack("<HH", 4 + len(body), kind) + body


def written(kind, fields, skipped=b""):
    """The bytes of a record whose number, if it has one, is a Python number with its sign."""
    letters = kinds.fields(kind, len(fields))
    return record(kind, *(struct.pack("<i", f) if l == "n" else f for f, l in zip(fields, letters)), skipped)


def word(data, offset):
    return struct.unpack_from("<H", data, offset)[0]


def lengths(kind):
    """The lengths that records of a kind have without bytes to skip: one, or several for a kind with a group."""
    longer = 2 * kinds.fields(kind).count("n")
    return [4 + 2 * count + longer for count in kinds.counts(kind)]


def right_length(kind, length):
    """Whether a record of a kind may have a length: that of its known fields or more; exact lengths for a kind with
    a group."""
    return length in lengths(kind) if kind in kinds.GROUPS else length >= lengths(kind)[0]


def record_at(data, offset):
    """The record at an offset, or the number of the refusal (2, 3 or 4) that it meets."""
    if len(data) - offset < 4 or word(data, offset) < 4 or offset + word(data, offset) > len(data):
        return 2
    length, kind = word(data, offset), word(data, offset + 2)
    if kind not in kinds.KINDS:
        return 3
    if not right_length(kind, length):
        return 4
    letters = kinds.fields(kind, (length - 4) // 2)
    layout = "<" + "".join("i" if l == "n" else "H" for l in letters)
    skipped = data[offset + 4 + struct.calcsize(layout):offset + length]
    return Record(offset, kind, struct.unpack_from(layout, data, offset + 4), bytes(skipped))
