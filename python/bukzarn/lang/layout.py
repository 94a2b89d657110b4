"""The layout of an image: refusals 1 to 9 (document 01, "Turned back at the gate"), and its records in tables."""
from dataclasses import dataclass, field

from . import hints, kinds, types
from .records import Record, lengths, record_at, word

# The fewest bytes of a record: its length and its kind.
SHORTEST = 4


class Refused(Exception):
    """An image that the gate turns back: the refusal's number, its place, what is wrong in words, and what to write
    instead where that is sure."""

    def __init__(self, number, place, words, mend=""):
        super().__init__(f"refused {number} {place}")
        self.number, self.place, self.words, self.mend = number, place, words, mend


@dataclass
class Tables:
    """The records of an image that is laid out, section by section. `types` are the types of the type records."""
    length: int
    sections: tuple = field(default_factory=lambda: ([], [], []))
    types: list = field(default_factory=list)

    @property
    def domains(self):
        return self.sections[0]

    @property
    def terms(self):
        return self.sections[2]

    @property
    def masks(self):
        return [r.fields[0] for r in self.domains]

    def names(self):
        """A name for each type: t0, t1 and so on."""
        return {t: f"t{n}" for n, t in enumerate(self.types)}

    def below(self, p, q):
        """p ≤ q in the order of the domains."""
        return bool(self.masks[p] >> q & 1)


SECTIONS = ("domain", "type", "term")
LIMITS = (kinds.DOMAIN_LIMIT, kinds.TYPE_LIMIT, kinds.TERM_LIMIT)


def laid_out(image):
    """The tables of an image, or Refused with 1 to 9."""
    if len(image) > kinds.IMAGE_LIMIT:
        raise Refused(1, 0, f"the image has {len(image)} bytes, the limit is {kinds.IMAGE_LIMIT}")
    tables, offset = Tables(len(image)), 0
    while offset < len(image):
        found = record_at(image, offset)
        if not isinstance(found, Record):
            raise Refused(found, offset, broken(image, offset, found))
        take(tables, found)
        offset += int.from_bytes(image[offset:offset + 2], "little")
    for n, records in enumerate(tables.sections):
        if not records:
            raise Refused(9, len(image), f"the image has no {SECTIONS[n]} record")
    return tables


def broken(image, offset, number):
    """What is wrong with bytes that are no record, by the number of their refusal: 2, 3 or 4."""
    left = len(image) - offset
    if left < SHORTEST:
        return f"{hints.counted(left, 'byte')} left over behind the last record"
    length, kind = word(image, offset), word(image, offset + 2)
    if number == 2:
        why = f"a record has at least {SHORTEST} bytes" if length < SHORTEST else f"only {hints.counted(left, 'byte')} left"
        return f"the record's length is {length}, but {why}"
    if number == 3:
        return f"the record's kind is {kind}, but no kind has this number"
    said = ", ".join(map(str, lengths(kind)))
    right = f"it may have {said}" if kind in kinds.GROUPS else f"it has at least {said}"
    return f"the record of the {SECTIONS[kinds.section(kind)]} {kinds.name(kind)} has {length} bytes, but {right}"


def take(tables, record):
    """Puts a record in its table, or refuses it with 5 to 8."""
    at, n = record.offset, kinds.section(record.kind)
    if any(tables.sections[n + 1:]):
        raise Refused(5, at, f"a {SECTIONS[n]} stands after a record of a later section")
    if len(tables.sections[n]) == LIMITS[n]:
        raise Refused(6, at, f"more than {LIMITS[n]} {SECTIONS[n]} records")
    cause = out_of_range(tables, record)
    if cause:
        raise Refused(7, at, cause)
    if n == 1:
        parts = zip(kinds.fields(record.kind, len(record.fields)), record.fields)
        made = types.make(record.kind, *(tables.types[f] if l == "a" else f for l, f in parts))
        if made in tables.types:
            raise Refused(8, at, f"this type equals type {tables.types.index(made)}")
        tables.types.append(made)
    tables.sections[n].append(record)


def out_of_range(tables, record):
    """What is out of range in a record, in words; empty if nothing is."""
    own = len(tables.sections[kinds.section(record.kind)])
    bounds = {
        "a": (own, "type {}, but a part is a lower number than the record's own, {}"),
        "t": (len(tables.types), "type {}, but the image has {} types"),
        "e": (own, "term {}, but a child is a lower number than the record's own, {}"),
        "p": (len(tables.domains), "domain {}, but the image has {} domains"),
        "o": (4, "operation {}, but the operations are 0 to 3"),
        "v": (2, "truth {}, but a truth is 0 or 1"),
        "x": (own + 1, "entry {}, but an entry is 0 or a lower term's number plus 1, so that it is below {}"),
        "c": (2, "close {}, but a close is 0 or 1"),
    }
    for letter, f in zip(kinds.fields(record.kind, len(record.fields)), record.fields):
        limit, words = bounds.get(letter, (1 << 16, ""))
        if letter != "n" and f >= limit:
            return "the record names " + words.format(f, limit)
    return ""
