"""The text of records: one line for each record, everything by number. It can say every string of bytes.

    records
    domain 0: mask 0x0001
    type 0: number
    term 0: number 5 as 0
    bytes 04 00 ff

The number before the colon counts the section's records. A term ends with `as` and the number of its type. Bytes behind
the known fields of a record, which the engine skips, stand at the end of its line behind `skipped`. Bytes that are no
record of a known kind and length stand as `bytes`.
"""
from . import kinds
from .lexer import Place, SourceError
from .records import Record, record_at, written

SECTIONS = ("domain", "type", "term")
BY_NAME = {(kinds.section(k), kinds.name(k)): k for k in kinds.KINDS}


def is_records(text):
    """Whether the first line that says something is the word records."""
    lines = (line.split("#")[0].strip() for line in text.split("\n"))
    return next((line for line in lines if line), "") == "records"


def line_of(record, number):
    """The line of a record that is so many in its section."""
    return " ".join([known_of(record, number), *(["skipped", record.skipped.hex(" ")] if record.skipped else [])])


def known_of(record, number):
    """The same of its known fields alone."""
    n, name = kinds.section(record.kind), kinds.name(record.kind)
    if n == 0:
        return f"domain {number}: mask {record.fields[0]:#06x}"
    letters = kinds.fields(record.kind, len(record.fields))
    said = [kinds.OPERATIONS[f] if l == "o" and f < 4 else str(f) for l, f in zip(letters, record.fields)]
    if n == 1:
        return " ".join([f"type {number}: {name}", *said])
    return " ".join([f"term {number}: {name}", *said[1:], "as", said[0]])


def disassemble(image):
    lines, counts, offset = ["records"], [0, 0, 0], 0
    while offset < len(image):
        found = record_at(image, offset)
        if isinstance(found, Record):
            n = kinds.section(found.kind)
            lines.append(line_of(found, counts[n]))
            counts[n] += 1
            offset += int.from_bytes(image[offset:offset + 2], "little")
        else:
            end = odd_end(image, offset, found)
            lines += [f"bytes {image[i:min(i + 32, end)].hex(' ')}" for i in range(offset, end, 32)]
            offset = end
    return "\n".join(lines) + "\n"


def odd_end(image, offset, number):
    """Where bytes that are no known record end: at the record's end if it has one, else at the image's."""
    return len(image) if number == 2 else offset + int.from_bytes(image[offset:offset + 2], "little")


def assemble(text, file):
    """The bytes that the lines say, and the places of terms by offset."""
    image, places, counts, started = b"", {}, [0, 0, 0], False
    for n, line in enumerate(text.split("\n"), 1):
        said, place = line.split("#")[0].split(), Place(file, n, line.strip())
        if not said:
            continue
        if not started:
            started = True
        elif said[0] == "bytes":
            image += bytes_of(said[1:], place)
        else:
            kind, fields, skipped = record_of(line, said, place, counts)
            places[len(image)] = place
            image += written(kind, fields, skipped)
    return image, places


def bytes_of(words, place):
    try:
        return bytes(int(w, 16) for w in words)
    except ValueError:
        raise SourceError(place, "bytes are written as hexadecimal numbers from 00 to ff") from None


def record_of(line, said, place, counts):
    """The kind, the fields and the skipped bytes of a record's line; the section's count goes up."""
    head, colon, rest = line.split("#")[0].partition(":")
    head, rest = head.split(), rest.split()
    if not colon or len(head) != 2 or head[0] not in SECTIONS or not rest:
        raise SourceError(place, "expected domain, type or term with its number and a colon, or bytes")
    n = SECTIONS.index(head[0])
    if head[1] != str(counts[n]):
        raise SourceError(place, f"this is {head[0]} {counts[n]}, but the line says {head[1]}")
    counts[n] += 1
    name = "domain" if n == 0 and rest[0] == "mask" else rest[0]
    if (n, name) not in BY_NAME:
        raise SourceError(place, f"no {head[0]} is called {rest[0]}")
    words, _, skipped = " ".join(rest[1:]).partition("skipped")
    words, skipped = words.split(), bytes_of(skipped.split(), place)
    if n == 2:
        if len(words) < 2 or words[-2] != "as":
            raise SourceError(place, "a term ends with 'as' and the number of its type")
        words = [words[-1], *words[:-2]]
    return BY_NAME[n, name], numbers(BY_NAME[n, name], words, place), skipped


def numbers(kind, words, place):
    """The fields of a record from their words."""
    letters = kinds.fields(kind, len(words))
    if len(words) not in kinds.counts(kind):
        raise SourceError(place, f"{kinds.name(kind)} does not have {len(words)} fields")
    return [field(l, w, place) for l, w in zip(letters, words)]


def field(letter, word, place):
    if letter == "o" and word in kinds.OPERATIONS:
        return kinds.OPERATIONS.index(word)
    low, high = (-(1 << 31), (1 << 31) - 1) if letter == "n" else (0, 0xFFFF)
    try:
        n = int(word, 0)
    except ValueError:
        raise SourceError(place, f"{word} is not a number") from None
    if not low <= n <= high:
        raise SourceError(place, f"{word} is not from {low} to {high}")
    return n
