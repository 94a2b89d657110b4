"""The refusals of documents 01 and 02 in words, and what to do about each."""
from . import kinds
from .assembler import assemble
from .disassembler import disassemble
from .gate import verdict
from .records import Record, record_at, word

# For each number: the cause, and how to mend it.
REFUSALS = {
    1: ("the image has more than 16,384 bytes",
        "Shorten the program: code that appears twice can be made a function."),
    2: ("1 to 3 bytes are left over, or a record's length is under 4 or goes past the image's end",
        "The image was cut off or damaged on its way: send it again, or assemble it again."),
    3: ("a record of a kind that does not exist",
        "The image was damaged, or it was written for a newer engine: assemble it again from its text."),
    4: ("a record that is too short for its kind, or a pointcut, an object, an object type or a match of a wrong "
        "length: a pointcut has 0 to 8 labels, an object 1 to 8 methods, a match 0 to 8 entries",
        "Assemble it again from its text; split a pointcut of more than 8 labels into two watches, an object of more "
        "than 8 methods into two objects, a pattern of more than 8 entries into a match of the rest inside another."),
    5: ("a domain after a type or term, or a type after a term",
        "Domains come first, then types, then terms: the assembler writes them so."),
    6: ("more than 16 domains, 128 types or 1,024 terms",
        "Use fewer: share domains and types, and make a function of code that appears twice."),
    7: ("a field names a type, term, domain or operation that is not there, or a truth or a match's close that is neither "
        "0 nor 1",
        "Give the field a number that exists; parts and children are lower numbers than their record's own. The assembler "
        "writes them so."),
    8: ("a type that equals an earlier one",
        "Use the number of the earlier one: the assembler writes each type once."),
    9: ("no domain, no type or no term",
        "The image is empty or was cut off: an image has at least one record of each section."),
    10: ("the masks of the domains are no order, or name a domain that is not there",
         "Each domain's mask has its own bit and every domain above it. With 'domain a <= b' the assembler takes care of it; "
         "no two domains may be below each other."),
    11: ("a term that is used by no other, or by more than one",
         "Each term but the last is the child of exactly one other: shared code is a function."),
    12: ("terms nested deeper than 64",
         "Bind two values at once, with 'let (x, y) = (A, B) in', which is one deep where two 'let' are four; make part of it "
         "a function; or put braces around the first half of a long sequence, in which each ';' is one deep."),
    13: ("a variable that is not bound",
         "A variable's number must be below the count of variables in scope; if you use names, the assembler takes care of it."),
    14: ("a term whose parts do not have the types that it needs",
         "Change the part that is named, or its stated type."),
    15: ("a term that the order of the domains forbids",
         "Low code may read high cells and make low cells, but it may not store to a high cell, mark a high label, keep a "
         "value under it, or call a high function or method. Let the watch keep a cell of its own domain, or let it print."),
    16: ("the program's result is not plain",
         "End with a unit, truth, number or pairs of these with at most 8 leaves."),
    17: ("the work area that the engine was lent is shorter than its published length",
         "Lend the engine a work area of the published length. The image is not at fault."),
    18: ("the report that the engine was lent is shorter than 17,994 bytes",
         "Lend the engine a report of at least 17,994 bytes. The image is not at fault."),
    19: ("the image is outside the class whose needs can be told without a run: no apply, no call, installs directly over "
         "an advice, and neither mark nor install in the body of an advice",
         "The image may run all the same: try it over frames. Its needs are told once no such term is left."),
    20: ("the output that was lent for the fixed form is shorter than the image",
         "Lend an output as long as the image: the fixed form is never longer. The image is not at fault."),
    21: ("the depth of a load is 0 or over 9",
         "Ask for a depth from 1 to 9."),
    22: ("the output for a load is shorter than 16,384 bytes",
         "Lend an output of at least 16,384 bytes, whatever the depth."),
    23: ("the domains that are to be kept are no set of high domains: domain 0 is not among them, one of them is not there, "
         "or a domain above one of them is left out",
         "Keep domain 0, and with each domain every domain above it. The image is not at fault."),
    24: ("the output that was lent for the image without its watches is shorter than the image",
         "Lend an output as long as the image: without watches it is never longer. The image is not at fault."),
    25: ("fewer places were lent than a forecast has numbers",
         "Lend eleven places. The image is not at fault."),
}

# For some kinds of terms, how to keep their type rule.
TYPE_MENDS = {
    kinds.OBJECT: "Give the object one body for each method of its type, in their order and of their types. If you "
                  "name the methods, the assembler takes care of the order.",
    kinds.CALL: "Call a method that the type of the object has. If you name it, the assembler takes care of its number.",
    kinds.KEEP: "Keep a value of the type that the label has: 'keep LABEL with VALUE { BODY }'.",
    kinds.TAKEDOWN: "A takedown gives unit: give it no other type.",
    kinds.MATCH: "Match a stack, with pointcuts as entries, and give both branches the same type: "
                 "'match stack with [pointcut {LABEL} as x, any, rest as y] then A else B'.",
}

# For each kind of term that can be outside the class of card 10, how to bring it inside.
CLASS_MENDS = {
    kinds.APPLY: "'let x = A in B' and every call of a function are applies, and so is a field of several bytes: bind with "
                 "'let (x, y) = (A, B) in', which is a split, and write a function's body where it is called.",
    kinds.CALL: "Write the method's body in place of the call.",
    kinds.INSTALL: "Write the advice directly behind 'install', outside the bodies of other advice.",
    kinds.MARK: "Mark outside the bodies of advice.",
}

# For each kind of term that has a domain rule, how to keep it.
DOMAIN_MENDS = {
    kinds.APPLY: "Call a function of the current domain: a watch defines its own, with 'define'.",
    kinds.MARK: "Mark a label of the current domain: only code of a label's own domain may mark it.",
    kinds.NEW_LABEL: "Make the label at the current domain or below it.",
    kinds.POINTCUT: "Make the pointcut at a domain at or below that of each of its labels.",
    kinds.ADVICE: "Make the advice at the domain of its pointcut or below it.",
    kinds.INSTALL: "Install advice of the current domain or below it: a watch cannot hang advice above itself.",
    kinds.NEW_CELL: "Make the cell at the current domain or below it.",
    kinds.READ: "Read a cell of the current domain or above it: high code may not see what low code wrote.",
    kinds.STORE: "Store to a cell of the current domain or below it: a watch keeps cells of its own domain, or prints.",
    kinds.LOWER: "Lower to a domain at or below the current one.",
    kinds.CALL: "Call a method of the current domain: one of a lower domain inside 'lower to', one of a higher domain "
                "not at all.",
    kinds.KEEP: "Keep the value under a label of the current domain; a match may ask for labels of any domain.",
    kinds.TAKEDOWN: "Take down a domain at or below the current one: a watch removes its own and those below it, never "
                    "advice of the decoder's.",
}


def table():
    """All refusals, a paragraph each."""
    return "\n".join(f"{n:2}  {cause}\n    {mend}" for n, (cause, mend) in REFUSALS.items()) + "\n"


def unknown(number):
    """What is said of a number that no refusal has; nothing of others."""
    return "" if number in REFUSALS else f"there is no refusal {number}: they are 1 to {max(REFUSALS)}\n"


def in_general(number, place, here=""):
    """A refusal in words, without an image; `here` says what is wrong, if that is known."""
    if unknown(number):
        return unknown(number)
    cause, mend = REFUSALS[number]
    lines = [f"refused {number} {place}: {cause}.", *([f"Here: {here}."] if here else []), f"To mend it: {mend}"]
    return "\n".join(lines) + "\n"


def explain(image, number, place, places=None, domains=None):
    """A refusal of an image in words: the cause, the record at the place, the line of the text, how to mend it."""
    if unknown(number):
        return unknown(number)
    lines = [f"refused {number} at byte {place}: {REFUSALS[number][0]}."]
    found, mend = verdict(image, domains), ""
    lines += describe(image, place, number, places, domains)
    if found and (found.number, found.place) == (number, place):
        lines.append(f"Here: {found.words}.")
        mend = found.mend
    elif number < 17:
        other = f"refused {found.number} {found.place}" if found else "accepted"
        lines.append(f"By these rules this image is {other}: is it the image that was refused?")
    return "\n".join(lines + [f"To mend it: {mend or mend_of(image, number, place)}"]) + "\n"


def mend_of(image, number, place):
    """How to mend a refusal; that of a rule or of a class by the kind of its term."""
    mends = {14: TYPE_MENDS, 15: DOMAIN_MENDS, 19: CLASS_MENDS}.get(number, {})
    found = record_at(image, place) if place < len(image) else None
    return mends.get(getattr(found, "kind", None), REFUSALS[number][1])


def describe(image, place, number, places, domains):
    """The record at a place: which one it is, and where it stands in the text."""
    if number in (1, 9, 17, 18, 20, 21, 22, 23, 24, 25):
        return []
    found = record_at(image, place) if place < len(image) else 2
    if not isinstance(found, Record):
        return [f"The bytes there: {image[place:place + 8].hex(' ')}."]
    sections = ("domain", "type", "term")
    own = sections[kinds.section(found.kind)]
    n = count_before(image, place, found.kind)
    lines = [f"The record is {own} {n}, {kinds.name(found.kind)} (kind {found.kind})."]
    places = places or shown_places(image)
    if places.get(place):
        lines.append(f"It comes from {places[place]}:{places[place].excerpt()}")
    elif own == "domain" and domains:
        lines.append(f"It is the domain {domains[n]}.")
    return lines


def shown_places(image):
    """The places of an image's records in the text that the disassembler gives."""
    return assemble(disassemble(image), "the text that disasm gives").places


def count_before(image, place, kind):
    """How many records of a kind's section stand before a place."""
    offset = count = 0
    while offset < place:
        found = record_at(image, offset)
        count += isinstance(found, Record) and kinds.section(found.kind) == kinds.section(kind)
        offset += max(4, word(image, offset)) if offset + 4 <= place else 4
    return count
