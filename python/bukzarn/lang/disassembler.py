"""From an image to text that assembles to the same bytes.

The text is a tree of terms where the image is laid out and its terms stand children first, left to right, as the
assembler writes them. Otherwise it is a text of records.
"""
from . import gate, kinds, recordform, terms, types
from .assembler import assemble
from .layout import Refused, laid_out
from .lexer import SourceError
from .writer import SEQUENCE, TermWriter


def disassemble(image):
    """The text of an image, of any bytes."""
    try:
        tables = laid_out(image)
        root = tree(tables)
    except Refused:
        return recordform.disassemble(image)
    for declare in (False, True) if small(tables.types) else (True,):
        text = tree_text(tables, root, declare)
        if gives(text, image):
            return text
    return recordform.disassemble(image)


def program(image):
    """The text of an image's program, in whatever order its terms stand: it assembles to the same program, maybe to
    other bytes. Refused where the image is not a tree."""
    tables = laid_out(image)
    return tree_text(tables, tree(tables), not small(tables.types))


def gives(text, image):
    try:
        return assemble(text).image == image
    except SourceError:
        return False


def tree(tables):
    """The tree of an image's terms. Refused with 11 if a term is not used once, with 12 if it is much too deep."""
    gate.used_once(tables)
    made, depths = [], []
    for record in tables.terms:
        children = record.children
        depths.append(1 + max((depths[c] for c in children), default=0))
        if depths[-1] > 4 * kinds.DEPTH_LIMIT:
            gate.shallow(tables)
        letters = kinds.fields(record.kind, len(record.fields))[1:]
        terms_of = {"e": made, "x": [0, *made]}
        fields = (terms_of[l][f] if l in terms_of else f for l, f in zip(letters, record.fields[1:]))
        made.append(terms.Term(record.kind, tables.types[record.fields[0]], tuple(fields)))
    return made[-1]


def small(all_types, limit=36):
    """Whether all types are short enough to be written in full."""
    lengths = {}
    for t in all_types:
        lengths[t] = sum(lengths[f] if isinstance(f, types.Type) else 3 for f in t.fields) + 10
    return max(lengths.values()) <= 2 * limit


def domain_lines(masks):
    """The domains by name where what is named above each, and all above that, is its mask; else by masks."""
    lines = []
    for d, mask in enumerate(masks):
        above = [e for e in range(len(masks)) if e != d and mask >> e & 1]
        reach = 1 << d
        for e in above:
            reach |= masks[e]
        if reach != mask:
            return [f"domain d{d} mask {m:#06x}" for d, m in enumerate(masks)]
        lines.append(f"domain d{d}" + (" <= " if above else "") + ", ".join(f"d{e}" for e in above))
    return lines


def tree_text(tables, root, declare):
    names = tables.names() if declare else {}
    writer = types.Writer(None, names)
    lines = domain_lines(tables.masks)
    lines += [f"type {name} = {writer.outline(t)}" for t, name in names.items()]
    return "\n".join(lines) + "\n\n" + TermWriter(writer).text(root, SEQUENCE, (), 0) + "\n"
