"""Patterns of a match: `[pointcut as name, any, rest as name]`."""
from dataclasses import dataclass

from . import kinds
from .bindings import Entry

NO_POINTCUT = "an entry of a pattern is any or a pointcut: write pointcut {LABEL} as NAME"


@dataclass
class Pattern:
    """The entries from the top of the stack on, each a pointcut with the name of its value, or None for anything; and
    the name of the rest, None where nothing may be left."""
    entries: list
    rest: str = None

    def variables(self, stack):
        """The variables that the first branch gains; `stack` is the type of the stack."""
        found = [Entry(name, cut.type.first if cut.type.kind == kinds.POINTCUT_T else None, why=NO_POINTCUT)
                 for cut, name in filter(None, self.entries)]
        return found + ([Entry(self.rest, stack)] if self.rest else [])


def read(parser):
    """The pattern that a parser is at. Here alone `any` and `rest` are words of the language."""
    place, found = parser.place, Pattern([])
    parser.take("[", "before a pattern")
    while found.rest is None and not parser.sees("]"):
        if found.entries:
            parser.take(",", "between the entries of a pattern")
        if parser.sees("_", "."):
            parser.expected("an entry of a pattern", ": write any for one value, rest as NAME for all that is left")
        if parser.accept("any"):
            found.entries.append(None)
        elif parser.accept("rest"):
            found.rest = name(parser, "the rest of the stack")
        else:
            found.entries.append((parser.settled(parser.tight()), name(parser, "the value")))
    parser.take("]", "after the rest, which stands last in a pattern" if found.rest else "after a pattern")
    if len(found.entries) > kinds.ENTRY_LIMIT:
        parser.fail(f"a pattern has at most {kinds.ENTRY_LIMIT} entries, this one has {len(found.entries)}", place)
    return found


def name(parser, what):
    parser.take("as", f"and a name for {what}")
    return parser.name("a variable")
