"""Terms as trees, with their types worked out from below, and the image of a tree.

A term has a kind, a type, and the fields after the type: domains, numbers, children. A variable's field is its name,
or its number if it is known; an entry of a match is a pointcut, or 0 for anything. `names` are the variables that the
last child's scope gains, of an object each child's, of a match the first branch's. A type is None where it cannot be
worked out; `why` then says why, or `fault` what is wrong, and where `fault_place` is, and `typed` sets it by hand. A term that is
`pure` calls only what the assembler itself has put there.
"""
from dataclasses import dataclass, field, replace

from . import hints, kinds, types
from .records import written


@dataclass(frozen=True, eq=False)
class Term:
    kind: int
    type: object = None
    fields: tuple = ()
    names: tuple = ()
    place: object = None
    why: str = ""
    fault: str = ""
    fault_place: object = None
    pure: bool = False

    @property
    def children(self):
        return [f for f in self.fields if isinstance(f, Term)]


def typed(e, t):
    """The term with a type set by hand, whatever its parts are."""
    return replace(e, type=t, why="", fault="")


# What only gives a value: it neither prints, marks, stores, installs, makes, calls nor aborts.
PURE = frozenset((kinds.UNIT, kinds.TRUTH, kinds.NUMBER, kinds.VARIABLE, kinds.SEQUENCE, kinds.IF, kinds.ARITHMETIC,
                   kinds.READ, kinds.FRAME_BYTE))


def is_pure(e):
    """Does a term only give a value, so that nobody sees when it is worked out?"""
    return e.pure or (e.kind in PURE and all(is_pure(part) for part in e.children))


def order_is_free(a, b):
    """Can nobody see in which order two terms are worked out? So it is where one is a constant or a variable, and where
    both only give a value."""
    return any(e.kind in (kinds.NUMBER, kinds.TRUTH, kinds.VARIABLE) for e in (a, b)) or (is_pure(a) and is_pure(b))


def unit():
    return Term(kinds.UNIT, types.UNIT)


def truth(b):
    return Term(kinds.TRUTH, types.TRUTH, (int(b),))


def number(n):
    return Term(kinds.NUMBER, types.NUMBER, (n,))


def variable(name, t):
    return Term(kinds.VARIABLE, t, (name,), why=f"the type of {name} is not known here")


def sequence(first, *rest):
    if not rest:
        return first
    then = sequence(*rest)
    return Term(kinds.SEQUENCE, then.type, (first, then))


def show(e):
    return Term(kinds.PRINT, types.UNIT, (e,))


def branch_type(yes, no):
    """The type of two branches; where they differ, what is wrong at the second."""
    if yes.type is no.type:
        return {"type": yes.type}
    first, second = (hints.a_value(e.type) for e in (yes, no))
    what = f"the first branch gives {first}, the second {second}" if first != second else "the branches give different types"
    return {"type": None, "fault": f"{what}: {hints.SAME_BRANCHES}", "fault_place": no.place}


def branch(test, yes, no):
    return Term(kinds.IF, fields=(test, yes, no), **branch_type(yes, no))


def pair(a, b):
    return Term(kinds.PAIR, types.pair(a.type, b.type), (a, b))


def split(e, first, second, body):
    return Term(kinds.SPLIT, body.type, (e, body), (first, second))


def function(name, a, body, p=0):
    if a is None:
        return Term(kinds.FUNCTION, None, (body,), (name,), why=f"the parameter {name} needs a type: ({name} : type)")
    return Term(kinds.FUNCTION, types.function(a, p, body.type), (body,), (name,))


def part_of(e, kind, what, take):
    """The type that `take` gets from the type of `e` if that is of a kind, and the reason where it is not."""
    if types.has_kind(e.type, kind):
        return {"type": take(e.type)}
    return {"type": None, "why": f"{what} must be {hints.a(kind)}, but is {hints.a(e.type.kind)}"}


def apply(f, x):
    made = Term(kinds.APPLY, fields=(f, x), **part_of(f, kinds.FUNCTION_T, "what is applied", lambda t: t.last))
    return replace(made, why=f"{made.why}; write it without ()") if made.why and x.kind == kinds.UNIT else made


def arithmetic(op, a, b):
    return Term(kinds.ARITHMETIC, types.NUMBER if op < 2 else types.TRUTH, (op, a, b))


def conjunction(a, b):
    """`a and b`."""
    return branch(a, b, truth(False))


def disjunction(a, b):
    """`a or b`."""
    return branch(a, truth(True), b)


def negation(a):
    """`not a`."""
    return branch(a, truth(False), truth(True))


def plus(a, b):
    return arithmetic(0, a, b)


def minus(a, b):
    return arithmetic(1, a, b)


def less(a, b):
    return arithmetic(2, a, b)


def equal(a, b):
    return arithmetic(3, a, b)


def negative(x):
    """`-x`; like every difference it stops at the ends of the range (card 2)."""
    if x.kind == kinds.NUMBER:
        return number(min(-x.fields[0], (1 << 31) - 1))
    return minus(number(0), x)


def multiple(k, x, p=0):
    """A number, k times, at the current domain p: by doubling from the highest binary digit of k on, each sum but the first
    bound to be added to itself. All summands have one sign, so the sum stops where the product would leave the range."""
    pure = is_pure(x)
    if k == 0:
        return number(0) if pure else let("factor", x, number(0), p)
    x, k = (negative(x), -k) if k < 0 else (x, k)
    if k == 1:
        return x
    if x.kind != kinds.VARIABLE:
        return replace(let("factor", x, multiple_of_variable(k, variable("factor", types.NUMBER), p), p), pure=pure)
    return replace(multiple_of_variable(k, x, p), pure=True)


def multiple_of_variable(k, x, p):
    """A variable, k times, k at least 2."""
    made, twice = x, variable("double", types.NUMBER)
    for digit in bin(k)[3:]:
        of = x if made is x else twice
        total = plus(plus(of, of), x) if digit == "1" else plus(of, of)
        made = total if made is x else let("double", made, total, p)
    return made


def new_label(a, p=0):
    return Term(kinds.NEW_LABEL, types.label(a, p))


def mark(label, value):
    return Term(kinds.MARK, types.UNIT, (label, value))


def pointcut(a, *labels, p=0):
    """A pointcut of values of type a; where a is None, of the values of its first label."""
    if a is None and labels and types.has_kind(labels[0].type, kinds.LABEL_T):
        a = labels[0].type.first
    if a is None:
        why = "say of which values, as no label tells it: pointcut {} of type at domain"
        return Term(kinds.POINTCUT, None, labels, why=why)
    return Term(kinds.POINTCUT, types.pointcut(a, p), labels)


def advice(cut, name, body, p=0):
    return Term(kinds.ADVICE, types.advice(p), (cut, body), (name,))


def install(e):
    return Term(kinds.INSTALL, types.UNIT, (e,))


def new_cell(value, p=0):
    return Term(kinds.NEW_CELL, types.reference(value.type, p), (value,))


def read(cell):
    return Term(kinds.READ, fields=(cell,), **part_of(cell, kinds.REFERENCE_T, "what is read", lambda t: t.first))


def store(cell, value):
    return Term(kinds.STORE, types.UNIT, (cell, value))


def lower(p, body):
    return Term(kinds.LOWER, types.UNIT, (p, body))


def takedown(p):
    """Every installed advice of domain p is removed (card 7)."""
    return Term(kinds.TAKEDOWN, types.UNIT, (p,))


def abort(t):
    return Term(kinds.ABORT, t)


def object_of(t, name, *bodies):
    """An object of a type with its methods' bodies, in each of which it has a name."""
    why = "an object's type stands after object: its name, or { method at domain : type; ... }"
    return Term(kinds.OBJECT, t, bodies, (name,), why=why)


def call(e, m):
    """The call of a method by its number."""
    if types.has_kind(e.type, kinds.OBJECT_T) and m < len(e.type.methods):
        return Term(kinds.CALL, e.type.methods[m][1], (e, m))
    why = f"what is called must be an object with a method {m}, counted from 0"
    fault = f"{hints.NO_FRACTIONS}, so that 5.5 degrees are 55 tenths" if e.kind == kinds.NUMBER else ""
    return Term(kinds.CALL, None, (e, m), why=why, fault=fault)


def stack():
    return Term(kinds.STACK, types.STACK)


def keep(label, value, body):
    return Term(kinds.KEEP, body.type, (label, value, body))


def match(e, entries, rest, yes, no):
    """A match of a stack. An entry is a pointcut with the name of its value, or None for anything; `rest` is the name of
    what is left of the stack, None where nothing may be left."""
    cuts = [entry[0] if entry else 0 for entry in entries]
    names = [entry[1] for entry in entries if entry] + ([rest] if rest else [])
    fields = (e, yes, no, *cuts, int(rest is not None))
    return Term(kinds.MATCH, fields=fields, names=tuple(names), **branch_type(yes, no))


def frame_byte(index):
    return Term(kinds.FRAME_BYTE, types.NUMBER, (index,))


def let(name, value, body, p=0):
    """The body with a name for a value, at the current domain p: one binding."""
    return apply(function(name, value.type, body, p), value)


def last(e):
    """The term whose value a term gives: behind what comes before it in sequences, lets and splits."""
    while e.kind in (kinds.SEQUENCE, kinds.SPLIT) or (e.kind == kinds.APPLY and e.fields[0].kind == kinds.FUNCTION):
        e = e.fields[0].fields[-1] if e.kind == kinds.APPLY else e.fields[-1]
    return e


def child_domains(e, count, here):
    """The domain at which each of a term's so many children runs; where its type does not tell, the current one."""
    domains, own = [here] * count, getattr(e.type, "kind", 0)
    if e.kind == kinds.LOWER:
        domains[-1:] = [e.fields[0]]
    elif (e.kind, own) in ((kinds.FUNCTION, kinds.FUNCTION_T), (kinds.ADVICE, kinds.ADVICE_T)):
        domains[-1:] = [e.type.domain]
    elif (e.kind, own) == (kinds.OBJECT, kinds.OBJECT_T) and len(e.type.methods) == count:
        domains = [p for p, _ in e.type.methods]
    return domains


def binds(e, i):
    """Whether a term's names are bound in its i-th field."""
    if e.kind == kinds.MATCH:
        return i == 1
    return e.kind == kinds.OBJECT or i == len(e.fields) - 1


@dataclass
class Laid:
    """An image, and for the offset of each term the place in the text that it comes from."""
    image: bytes
    places: dict = field(default_factory=dict)


class Layout:
    """Numbers types and terms in the order in which they are written: terms children first, left to right; types as the
    terms first have them, each after its own parts."""

    def __init__(self, declared):
        self.types, self.terms, self.places = {}, [], []
        for t in declared:
            self.type_number(t)

    def type_number(self, t):
        if t not in self.types:
            fields = [self.type_number(f) if isinstance(f, types.Type) else f for f in t.fields]
            self.types[t] = (len(self.types), written(t.kind, fields))
        return self.types[t][0]

    def term_number(self, e, scope=(), place=None):
        """Writes a term after its children. Its place is the nearest that is known, from itself outwards."""
        fields, place = [], e.place or place
        for i, f in enumerate(e.fields):
            if isinstance(f, Term):
                f = self.term_number(f, scope + e.names if binds(e, i) else scope, place)
                f += e.kind == kinds.MATCH and i > 2
            elif isinstance(f, str):
                f = scope[::-1].index(f)
            fields.append(f)
        self.terms.append(written(e.kind, [self.type_number(e.type), *fields]))
        self.places.append(place)
        return len(self.terms) - 1


def lay_out(root, masks=(1,), declared=()):
    """The image of a tree. `declared` are types that come first, in this order."""
    layout = Layout(declared)
    layout.term_number(root)
    head = b"".join([written(kinds.DOMAIN, [m]) for m in masks] + [made for _, made in layout.types.values()])
    places, offset = {}, len(head)
    for made, place in zip(layout.terms, layout.places):
        places[offset] = place
        offset += len(made)
    return Laid(head + b"".join(layout.terms), places)
