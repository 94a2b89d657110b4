"""Types. Equal types are one object, so they are compared with `is`, and a type of any size costs little."""
from . import kinds


class Type:
    """A kind and its fields: types, and the numbers of domains."""
    __slots__ = ("kind", "fields")

    def __init__(self, kind, fields):
        self.kind, self.fields = kind, fields

    @property
    def domain(self):
        """The p of a function, reference, label, pointcut or advice; None for the others, also for an object."""
        at = kinds.fields(self.kind).find("p")
        return self.fields[at] if at >= 0 else None

    @property
    def first(self):
        """The a of a pair, function, reference, label or pointcut."""
        return self.fields[0]

    @property
    def last(self):
        """The b of a pair or function."""
        return self.fields[-1]

    @property
    def methods(self):
        """The methods of an object, each a domain and a type; none for the others."""
        return list(zip(self.fields[::2], self.fields[1::2])) if self.kind == kinds.OBJECT_T else []


_made = {}


def make(kind, *fields):
    """The one type of this kind with these fields."""
    key = (kind, *((id(f) if isinstance(f, Type) else f) for f in fields))
    if key not in _made:
        _made[key] = Type(kind, fields)
    return _made[key]


UNIT = make(kinds.UNIT_T)
TRUTH = make(kinds.TRUTH_T)
NUMBER = make(kinds.NUMBER_T)
STACK = make(kinds.STACK_T)


def pair(a, b):
    return make(kinds.PAIR_T, a, b)


def function(a, p, b):
    return make(kinds.FUNCTION_T, a, p, b)


def reference(a, p):
    return make(kinds.REFERENCE_T, a, p)


def label(a, p):
    return make(kinds.LABEL_T, a, p)


def pointcut(a, p):
    return make(kinds.POINTCUT_T, a, p)


def advice(p):
    return make(kinds.ADVICE_T, p)


def object_of(methods):
    """The type of an object with these methods, each a domain and a type."""
    return make(kinds.OBJECT_T, *(f for method in methods for f in method))


def has_kind(t, kind):
    return t is not None and t.kind == kind


def leaves(types):
    """For each type of a list, each after its parts, how many leaves it has if it is plain; 0 if it is not, or has more
    than the limit ("A plain type is unit, truth, number or a pair of plain types, with at most 8 leaves")."""
    counts = {}
    for t in types:
        if t.kind in (kinds.UNIT_T, kinds.TRUTH_T, kinds.NUMBER_T):
            counts[t] = 1
        elif t.kind == kinds.PAIR_T and counts[t.first] and counts[t.last]:
            n = counts[t.first] + counts[t.last]
            counts[t] = n if n <= kinds.LEAF_LIMIT else 0
        else:
            counts[t] = 0
    return counts


def method(m):
    """The name of a method where a text has none for it."""
    return f"m{m}"


class Writer:
    """Writes types as text: in full where that is short, else by name. `names` has the names of some types, `domains`
    the names of the domains."""

    def __init__(self, domains=None, names=None, width=36):
        self.domains, self.names, self.width, self.known = domains, names or {}, width, {}

    def legend(self):
        """What the names stand for that have been written."""
        shown = [t for t, text in self.known.items() if text == self.names.get(t)]
        return [f"{self.names[t]} = {self.outline(t)}" for t in shown]

    def domain(self, p):
        return self.domains[p] if self.domains and p < len(self.domains) else f"d{p}"

    def outline(self, t):
        """A type by its kind and its parts."""
        a = [self.text(f) if isinstance(f, Type) else self.domain(f) for f in t.fields]
        if t.kind == kinds.PAIR_T:
            return f"({a[0]}, {a[1]})"
        if t.kind == kinds.FUNCTION_T:
            return f"function from {a[0]} at {a[1]} to {a[2]}"
        if t.kind == kinds.ADVICE_T:
            return f"advice at {a[0]}"
        if t.kind == kinds.OBJECT_T:
            said = zip(range(len(a)), a[::2], a[1::2])
            return "object { " + "; ".join(f"{method(m)} at {p} : {b}" for m, p, b in said) + " }"
        return f"{kinds.name(t.kind)} {a[0]} at {a[1]}" if a else kinds.name(t.kind)

    def text(self, t):
        if t not in self.known:
            full = self.outline(t)
            self.known[t] = self.names[t] if t in self.names and len(full) > self.width else full
        return self.known[t]
