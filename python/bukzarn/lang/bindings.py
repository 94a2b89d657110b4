"""Names for values: variables in scope, `let` with a name or with a pattern of names, `define`."""
from dataclasses import dataclass

from . import forms, hints, kinds, terms, types
from .header import Declarations
from .lexer import SourceError


@dataclass(frozen=True, eq=False)
class Entry:
    """A variable in scope. One that stands `in_cell` is a function that may call itself: its name reads the cell. `why`
    says why the type is not known, where it is None."""
    name: str
    type: object
    in_cell: bool = False
    why: str = ""

    @property
    def named(self):
        """Whether a text could write the name; a part that is itself taken apart has none that it could."""
        return self.name.isidentifier()


def flat(pattern):
    """The names in a pattern, from left to right."""
    return [pattern] if isinstance(pattern, str) else [name for part in pattern for name in flat(part)]


class Bindings(Declarations):
    """The part of the parser that reads a let and a define. Its subclass has `sequence`, `braces`, `settled`, `inside`,
    `make`, `variable`, `at_domain`, the `scope`, the entries that are `called`, and `here`, the current domain."""

    def let(self, place):
        name = self.name("a variable")
        self.take("=", f"after let {name}")
        value = self.value(name)
        body = self.inside(self.sequence, Entry(name, value.type))
        return self.make(place, terms.let, name, value, body, p=self.here)

    def split(self, place):
        names = self.pattern()
        self.take("=", "before the pair")
        return self.parts(place, names, self.value(*flat(names)), ())

    def value(self, *names):
        """The value that a let gives names to, up to its 'in'."""
        start = self.at
        try:
            value = self.settled(self.sequence())
            self.take("in", f"after the value of {', '.join(names)}")
        except SourceError as error:
            raise hints.let_without_in(error, names, self.tokens, start) from None
        return value

    def pattern(self):
        """A name, or `(pattern, pattern)`."""
        if not self.accept("("):
            return self.name("a variable")
        opened, first = self.tokens[self.at - 1].place, self.pattern()
        self.take(",", "between the names of a pair's parts")
        second = self.pattern()
        self.close(")", opened)
        return first, second

    def parts(self, place, names, value, later):
        """Splits a pair into its parts, and those that are patterns again; then `later`, pairs of names and a variable;
        then the body. A part with a pattern has a name that no text can write."""
        own = [name if isinstance(name, str) else f"part {len(self.scope) + i}" for i, name in enumerate(names)]
        of = (value.type.first, value.type.last) if value.type.kind == kinds.PAIR_T else (None, None)
        why = f"what is taken apart must be a pair, but is {hints.a(value.type.kind)}"
        entries = [Entry(x, t, why=why) for x, t in zip(own, of)]
        inner = [(name, entry) for name, entry in zip(names, entries) if not isinstance(name, str)]
        later = (*inner, *later)

        def rest():
            if not later:
                return self.sequence()
            (inside, entry), *others = later
            return self.parts(place, inside, self.settled(self.variable(place, entry)), others)

        body = self.inside(rest, *entries)
        return self.make(place, terms.split, value, *own, body)

    def define(self, place):
        """A function with a name. If its result's type is stated, it may call itself, and then stands in a cell."""
        name = self.name("a function")
        x, a = self.parameter()
        if a is None:
            self.fail(f"the parameter {x} needs a type: ({x} : type)", place)
        p = self.at_domain()
        result = self.type() if self.accept("to") else None
        known = Entry(name, types.reference(types.function(a, p, result), p), True) if result else None
        body = self.body_of(name, *([known] if known else []), Entry(x, a), here=p)
        self.take("in", f"after the definition of {name}")
        made = self.make(place, terms.function, x, a, body, p=p)
        if known not in self.called:
            rest = self.inside(self.sequence, Entry(name, made.type))
            return self.make(place, terms.let, name, made, rest, p=self.here)
        if made.type is not known.type.first:
            self.fail(f"the body of {name} does not have the type that is said after 'to'", place)
        rest = self.inside(self.sequence, known)
        filled = terms.sequence(terms.store(terms.variable(name, known.type), made), rest)
        empty = terms.new_cell(terms.function(x, a, terms.abort(result), p), p)
        return self.make(place, terms.let, name, empty, filled, p=self.here)

    def body_of(self, function, *entries, here):
        """The body of a function with a name, in which the name is bound only if the result's type is stated."""
        try:
            return self.braces(*entries, here=here)
        except SourceError as error:
            if error.missing != function:
                raise
            words = f"{function} is not bound in its own body: a function that calls itself must state its result after 'to'"
            raise SourceError(error.place, words + forms.write("define")) from None

    def parameter(self):
        """`(x : type)`; the type may be left out where the whole term's type is stated."""
        opened = self.place
        self.take("(", "before a parameter")
        if self.sees(")"):
            self.fail("a function has exactly one parameter: if it needs no value, write (u : unit)")
        name = self.name("a parameter")
        a = self.type() if self.accept(":") else None
        if self.sees(","):
            self.fail("a function has exactly one parameter: for two values take a pair, (x : (a, b)), and split it with let")
        self.close(")", opened)
        return name, a
