"""Operators: truths, comparisons, sums, products, signs. Those that the calculus has not stand for those that it has
(docs/LANGUAGE.md, "Terms")."""
from . import hints, kinds, terms, types
from .bindings import Bindings
from .header import LARGEST, SMALLEST

# Comparisons beside `<` and `==`: what each stands for, and whether its right side is worked out first.
COMPARISONS = {
    ">": (lambda a, b: terms.less(b, a), True),
    ">=": (lambda a, b: terms.negation(terms.less(a, b)), False),
    "<=": (lambda a, b: terms.negation(terms.less(b, a)), True),
    "!=": (lambda a, b: terms.negation(terms.equal(a, b)), False),
}


class Operators(Bindings):
    """The part of the parser that reads operators, from loose to tight. Its subclass has `tight`, `settled` and `make`, and
    `here`, the current domain."""

    def disjunction(self):
        place, left = self.place, self.conjunction()
        while self.accept("or"):
            left = self.logical(place, terms.disjunction, "or", left, self.conjunction())
        return left

    def conjunction(self):
        place, left = self.place, self.negation()
        while self.accept("and"):
            left = self.logical(place, terms.conjunction, "and", left, self.negation())
        return left

    def negation(self):
        place = self.place
        if self.accept("not"):
            return self.logical(place, terms.negation, "not", self.negation())
        return self.comparison()

    def logical(self, place, build, sign, *parts):
        """A term of truths."""
        self.require(types.TRUTH, sign, parts)
        return self.make(place, build, *parts)

    def require(self, t, sign, parts):
        """The parts at a sign have a type."""
        for part in parts:
            if self.settled(part).type is not t:
                mend = hints.type_mend(part.type, t.kind)
                told = f": {mend[0].lower()}{mend[1:].rstrip('.')}" if mend else ""
                self.fail(f"'{sign}' takes {hints.a(t.kind)}, but this is {hints.a(part.type.kind)}{told}", part.place)

    def comparison(self):
        place, left = self.place, self.sum()
        for op in (2, 3):
            if self.accept(kinds.SIGNS[op]):
                return self.make(place, terms.arithmetic, op, left, self.sum())
        for sign, (build, turned) in COMPARISONS.items():
            if self.accept(sign):
                right = self.sum()
                self.require(types.NUMBER, sign, (left, right))
                if turned and not terms.order_is_free(left, right):
                    self.fail(f"'{sign}' {hints.BIND_FIRST}", place)
                return self.make(place, build, left, right)
        return left

    def sum(self):
        place, left = self.place, self.product()
        while self.sees("+", "-"):
            op = 0 if self.accept("+") else 1
            self.at += op
            left = self.make(place, terms.arithmetic, op, left, self.product())
        return left

    def product(self):
        place, left = self.place, self.unary()
        while self.accept("*"):
            right = self.unary()
            self.require(types.NUMBER, "*", (left, right))
            left = self.multiply(place, left, right)
        return left

    def multiply(self, place, a, b):
        """A product, of which one factor is a constant."""
        constants = [e.fields[0] for e in (a, b) if e.kind == kinds.NUMBER]
        if not constants:
            self.fail(hints.NO_PRODUCTS, place)
        if len(constants) == 2:
            n = constants[0] * constants[1]
            if not SMALLEST <= n <= LARGEST:
                self.fail(f"the product must be from {SMALLEST} to {LARGEST}, but is {n}", place)
            return self.make(place, terms.number, n)
        return self.make(place, terms.multiple, constants[0], b if a.kind == kinds.NUMBER else a, p=self.here)

    def unary(self):
        """`-x`. A number with its sign is one number."""
        place = self.place
        if self.sees("-") and self.tokens[self.at + 1].kind != "number":
            self.at += 1
            x = self.unary()
            self.require(types.NUMBER, "-", (x,))
            return self.make(place, terms.negative, x)
        return self.tight()
