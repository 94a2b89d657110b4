"""The typing rules (document 01, "Typing"): refusals 13 to 16, each with its cause in words.

At each term first 13, then 14, then 15, then its children from left to right. A rule of a kind is one function. It is
given the term as `Judged`, whose methods say what must hold.
"""
from dataclasses import dataclass

from . import hints, kinds, types
from .layout import Refused


SAME_BRANCHES = hints.SAME_BRANCHES[0].upper() + hints.SAME_BRANCHES[1:] + "."


@dataclass
class Judged:
    """A term under its rule: its record, its type, its children's types, the current domain and the scope."""
    record: object
    type: object
    kids: list
    here: int
    scope: tuple
    tables: object
    writer: object

    def refuse(self, number, words, mend=""):
        raise Refused(number, self.record.offset, "; ".join([words, *self.writer.legend()]), mend)

    def show(self, t):
        return self.writer.text(t)

    def is_(self, t, want, what, mend=""):
        """The type `t` of the part `what` is the type wanted (14)."""
        if t is not want:
            mend = mend or hints.type_mend(t, want.kind)
            self.refuse(14, f"{what} must have type {self.show(want)}, but has {self.show(t)}", mend)

    def gives(self, want, what):
        """The term's own type is the type wanted (14)."""
        if self.type is not want:
            self.refuse(14, f"{what} must have type {self.show(want)}, but is said to have {self.show(self.type)}")

    def kind(self, t, kind, what):
        """The type `t` of the part `what` is of a kind (14)."""
        if t.kind != kind:
            self.refuse(14, f"{what} must be {hints.a(kind)}, but has type {self.show(t)}", hints.type_mend(t, kind))

    def own_kind(self, kind, what):
        """The term's own type is of a kind (14)."""
        if self.type.kind != kind:
            self.refuse(14, f"the type of {what} must be that of {hints.a(kind)}, but is {self.show(self.type)}")

    def same(self, p, what):
        """The domain p of `what` equals the current domain (15)."""
        name = self.writer.domain
        if p != self.here:
            self.refuse(15, f"{what} is {name(p)}, and must equal the current domain, {name(self.here)}")

    def below(self, p, q, low, high):
        """p ≤ q (15); the words name both."""
        name = self.writer.domain
        if not self.tables.below(p, q):
            self.refuse(15, f"{low} is {name(p)}, and must be at or below {high}, {name(q)}")

    def below_here(self, p, what):
        self.below(p, self.here, what, "the current domain")


def variable(j):
    k = j.record.fields[1]
    if k >= len(j.scope):
        j.refuse(13, f"variable {k} is not bound: {hints.counted(len(j.scope), 'variable')} in scope here")
    j.gives(j.scope[-1 - k], "the variable")


def sequence(j):
    j.is_(j.kids[0], types.UNIT, "the first of a sequence")
    j.gives(j.kids[1], "a sequence, as its second,")


def branch(j):
    j.is_(j.kids[0], types.TRUTH, "the test of an if")
    j.is_(j.kids[1], j.type, "the first branch, as the whole if,", SAME_BRANCHES)
    j.is_(j.kids[2], j.type, "the second branch, as the whole if,", SAME_BRANCHES)


def pair(j):
    j.gives(types.pair(*j.kids), "a pair")


def split(j):
    j.kind(j.kids[0], kinds.PAIR_T, "what is split")
    j.gives(j.kids[1], "a split, as its body,")


def function(j):
    j.own_kind(kinds.FUNCTION_T, "a function")
    j.is_(j.kids[0], j.type.last, "the function's body")


def apply(j):
    j.kind(j.kids[0], kinds.FUNCTION_T, "what is applied")
    j.is_(j.kids[1], j.kids[0].first, "the argument")
    j.gives(j.kids[0].last, "the application")
    j.same(j.kids[0].domain, "the function's domain")


def arithmetic(j):
    op = j.record.fields[1]
    for kid in j.kids:
        j.is_(kid, types.NUMBER, f"an operand of {kinds.OPERATIONS[op]}")
    j.gives(types.NUMBER if op < 2 else types.TRUTH, kinds.OPERATIONS[op])


def new_label(j):
    j.own_kind(kinds.LABEL_T, "a new label")
    j.below_here(j.type.domain, "the label's domain")


def mark(j):
    j.kind(j.kids[0], kinds.LABEL_T, "what is marked")
    j.is_(j.kids[1], j.kids[0].first, "the value at the mark")
    j.gives(types.UNIT, "a mark")
    j.same(j.kids[0].domain, "the label's domain")


def pointcut(j):
    j.own_kind(kinds.POINTCUT_T, "a pointcut")
    for kid in j.kids:
        j.kind(kid, kinds.LABEL_T, "each of a pointcut's labels")
        j.is_(kid.first, j.type.first, "the value at each of the pointcut's labels")
    for kid in j.kids:
        j.below(j.type.domain, kid.domain, "the pointcut's domain", "each label's domain")


def advice(j):
    j.own_kind(kinds.ADVICE_T, "an advice")
    j.kind(j.kids[0], kinds.POINTCUT_T, "what an advice hangs on")
    j.is_(j.kids[1], types.UNIT, "the advice's body")
    j.below(j.type.domain, j.kids[0].domain, "the advice's domain", "its pointcut's domain")


def install(j):
    j.kind(j.kids[0], kinds.ADVICE_T, "what is installed")
    j.gives(types.UNIT, "an install")
    j.below_here(j.kids[0].domain, "the advice's domain")


def new_cell(j):
    j.own_kind(kinds.REFERENCE_T, "a new cell")
    j.is_(j.kids[0], j.type.first, "the cell's first value")
    j.below_here(j.type.domain, "the cell's domain")


def read(j):
    j.kind(j.kids[0], kinds.REFERENCE_T, "what is read")
    j.gives(j.kids[0].first, "the read")
    j.below(j.here, j.kids[0].domain, "the current domain", "the domain of the cell that is read")


def store(j):
    j.kind(j.kids[0], kinds.REFERENCE_T, "what is stored to")
    j.is_(j.kids[1], j.kids[0].first, "the stored value")
    j.gives(types.UNIT, "a store")
    j.below_here(j.kids[0].domain, "the domain of the cell that is stored to")


def lower(j):
    j.gives(types.UNIT, "a lower")
    j.is_(j.kids[0], types.UNIT, "the lowered body")
    j.below_here(j.record.fields[1], "the domain that is lowered to")


def takedown(j):
    j.gives(types.UNIT, "a takedown")
    j.below_here(j.record.fields[1], "the domain that is taken down")


def object_of(j):
    """An object has a body for each method of its type."""
    j.own_kind(kinds.OBJECT_T, "an object")
    wanted = j.type.methods
    if len(j.kids) != len(wanted):
        bodies, methods = hints.counted(len(j.kids), "body", "bodies"), hints.counted(len(wanted), "method")
        j.refuse(14, f"the object has {bodies}, but its type has {methods}: {j.show(j.type)}")
    for m, (kid, (_, of)) in enumerate(zip(j.kids, wanted)):
        j.is_(kid, of, f"the body of method {m}")


def call(j):
    """The method's domain is the current one."""
    j.kind(j.kids[0], kinds.OBJECT_T, "what is called")
    m, methods = j.record.fields[2], j.kids[0].methods
    if m >= len(methods):
        j.refuse(14, f"method {m} is called, but the methods are 0 to {len(methods) - 1}: {j.show(j.kids[0])}")
    p, of = methods[m]
    j.gives(of, f"the call of method {m}")
    j.same(p, "the method's domain")


def keep(j):
    """The label's domain is the current one."""
    j.kind(j.kids[0], kinds.LABEL_T, "what a value is kept under")
    j.is_(j.kids[1], j.kids[0].first, "the kept value")
    j.gives(j.kids[2], "a keep, as its body,")
    j.same(j.kids[0].domain, "the label's domain")


def match(j):
    j.is_(j.kids[0], types.STACK, "what is matched")
    j.is_(j.kids[1], j.type, "the first branch, as the whole match,", SAME_BRANCHES)
    j.is_(j.kids[2], j.type, "the second branch, as the whole match,", SAME_BRANCHES)
    for kid in j.kids[3:]:
        j.kind(kid, kinds.POINTCUT_T, "each entry that is not 0")


def constant(want):
    return lambda j: j.gives(want, "the constant")


def numeric(result, what):
    """Print and frame byte: they take a number."""
    def rule(j):
        j.is_(j.kids[0], types.NUMBER, f"what {what} takes")
        j.gives(result, what)
    return rule


RULES = {
    kinds.UNIT: constant(types.UNIT), kinds.TRUTH: constant(types.TRUTH), kinds.NUMBER: constant(types.NUMBER),
    kinds.VARIABLE: variable, kinds.SEQUENCE: sequence, kinds.PRINT: numeric(types.UNIT, "print"), kinds.IF: branch,
    kinds.PAIR: pair, kinds.SPLIT: split, kinds.FUNCTION: function, kinds.APPLY: apply, kinds.ARITHMETIC: arithmetic,
    kinds.NEW_LABEL: new_label, kinds.MARK: mark, kinds.POINTCUT: pointcut, kinds.ADVICE: advice,
    kinds.INSTALL: install, kinds.NEW_CELL: new_cell, kinds.READ: read, kinds.STORE: store, kinds.LOWER: lower,
    kinds.ABORT: lambda j: None, kinds.OBJECT: object_of, kinds.CALL: call,
    kinds.STACK: lambda j: j.gives(types.STACK, "the stack"), kinds.KEEP: keep, kinds.MATCH: match,
    kinds.TAKEDOWN: takedown, kinds.FRAME_BYTE: numeric(types.NUMBER, "frame byte"),
}


def bound(record, own, kids, i):
    """The types that the i-th child's scope gains; `kids` are the children's types."""
    if record.kind == kinds.OBJECT:
        return (own,)
    if record.kind == kinds.MATCH and i == 1:
        return (*(cut.first for cut in kids[3:]), *kids[:record.fields[-1]])
    if i < len(kids) - 1:
        return ()
    if record.kind == kinds.SPLIT:
        return (kids[0].first, kids[0].last)
    if record.kind == kinds.FUNCTION:
        return (own.first,)
    return (kids[0].first,) if record.kind == kinds.ADVICE else ()


def child_domain(record, own, i, last, here):
    """The domain at which the i-th child is checked."""
    if record.kind == kinds.OBJECT:
        return own.methods[i][0]
    if last and record.kind in (kinds.FUNCTION, kinds.ADVICE):
        return own.domain
    return record.fields[1] if record.kind == kinds.LOWER else here


def well_typed(tables, writer):
    """Refusals 13 to 16, from the root, parent before children, left first."""
    def judge(n, here, scope):
        record = tables.terms[n]
        own, children = tables.types[record.fields[0]], record.children
        kids = [tables.types[tables.terms[c].fields[0]] for c in children]
        RULES[record.kind](Judged(record, own, kids, here, scope, tables, writer))
        for i, c in enumerate(children):
            last = i == len(children) - 1
            judge(c, child_domain(record, own, i, last, here), scope + bound(record, own, kids, i))

    root = len(tables.terms) - 1
    judge(root, 0, ())
    own = tables.types[tables.terms[root].fields[0]]
    if not types.leaves(tables.types)[own]:
        said = [f"the program's result has type {writer.text(own)}", *writer.legend()]
        raise Refused(16, tables.terms[root].offset, "; ".join(said))
