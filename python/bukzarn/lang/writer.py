"""From a tree of terms to text: the reverse of the parser, with a stated type only where the parser would work out
another one."""
from . import kinds, terms, types

# How tightly a text holds together: what stands in a tighter place gets parentheses.
SEQUENCE, ACTION, COMPARISON, SUM, TIGHT, HEAD = range(6)


def indented(text):
    return "\n".join("    " + line for line in text.split("\n"))


def parenthesis(text):
    return f"({text})" if "\n" not in text else "(\n" + indented(text) + "\n)"


def braces(text):
    return "{ " + text + " }" if "\n" not in text and len(text) < 60 else "{\n" + indented(text) + "\n}"


class TermWriter:
    """Writes terms; `types` writes types and domains. A variable is called x and how many are bound outside it."""

    def __init__(self, type_writer):
        self.types = type_writer

    def text(self, e, place, scope, here):
        """The text of a term that stands in a place, with the types of the variables in scope, at a domain."""
        made, tightness, worked_out = self.plain(e, scope, here)
        if worked_out is not e.type:
            return parenthesis(f"{made} : {self.types.text(e.type)}")
        if tightness >= place:
            return made
        return braces(made) if "\n" in made else parenthesis(made)

    def plain(self, e, scope, here):
        """The text without a stated type, its tightness, and the type that the parser works out."""
        domains = terms.child_domains(e, len(e.children), here)

        def kid(i, place=SEQUENCE):
            return self.text(e.children[i], place, scope, here)

        def last(*gains, i=-1, place=SEQUENCE):
            return self.text(e.children[i], place, scope + gains, domains[i])

        return WRITERS[e.kind](self, e, kid, last, scope, here)

    def at(self, p):
        return f"at {self.types.domain(p)}"


def constant(text, t):
    return lambda w, e, kid, last, scope, here: (text(e), HEAD, t)


def variable(w, e, kid, last, scope, here):
    k = e.fields[0]
    if k < len(scope):
        return f"x{len(scope) - 1 - k}", HEAD, scope[-1 - k]
    return f"var {k}", HEAD, None


def sequence(w, e, kid, last, scope, here):
    return f"{kid(0, ACTION)};\n{kid(1)}", SEQUENCE, e.children[1].type


def show(w, e, kid, last, scope, here):
    return f"print {kid(0, ACTION)}", ACTION, types.UNIT


def branch(w, e, kid, last, scope, here):
    parts = [f"if {kid(0, COMPARISON)}", f"then {kid(1, ACTION)}", f"else {kid(2, ACTION)}"]
    return choice(parts), ACTION, same(e)


def same(e):
    """The type of both branches; none where they differ."""
    return e.children[1].type if e.children[1].type is e.children[2].type else None


def choice(parts):
    """A choice in one line where it is short."""
    apart = any("\n" in p for p in parts) or sum(map(len, parts)) > 90
    return ("\n" if apart else " ").join(parts)


def pair(w, e, kid, last, scope, here):
    return f"({kid(0)}, {kid(1)})", HEAD, types.pair(*(c.type for c in e.children))


def split(w, e, kid, last, scope, here):
    t, n = e.children[0].type, len(scope)
    parts = t.fields if t.kind == kinds.PAIR_T else (None, None)
    return f"let (x{n}, x{n + 1}) = {kid(0, ACTION)} in\n{last(*parts)}", SEQUENCE, e.children[1].type


def function(w, e, kid, last, scope, here):
    x = f"x{len(scope)}"
    if e.type.kind != kinds.FUNCTION_T:
        return f"function ({x}) {braces(last(None))}", HEAD, None
    a, p = e.type.first, e.type.domain
    head = f"function ({x} : {w.types.text(a)}) {w.at(p)}"
    return f"{head} {braces(last(a))}", HEAD, types.function(a, p, e.children[0].type)


def is_let(e, here):
    """Whether an application is what `let` stands for."""
    f, value = e.children
    return f.kind == kinds.FUNCTION and f.type is types.function(value.type, here, f.children[0].type)


def apply(w, e, kid, last, scope, here):
    f, value = e.children
    if is_let(e, here):
        body = w.text(f.children[0], SEQUENCE, scope + (value.type,), here)
        return f"let x{len(scope)} = {kid(1, ACTION)} in\n{body}", SEQUENCE, f.children[0].type
    result = f.type.last if f.type.kind == kinds.FUNCTION_T else None
    argument = kid(1)
    return kid(0, HEAD) + (argument if whole(argument) else f"({argument})"), HEAD, result


def whole(text):
    """Whether a text starts with a parenthesis that ends with the text."""
    depth = 0
    for i, sign in enumerate(text):
        depth += (sign == "(") - (sign == ")")
        if depth == 0:
            return i > 0 and i == len(text) - 1
    return False


def arithmetic(w, e, kid, last, scope, here):
    op = e.fields[0]
    own, second = (SUM, TIGHT) if op < 2 else (COMPARISON, SUM)
    return f"{kid(0, SUM)} {kinds.SIGNS[op]} {kid(1, second)}", own, types.NUMBER if op < 2 else types.TRUTH


def new_label(w, e, kid, last, scope, here):
    if e.type.kind != kinds.LABEL_T:
        return "new label", ACTION, None
    return f"new label {w.types.text(e.type.first)} {w.at(e.type.domain)}", ACTION, e.type


def mark(w, e, kid, last, scope, here):
    return f"mark {kid(0, TIGHT)} with {kid(1, ACTION)}", ACTION, types.UNIT


def pointcut(w, e, kid, last, scope, here):
    labels = ", ".join(kid(i, ACTION) for i in range(len(e.children)))
    said = f"pointcut {{{labels}}}"
    if e.type.kind != kinds.POINTCUT_T:
        return said, HEAD, None
    first = e.children[0].type if e.children else None
    tells = types.has_kind(first, kinds.LABEL_T) and first.first is e.type.first
    of = "" if tells else f" of {w.types.text(e.type.first)}"
    return f"{said}{of} {w.at(e.type.domain)}", HEAD, e.type


def advice(w, e, kid, last, scope, here):
    t = e.children[0].type
    gains = t.first if t.kind == kinds.POINTCUT_T else None
    head = f"advice on {kid(0, TIGHT)} as x{len(scope)}"
    if e.type.kind != kinds.ADVICE_T:
        return f"{head} {braces(last(gains))}", HEAD, types.advice(here)
    return f"{head} {w.at(e.type.domain)} {braces(last(gains))}", HEAD, e.type


def install(w, e, kid, last, scope, here):
    return f"install {kid(0, ACTION)}", ACTION, types.UNIT


def new_cell(w, e, kid, last, scope, here):
    if e.type.kind != kinds.REFERENCE_T:
        return f"new cell {kid(0, COMPARISON)}", ACTION, None
    p = e.type.domain
    return f"new cell {kid(0, COMPARISON)} {w.at(p)}", ACTION, types.reference(e.children[0].type, p)


def read(w, e, kid, last, scope, here):
    t = e.children[0].type
    return f"read {kid(0, TIGHT)}", TIGHT, t.first if t.kind == kinds.REFERENCE_T else None


def store(w, e, kid, last, scope, here):
    return f"{kid(0, COMPARISON)} := {kid(1, ACTION)}", ACTION, types.UNIT


def lower(w, e, kid, last, scope, here):
    return f"lower to {w.types.domain(e.fields[0])} {braces(last())}", HEAD, types.UNIT


def takedown(w, e, kid, last, scope, here):
    return f"takedown of {w.types.domain(e.fields[0])}", HEAD, types.UNIT


def abort(w, e, kid, last, scope, here):
    return f"abort {w.types.text(e.type)}", HEAD, e.type


def object_of(w, e, kid, last, scope, here):
    """Without its type where that has not a method for each body: each body then has the current domain."""
    fits = len(e.type.methods) == len(e.children)
    own = e.type if fits else None
    said = w.types.text(e.type) if fits else ""
    head = said if said.startswith("object {") else f"object {said}".strip()
    bodies = (f"{types.method(i)} {braces(last(own, i=i))}" for i in range(len(e.children)))
    return f"{head} as x{len(scope)} " + braces("\n".join(bodies)), HEAD, own


def call(w, e, kid, last, scope, here):
    m, methods = e.fields[1], e.children[0].type.methods
    if m < len(methods):
        return f"{kid(0, HEAD)}.{types.method(m)}", HEAD, methods[m][1]
    return f"{kid(0, HEAD)}.{m}", HEAD, None


def keep(w, e, kid, last, scope, here):
    return f"keep {kid(0, TIGHT)} with {kid(1, ACTION)} {braces(kid(2))}", HEAD, e.children[2].type


def match(w, e, kid, last, scope, here):
    """The variables of the first branch are those of the pointcuts, left to right, then that of the rest."""
    said, gains, cuts = [], [], iter(range(3, len(e.children)))
    for entry in e.fields[3:-1]:
        if entry:
            i = next(cuts)
            t = e.children[i].type
            said.append(f"{kid(i, TIGHT)} as x{len(scope) + len(gains)}")
            gains.append(t.first if t.kind == kinds.POINTCUT_T else None)
        else:
            said.append("any")
    if e.fields[-1]:
        said.append(f"rest as x{len(scope) + len(gains)}")
        gains.append(e.children[0].type)
    parts = [f"match {kid(0, TIGHT)} with [{', '.join(said)}]", f"then {last(*gains, i=1, place=ACTION)}",
             f"else {kid(2, ACTION)}"]
    return choice(parts), ACTION, same(e)


def frame_byte(w, e, kid, last, scope, here):
    return f"frame[{kid(0)}]", HEAD, types.NUMBER


WRITERS = {
    kinds.UNIT: constant(lambda e: "()", types.UNIT),
    kinds.TRUTH: constant(lambda e: "true" if e.fields[0] else "false", types.TRUTH),
    kinds.NUMBER: constant(lambda e: str(e.fields[0]), types.NUMBER),
    kinds.VARIABLE: variable, kinds.SEQUENCE: sequence, kinds.PRINT: show, kinds.IF: branch, kinds.PAIR: pair,
    kinds.SPLIT: split, kinds.FUNCTION: function, kinds.APPLY: apply, kinds.ARITHMETIC: arithmetic,
    kinds.NEW_LABEL: new_label, kinds.MARK: mark, kinds.POINTCUT: pointcut, kinds.ADVICE: advice,
    kinds.INSTALL: install, kinds.NEW_CELL: new_cell, kinds.READ: read, kinds.STORE: store, kinds.LOWER: lower,
    kinds.ABORT: abort, kinds.OBJECT: object_of, kinds.CALL: call,
    kinds.STACK: constant(lambda e: "stack", types.STACK), kinds.KEEP: keep, kinds.MATCH: match,
    kinds.TAKEDOWN: takedown, kinds.FRAME_BYTE: frame_byte,
}
