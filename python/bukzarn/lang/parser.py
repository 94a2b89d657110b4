"""From text to a tree of terms (docs/LANGUAGE.md). Types are worked out from below while the text is read.

From loose to tight: `a; b` and `let`; actions (print, mark, install, new, if, match, `:=`); `or`; `and`; `not`;
comparisons; `+` and `-`; `*`; `-x`; `read`; application and the call of a method.
"""
from dataclasses import replace

from . import forms, hints, kinds, patterns, terms, types
from .bindings import Entry
from .frames import FieldFunctions
from .header import LARGEST, SMALLEST
from .lexer import KEYWORDS, SourceError, tokens
from .operators import Operators


class Watches:
    """The texts of the watches that a procedure takes in at its `watches at` place: pairs of text and file name. `later`
    are the names that it binds behind that place."""

    def __init__(self, texts):
        self.texts, self.place, self.later = texts, None, ()

    def put(self, place, tokens):
        """Sets the place, with the tokens behind it."""
        self.place = place
        self.later = {name.text for word, name in zip(tokens, tokens[1:]) if word.text in ("let", "define")}


class Parser(Operators):
    """`scope` holds the variables in scope, the innermost last; `here` is the current domain; `called` has the entries
    of functions that are called through their cell."""

    def __init__(self, text, file, head, watches, scope=(), here=0):
        super().__init__(tokens(text, file), head)
        self.watches, self.scope, self.here, self.called, self.functions = watches, scope, here, set(), FieldFunctions()

    def whole(self):
        """The term of the whole text after its head."""
        e = self.settled(self.sequence())
        if self.next.kind != "end":
            self.expected("the end of the text", hints.behind(self.next))
        return self.functions.around(e, self.here)

    def hung(self):
        """The term of a watch, which gives nothing."""
        if self.next.kind == "end":
            self.fail(hints.EMPTY_WATCH)
        e = self.whole()
        if e.type is not types.UNIT:
            self.fail(hints.watch_that_gives(e.type), terms.last(e).place)
        return e

    def settled(self, e):
        """The term, whose type is known."""
        if e.type is None and e.fault:
            self.fail(e.fault, e.fault_place or e.place)
        if e.type is None:
            self.fail(f"the type cannot be worked out: {e.why}; or state it: (... : type)", e.place)
        return e

    def make(self, place, build, *parts, **more):
        """A term of parts whose types are known."""
        for part in parts:
            if isinstance(part, terms.Term):
                self.settled(part)
        return replace(build(*parts, **more), place=place)

    def inside(self, read, *entries, here=None):
        """What `read` gives with more variables in scope, at the same or another current domain."""
        kept = self.scope, self.here
        self.scope += entries
        self.here = self.here if here is None else here
        e = self.settled(read())
        self.scope, self.here = kept
        return e

    def braces(self, *entries, here=None):
        opened = self.place
        self.take("{", "before a body")
        e = self.within("", self.inside, self.sequence, *entries, here=here)
        self.close("}", opened)
        return e

    def at_domain(self):
        """`at d`; the current domain where it is left out."""
        return self.domain() if self.accept("at") else self.here

    # Sequences and bindings.

    def sequence(self):
        place = self.place
        if self.accept("let"):
            return self.within("let", self.split if self.sees("(") else self.let, place)
        if self.accept("define"):
            return self.within("define", self.define, place)
        first = self.action()
        if not self.accept(";"):
            return first
        if self.next.kind == "end" or self.sees("}", ")", "in", "then", "else"):
            self.fail("a term is missing after ';': the last term has no ';' behind it", self.tokens[self.at - 1].place)
        return self.make(place, terms.sequence, first, self.sequence())

    # Actions.

    def action(self):
        place = self.place
        for word, read in (("print", self.show), ("install", self.install), ("mark", self.mark), ("new", self.new),
                           ("if", self.branch), ("match", self.match)):
            if self.accept(word):
                return self.within(word, read, place)
        left = self.disjunction()
        return self.make(place, terms.store, left, self.action()) if self.accept(":=") else left

    def show(self, place):
        return self.make(place, terms.show, self.action())

    def install(self, place):
        return self.make(place, terms.install, self.action())

    def mark(self, place):
        label = self.tight()
        self.take("with", "and a value after the label of a mark")
        return self.make(place, terms.mark, label, self.action())

    def new(self, place):
        if self.accept("label"):
            if self.sees(":"):
                return terms.Term(kinds.NEW_LABEL, None, place=place, why="new label type at domain")
            return self.make(place, terms.new_label, self.type(), self.at_domain())
        self.take("cell", "or 'label' after new")
        value = self.settled(self.disjunction())
        return self.make(place, terms.new_cell, value, self.at_domain())

    def branch(self, place):
        test = self.action()
        self.take("then", "after the test of an if")
        yes = self.settled(self.action())
        self.take_else("an if")
        return self.make(place, terms.branch, test, yes, self.action())

    def take_else(self, what):
        """Takes the else between two branches. A ';' in its place means that the first branch has several terms."""
        if self.sees(";"):
            self.expected(f"'else' after the first branch of {what}", f": {hints.BRANCH}{forms.write(self.form)}")
        self.take("else", f"after the first branch of {what}")

    def match(self, place):
        """`match stack with [pattern] then yes else no`."""
        stack = self.settled(self.tight())
        self.take("with", "and a pattern after the stack of a match")
        found = patterns.read(self)
        self.take("then", "after the pattern of a match")
        bound = found.variables(stack.type)
        yes = self.inside(self.action, *bound)
        self.take_else("a match")
        no = self.second_branch([entry.name for entry in bound])
        return self.make(place, terms.match, stack, found.entries, found.rest, yes, no)

    def second_branch(self, names):
        """The second branch of a match, in which the names of its pattern are not bound."""
        try:
            return self.settled(self.action())
        except SourceError as error:
            if error.missing not in names:
                raise
            raise SourceError(error.place, f"{error.words}; {error.missing} is bound only in the first branch") from None

    # Application.

    def tight(self):
        place = self.place
        if self.accept("read"):
            return self.make(place, terms.read, self.within("read", self.tight))
        e = self.primary()
        while self.sees("(", "."):
            e = self.call(place, e) if self.accept(".") else self.make(place, terms.apply, e, self.parenthesis())
        return e

    def call(self, place, e):
        """`e.name`, or `e.number`."""
        if self.next.kind == "number":
            return self.make(place, terms.call, e, self.number("a method's number", 0, 0xFFFF))
        name, t = self.name("a method"), self.settled(e).type
        if t.kind != kinds.OBJECT_T:
            apart = ": take it apart with let (x, y) = ... in" if t.kind == kinds.PAIR_T else ""
            self.fail(f"{name} can only be called on an object, but this is {hints.a(t.kind)}{apart}", place)
        return self.make(place, terms.call, e, self.method(t, name, place))

    # Single things.

    def parenthesis(self):
        """`()`, `(e)`, `(e, e)`, or `(e : type)`, which sets the type of e by hand."""
        place = self.place
        self.take("(", "before a term")
        if self.accept(")"):
            return self.make(place, terms.unit)
        e = self.within("", self.sequence)
        if self.accept(","):
            e = self.make(place, terms.pair, e, self.within("", self.sequence))
        if self.accept(":"):
            e = terms.typed(e, self.type())
        self.close(")", place)
        return e

    def primary(self):
        place, token = self.place, self.next
        if token.kind == "number" or (token.text == "-" and self.tokens[self.at + 1].kind == "number"):
            return self.make(place, terms.number, self.number("a number", SMALLEST, LARGEST))
        if token.text == "(":
            return self.parenthesis()
        if token.text == "{":
            return self.braces()
        readers = {"true": self.truth, "false": self.truth, "function": self.function, "advice": self.advice,
                   "pointcut": self.pointcut, "lower": self.lower, "watches": self.hang, "abort": self.abort,
                   "frame": self.frame, "var": self.numbered, "object": self.object, "keep": self.keep,
                   "stack": self.stack, "takedown": self.takedown}
        if token.kind == "name" and token.text in readers:
            self.at += 1
            return self.within(token.text, readers[token.text], place)
        if token.kind != "name" or token.text in KEYWORDS:
            self.expected("a term", hints.no_term(token, self.form))
        self.at += 1
        for entry in reversed(self.scope):
            if entry.name == token.text:
                return self.variable(place, entry)
        if token.text in self.head.constants:
            return self.make(place, terms.number, self.head.constants[token.text])
        self.unbound(token.text, place)

    def unbound(self, name, place):
        """Fails at a name that is not bound, and tells what it may be."""
        known = list(dict.fromkeys([*(e.name for e in reversed(self.scope) if e.named), *self.head.constants]))
        told = hints.instead(name) or self.head.known_as(name) or hints.near(name, (*known, *KEYWORDS))
        if name in self.watches.later:
            told = ": its procedure binds it only after the place of the watches"
        elif self.sees("=", ":="):
            told = f": {hints.BIND if self.sees('=') else hints.MAKE_CELL}"
        self.fail(f"{name} is not bound here{told}; in scope are: {', '.join(known) or 'none'}", place, name)

    def variable(self, place, entry):
        e = terms.variable(entry.name, entry.type)
        e = replace(e, place=place, why=entry.why or e.why)
        if not entry.in_cell:
            return e
        self.called.add(entry)
        return self.make(place, terms.read, e)

    def truth(self, place):
        return self.make(place, terms.truth, self.tokens[self.at - 1].text == "true")

    def function(self, place):
        x, a = self.parameter()
        p, why = self.at_domain(), f"the parameter {x} needs a type: ({x} : type)"
        return self.make(place, terms.function, x, a, self.braces(Entry(x, a, why=why), here=p), p=p)

    def object(self, place):
        """`object type as name { method { body } ... }`, the methods in any order. Without a type, which is stated
        then, the bodies stand in the order of the methods, at the current domain."""
        t = None if self.sees("as") else self.within("object type", self.methods) if self.sees("{") else self.type()
        if t and t.kind != kinds.OBJECT_T:
            self.fail("the type of an object must be an object type", place)
        self.take("as", "and a name for the object itself")
        x, bodies = self.name("a variable"), {}
        self.take("{", "before the bodies of an object")
        while not self.accept("}"):
            at, name = self.place, self.name("a method")
            m = self.method(t, name, at) if t else len(bodies)
            if m in bodies:
                self.fail(f"the method {name} has a body already", at)
            bodies[m] = self.braces(Entry(x, t), here=t.methods[m][0] if t else None)
        wanted = len(t.methods) if t else max(1, len(bodies))
        if len(bodies) < wanted:
            lacks = hints.counted(len(bodies), "body", "bodies")
            self.fail(f"the object has {lacks}, but its type has {hints.counted(wanted, 'method')}", place)
        return self.make(place, terms.object_of, t, x, *(bodies[m] for m in range(len(bodies))))

    def keep(self, place):
        label = self.settled(self.tight())
        self.take("with", "and a value after the label of a keep")
        value = self.settled(self.action())
        return self.make(place, terms.keep, label, value, self.braces())

    def stack(self, place):
        return self.make(place, terms.stack)

    def advice(self, place):
        self.take("on", "and a pointcut after advice")
        cut = self.settled(self.tight())
        self.take("as", "and a name for the value after the pointcut")
        if self.sees("("):
            self.expected("one name for the value", ": take it apart in the body, with let (x, y) = NAME in")
        x, p = self.name("a variable"), self.at_domain()
        a = cut.type.first if cut.type.kind in (kinds.POINTCUT_T, kinds.LABEL_T) else None
        why = f"what an advice hangs on must be a pointcut, but is {hints.a(cut.type.kind)}"
        return self.make(place, terms.advice, cut, x, self.braces(Entry(x, a, why=why), here=p), p=p)

    def pointcut(self, place):
        self.take("{", "after pointcut")
        labels = []
        while not self.accept("}"):
            if labels:
                self.take(",", "between the labels of a pointcut")
            labels.append(self.settled(self.action()))
        if len(labels) > kinds.LABEL_LIMIT:
            self.fail(f"a pointcut has at most {kinds.LABEL_LIMIT} labels, this one has {len(labels)}", place)
        a = self.type() if self.accept("of") else None
        return self.make(place, terms.pointcut, a, *labels, p=self.at_domain())

    def lower(self, place):
        self.take("to", "and a domain after lower")
        p = self.domain()
        return self.make(place, terms.lower, p, self.braces(here=p))

    def hang(self, place):
        """The place of the watches: their terms in sequence, lowered to a domain."""
        self.take("at", "and a domain after watches")
        p = self.domain()
        if self.watches.place:
            self.fail(f"the watches have a place already: {self.watches.place}", place)
        self.watches.put(place, self.tokens[self.at:])
        made = []
        for text, file in self.watches.texts:
            watch = Parser(text, file, self.head.copy(), self.watches, self.scope, p)
            watch.called = self.called
            watch.headlines(of_watch=True)
            made.append(watch.hung())
        return self.make(place, terms.lower, p, terms.sequence(*made) if made else terms.unit())

    def takedown(self, place):
        self.take("of", "and a domain after takedown")
        return self.make(place, terms.takedown, self.domain())

    def abort(self, place):
        return self.make(place, terms.abort, self.type())

    def frame(self, place):
        """`frame[e]`, `frame.name`, or `frame.name[base]`."""
        opened = self.place
        if self.accept("["):
            e = self.make(place, terms.frame_byte, self.within("", self.sequence))
        else:
            self.take(".", "and a field, or '[' and an index, after frame")
            name = self.name("a field")
            if name not in self.head.fields:
                self.fail(f"the frame has no field {name}{self.head.told_fields(name)}", place)
            opened = self.place
            base = self.settled(self.tight()) if self.accept("[") else None
            e = replace(self.functions.field(self.head.fields[name], self.checked(base), self.here), place=place, pure=True)
            if base is None:
                return e
        self.close("]", opened)
        return e

    def checked(self, base):
        """What is added to a field's offset stands once for each byte, so it is a variable or a number."""
        if base is not None and base.kind not in (kinds.VARIABLE, kinds.NUMBER):
            self.fail("what moves a field must be a variable or a number: bind it with let", base.place)
        if base is not None and base.kind == kinds.NUMBER and not -(1 << 15) <= base.fields[0] < 1 << 15:
            self.fail(f"what moves a field must be from -32768 to 32767, but is {base.fields[0]}", base.place)
        return base

    def numbered(self, place):
        """`var k`: a variable by its number, 0 the innermost."""
        if self.next.kind == "name":
            self.expected("a variable's number", f": {hints.BIND}")
        k = self.number("a variable's number", 0, 0xFFFF)
        return terms.Term(kinds.VARIABLE, None, (k,), place=place, why="a variable by number has a stated type")
