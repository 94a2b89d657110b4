"""The head of a text: its domains, the types that it names, the layout of the frame."""
from dataclasses import dataclass, field

from . import forms, hints, kinds, types
from .cursor import Cursor
from .frames import Field
from .lexer import KEYWORDS

# The range of numbers.
SMALLEST, LARGEST = -(1 << 31), (1 << 31) - 1

# What is bound to a value, and so has a name of its own.
BINDINGS = ("a variable", "a parameter", "a function")


@dataclass
class Head:
    """What the head of a text declares; a watch's text stands under the head of its procedure. `methods` maps an
    object type to the names that each mention of it gives the methods: equal types are one type, with names of their own."""
    domains: list = field(default_factory=list)
    above: list = field(default_factory=list)
    types: dict = field(default_factory=dict)
    fields: dict = field(default_factory=dict)
    methods: dict = field(default_factory=dict)
    constants: dict = field(default_factory=dict)

    def copy(self):
        """The same head, to which a watch may add types, fields and constants of its own."""
        return Head(self.domains, self.above, dict(self.types), dict(self.fields), dict(self.methods), dict(self.constants))

    def name_methods(self, t, names):
        """Keeps the names that a text gives the methods of an object type."""
        self.methods[t] = (*self.methods.get(t, ()), names)

    def known_as(self, name):
        """What a name is that is no variable, and how it is used, behind a colon."""
        if name in self.fields:
            return f": it is a field of the frame, frame.{name}"
        if any(name in names for known in self.methods.values() for names in known):
            return f": it is a method: call it on an object, o.{name}"
        if name in self.types:
            return ": it is a type, not a value"
        return ": it is a domain, not a value" if name in self.domains else ""

    def told_fields(self, name):
        """The fields that the frame has, where it has none of a name."""
        if not self.fields:
            return f": write frame {{ {name} at OFFSET }} at the top"
        return f"; its fields are {', '.join(self.fields)}{hints.near(name, self.fields)}"

    def masks(self):
        """The mask of each domain: as it is said, or with all that lies above what is named above it."""
        masks = [a if isinstance(a, int) else 1 << d for d, a in enumerate(self.above)]
        for _ in masks:
            for d, named in enumerate(self.above):
                for e in () if isinstance(named, int) else named:
                    masks[d] |= masks[e]
        return masks


class Declarations(Cursor):
    """The part of the parser that reads domains, types and the lines of the head."""

    def __init__(self, tokens, head):
        super().__init__(tokens)
        self.head, self.scope = head, ()

    def name(self, what):
        """A word that is no keyword. No variable has the name of a constant, so that nobody takes one for the other."""
        place, name = self.place, super().name(what)
        if what in BINDINGS and name in self.head.constants:
            self.fail(f"{name} is a constant, {self.head.constants[name]}: take another name for {what}", place)
        return name

    def number(self, what, low, high):
        """A number, with its sign, or the name of a constant."""
        sign = self.at + self.sees("-")
        token = self.tokens[sign]
        if token.kind != "name" or token.text not in self.head.constants:
            return super().number(what, low, high)
        place, n = self.place, self.head.constants[token.text] * (1 if sign == self.at else -1)
        if not low <= n <= high:
            self.fail(f"{what} must be from {low} to {high}, but {token.text} is {n}", place)
        self.at = sign + 1
        return n

    def domain(self):
        """The number of the domain that is named."""
        place, name = self.place, self.name("a domain")
        if name not in self.head.domains:
            known = self.head.domains
            self.fail(f"there is no domain {name}; the domains are {', '.join(known)}{hints.near(name, known)}", place)
        return self.head.domains.index(name)

    def type(self):
        """A type, in words."""
        place = self.place
        for t in (types.UNIT, types.TRUTH, types.NUMBER, types.STACK):
            if self.accept(kinds.name(t.kind)):
                return t
        if self.accept("("):
            a = self.type()
            if self.accept(","):
                a = types.pair(a, self.type())
            self.close(")", place)
            return a
        for word, read in (("function", self.function_type), ("object", self.methods), ("advice", self.advice_type)):
            if self.accept(word):
                return self.within(f"{word} type", read)
        for make in (types.reference, types.label, types.pointcut):
            if self.accept(make.__name__):
                return self.within(f"{make.__name__} type", lambda: make(self.type(), self.type_domain()))
        return self.named_type(place)

    def named_type(self, place):
        """A type by the name that the head gives it."""
        token, known = self.next, self.head.types
        told = f": {hints.TYPES_INSTEAD[token.text]}" if token.text in hints.TYPES_INSTEAD else None
        if token.kind != "name" or token.text in KEYWORDS:
            self.expected("a type", told)
        self.at += 1
        if token.text not in known:
            near = hints.near(token.text, (*known, "unit", "truth", "number", "stack"))
            otherwise = near or f"; name types at the top of the text: type {token.text} = ..."
            self.fail(f"there is no type {token.text}{told or otherwise}", place)
        return known[token.text]

    def function_type(self):
        self.take("from", "in the type of a function")
        a, p = self.type(), self.type_domain()
        self.take("to", "in the type of a function")
        return types.function(a, p, self.type())

    def advice_type(self):
        return types.advice(self.type_domain())

    def methods(self):
        """The type of an object by its methods: `{ name at domain : type; ... }`."""
        place, names, methods = self.place, [], []
        self.take("{", "before the methods of an object")
        while not self.accept("}"):
            if names:
                self.take(";", "between the methods of an object")
            names.append(self.new_name("a method", names))
            p = self.type_domain()
            self.take(":", f"and the type of what {names[-1]} gives")
            methods.append((p, self.type()))
        if not 1 <= len(names) <= kinds.METHOD_LIMIT:
            self.fail(f"an object has 1 to {kinds.METHOD_LIMIT} methods, this one has {len(names)}", place)
        t = types.object_of(methods)
        self.head.name_methods(t, tuple(names))
        return t

    def method(self, t, name, place):
        """The number of an object type's method by its name."""
        known = self.head.methods.get(t, ())
        found = {names.index(name) for names in known if name in names}
        if not found:
            said = list(dict.fromkeys(n for names in known for n in names))
            self.fail(f"the object has no method {name}; its methods are {', '.join(said) or 'none'}"
                      f"{hints.near(name, said)}", place)
        if len(found) > 1:
            self.fail(f"{name} is more than one method: object types with the same domains and types are one type, and "
                      f"these name their methods in another order", place)
        return found.pop()

    def type_domain(self):
        self.take("at", "and a domain in the type")
        return self.domain()

    def domains_first(self):
        """The names of all domains, which may be used before the line that declares them."""
        for n, token in enumerate(self.tokens):
            if token.kind == "name" and token.text == "domain":
                self.at = n + 1
                if len(self.head.domains) == kinds.DOMAIN_LIMIT:
                    self.fail(f"an image has at most {kinds.DOMAIN_LIMIT} domains")
                self.head.domains.append(self.new_name("a domain", self.head.domains))
        self.at = 0

    def domain_line(self):
        """`domain d <= e, f`, or `domain d mask n`."""
        above = []
        self.domain()
        if self.sees("<", "=", ":", ",", "at", "below"):
            self.expected("'<=' and the domains above it, or the next line", forms.write("domain"))
        if self.accept("mask"):
            above = self.number("a mask", 0, 0xFFFF)
        elif self.accept("<="):
            above.append(self.domain())
            while self.accept(","):
                above.append(self.domain())
        self.head.above.append(above)

    def type_line(self):
        """`type t = ...`."""
        name = self.new_name("a type", self.head.types)
        self.take("=", f"after type {name}")
        self.head.types[name] = self.type()

    def constant_line(self):
        """`const name = number`."""
        place, name = self.place, self.new_name("a constant", self.head.constants)
        if any(entry.name == name for entry in self.scope):
            self.fail(f"{name} is a variable of the procedure: take another name for a constant", place)
        self.take("=", f"after const {name}")
        self.head.constants[name] = self.number("a constant", SMALLEST, LARGEST)

    def frame_lines(self):
        """`frame { name at offset width bytes signed little ... }`."""
        self.take("{", "after frame")
        while not self.accept("}"):
            name = self.new_name("a field", self.head.fields)
            self.take("at", f"and the offset of {name}")
            offset = self.number("an offset", -(1 << 15), (1 << 15) - 1)
            width = self.number("a width", 1, 4) if self.accept("width") else 1
            signed = self.accept("signed")
            self.head.fields[name] = Field(offset, width, signed, self.accept("little"))

    def headlines(self, of_watch=False):
        """The lines at the top of a text; a watch's text has no domains of its own."""
        if of_watch and self.sees("domain"):
            self.fail("a watch has no domains of its own: those of its procedure hold, which is the first text")
        if not of_watch:
            self.domains_first()
        while True:
            if self.accept("domain"):
                self.within("domain", self.domain_line)
            elif self.accept("type"):
                self.within("type", self.type_line)
            elif self.accept("const"):
                self.within("const", self.constant_line)
            elif self.sees("frame") and self.tokens[self.at + 1].text == "{":
                self.at += 1
                self.within("frame of fields", self.frame_lines)
            else:
                return
