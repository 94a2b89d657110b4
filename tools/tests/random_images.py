"""Random images for tests: well typed ones, the same in other orders, and damaged ones."""
import random

import common  # noqa: F401 (the path of the tools)
from bukzarn.lang import kinds, terms, types
from bukzarn.lang.layout import Refused, laid_out
from bukzarn.lang.records import written


class Maker:
    """Makes terms of given types. `masks` are the domains; a scope is a tuple of names and types."""

    def __init__(self, rng):
        self.rng = rng
        self.masks = self.order(rng.randint(1, 5))
        self.names = 0

    def order(self, n):
        """A random partial order in which every domain is below domain 0, or not related to it."""
        masks = []
        for d in range(n):
            mask = 1 << d
            for e in range(d):
                if self.rng.random() < 0.6:
                    mask |= masks[e]
            masks.append(mask)
        return masks

    def below(self, p, q):
        return self.masks[p] >> q & 1

    def domain(self, holds=lambda p: True):
        return self.rng.choice([p for p in range(len(self.masks)) if holds(p)])

    def type(self, fuel=3):
        plain = [types.UNIT, types.TRUTH, types.NUMBER, types.NUMBER]
        if fuel == 0 or self.rng.random() < 0.5:
            return self.rng.choice(plain)
        a, p = self.type(fuel - 1), self.domain()
        return self.rng.choice([
            lambda: types.pair(a, self.type(fuel - 1)), lambda: types.function(a, p, self.type(fuel - 1)),
            lambda: types.reference(a, p), lambda: types.label(a, p), lambda: types.pointcut(a, p),
            lambda: types.advice(p), lambda: self.object_type(fuel - 1), lambda: types.STACK])()

    def object_type(self, fuel, *wanted):
        """An object type, maybe with a method that is wanted; one with many methods gives numbers and units."""
        many = self.rng.random() < 0.1
        count = self.rng.randint(4, 8) if many else self.rng.randint(1, 3)
        methods = [(self.domain(), self.rng.choice([types.UNIT, types.NUMBER]) if many else self.type(fuel))
                   for _ in range(count)]
        for method in wanted:
            methods[self.rng.randrange(count)] = method
        return types.object_of(methods)

    def name(self):
        self.names += 1
        return f"v{self.names}"

    def term(self, t, here=0, scope=(), fuel=6):
        """A term of type t at a domain."""
        known = [terms.variable(name, own) for name, own in scope if own is t]
        if known and self.rng.random() < 0.5:
            return self.rng.choice(known)
        if fuel > 0 and self.rng.random() < 0.55:
            return self.around(t, here, scope, fuel - 1)
        return self.direct(t, here, scope, fuel - 1)

    def around(self, t, here, scope, fuel):
        """A term whose kind any type may have."""
        def make(t, more=(), p=here):
            return self.term(t, p, scope + more, fuel)

        def let():
            name, a = self.name(), self.type(2)
            return terms.let(name, make(a), make(t, ((name, a),)), here)

        def split():
            x, y, a, b = self.name(), self.name(), self.type(1), self.type(1)
            return terms.split(make(types.pair(a, b)), x, y, make(t, ((x, a), (y, b))))

        def apply():
            a = self.type(1)
            return terms.apply(make(types.function(a, here, t)), make(a))

        def call():
            known = [terms.variable(name, own) for name, own in scope if (here, t) in own.methods]
            e = self.rng.choice(known) if known else make(self.object_type(0, (here, t)))
            return terms.call(e, self.rng.choice([m for m, method in enumerate(e.type.methods) if method == (here, t)]))

        def keep():
            known = [terms.variable(name, own) for name, own in scope if own.kind == kinds.LABEL_T and own.domain == here]
            label = self.rng.choice(known) if known else make(types.label(self.type(1), here))
            return terms.keep(label, make(label.type.first), make(t))

        def match():
            entries = [self.rng.choice([None, (make(self.pointcut_type(scope)), self.name())])
                       for _ in range(self.rng.choice([0, 1, 1, 2, 3, 8]))]
            rest = self.rng.choice([None, self.name()])
            more = [(name, cut.type.first) for cut, name in filter(None, entries)]
            more += [(rest, types.STACK)] if rest else []
            e = terms.stack() if self.rng.random() < 0.6 else make(types.STACK)
            return terms.match(e, entries, rest, make(t, tuple(more)), make(t))

        return self.rng.choice([
            let, let, split, apply, call, keep, match, lambda: terms.sequence(make(types.UNIT), make(t)),
            lambda: terms.branch(make(types.TRUTH), make(t), make(t)),
            lambda: terms.read(make(types.reference(t, self.domain(lambda p: self.below(here, p)))))])()

    def pointcut_type(self, scope):
        """The type of a pointcut, mostly one of labels that are in scope."""
        known = [own for _, own in scope if own.kind == kinds.LABEL_T]
        return types.pointcut(*self.rng.choice(known).fields) if known else types.pointcut(self.type(1), self.domain())

    def direct(self, t, here, scope, fuel):
        """A term whose kind goes with its type; abort where there is none."""
        fuel = max(fuel, 0)

        def make(t, more=(), p=here):
            return self.term(t, p, scope + more, fuel)

        if t.kind in (kinds.REFERENCE_T, kinds.LABEL_T) and not self.below(t.domain, here):
            return terms.abort(t)
        if t.kind == kinds.UNIT_T:
            return self.unit(here, make, fuel)
        if t.kind == kinds.TRUTH_T:
            op = self.rng.choice([2, 3, None, None])
            return terms.truth(self.rng.random() < 0.5) if op is None or not fuel else terms.arithmetic(
                op, make(types.NUMBER), make(types.NUMBER))
        if t.kind == kinds.NUMBER_T:
            return self.number(make, fuel)
        if t.kind == kinds.STACK_T:
            return terms.stack()
        if t.kind == kinds.PAIR_T:
            return terms.pair(make(t.first), make(t.last))
        if t.kind == kinds.FUNCTION_T:
            x = self.name()
            return terms.function(x, t.first, make(t.last, ((x, t.first),), t.domain), t.domain)
        if t.kind == kinds.OBJECT_T:
            x = self.name()
            return terms.object_of(t, x, *(make(of, ((x, t),), p) for p, of in t.methods))
        if t.kind == kinds.REFERENCE_T:
            return terms.new_cell(make(t.first), t.domain)
        if t.kind == kinds.LABEL_T:
            return terms.new_label(t.first, t.domain)
        if t.kind == kinds.POINTCUT_T:
            return self.pointcut(t, make, fuel)
        cut, x = types.pointcut(self.type(1), self.domain(lambda p: self.below(t.domain, p))), self.name()
        return terms.advice(make(cut), x, make(types.UNIT, ((x, cut.first),), t.domain), t.domain)

    def pointcut(self, t, make, fuel):
        high = [types.label(t.first, self.domain(lambda p: self.below(t.domain, p)))
                for _ in range(self.rng.randint(0, 3) if fuel else 0)]
        return terms.pointcut(t.first, *map(make, high), p=t.domain)

    def number(self, make, fuel):
        choice = self.rng.random()
        if not fuel or choice < 0.4:
            return terms.number(self.rng.choice([0, 1, 7, 255, 256, -1, 2**31 - 1, -2**31, self.rng.randint(-99, 300)]))
        if choice < 0.6:
            return terms.frame_byte(make(types.NUMBER))
        return terms.arithmetic(self.rng.randint(0, 1), make(types.NUMBER), make(types.NUMBER))

    def unit(self, here, make, fuel):
        if not fuel:
            return terms.unit()
        a, low = self.type(1), self.domain(lambda p: self.below(p, here))
        return self.rng.choice([
            terms.unit, lambda: terms.show(make(types.NUMBER)), lambda: terms.show(make(types.NUMBER)),
            lambda: terms.mark(make(types.label(a, here)), make(a)), lambda: terms.install(make(types.advice(low))),
            lambda: terms.store(make(types.reference(a, low)), make(a)), lambda: terms.abort(types.UNIT),
            lambda: terms.lower(low, make(types.UNIT, (), low)), lambda: terms.takedown(low),
            lambda: self.loop(here, make, low)])()

    def loop(self, here, make, low):
        """A watch on a label, and a countdown that marks it: many steps, often out of some room."""
        i, c, l, x = self.name(), self.name(), self.name(), self.name()
        f = types.function(types.NUMBER, here, types.UNIT)
        cell, label = types.reference(f, here), types.label(types.NUMBER, here)
        more, n = ((l, label), (c, cell)), terms.variable(i, types.NUMBER)
        watch = terms.advice(terms.pointcut(types.NUMBER, terms.variable(l, label), p=low), x,
                             make(types.UNIT, more + ((x, types.NUMBER),), low), low)
        again = terms.apply(terms.read(terms.variable(c, cell)), terms.minus(n, terms.number(1)))
        body = terms.sequence(make(types.UNIT, more + ((i, types.NUMBER),)),
                              terms.mark(terms.variable(l, label), n), again)
        whole = terms.function(i, types.NUMBER, terms.branch(terms.less(n, terms.number(1)), terms.unit(), body), here)
        count = terms.number(self.rng.choice([1, 3, 20, 300, 3000]))
        run = terms.sequence(terms.install(watch), terms.store(terms.variable(c, cell), whole),
                             terms.apply(terms.read(terms.variable(c, cell)), count))
        start = terms.new_cell(terms.function(i, types.NUMBER, terms.unit(), here), here)
        return terms.let(l, terms.new_label(types.NUMBER, here), terms.let(c, start, run, here), here)


def sound(rng):
    """A random image that is well typed; it may be too large or too deep, or have a result that is not plain."""
    maker = Maker(rng)
    t = rng.choice([types.UNIT, types.NUMBER, types.TRUTH, types.pair(types.NUMBER, types.TRUTH), maker.type()])
    root, fuel = maker.term(t, fuel=rng.randint(1, 7)), rng.randint(1, 4)
    if rng.random() < 0.4:
        low = maker.domain(lambda p: maker.below(p, 0))
        root = terms.sequence(maker.loop(0, lambda t, more=(), p=0: maker.term(t, p, more, fuel), low), root)
    return terms.lay_out(root, maker.masks).image


def shuffled(image, rng):
    """The same program with its types and terms in another order, each after its parts."""
    try:
        tables = laid_out(image)
    except Refused:
        return image
    type_place = order([r.parts("a") for r in tables.sections[1]], rng)
    term_place = order([r.children for r in tables.terms], rng)
    entry_place = {0: 0, **{n + 1: place + 1 for n, place in term_place.items()}}
    new = {"a": type_place, "t": type_place, "e": term_place, "x": entry_place}
    made = [written(r.kind, r.fields) for r in tables.domains]
    for records, place in ((tables.sections[1], type_place), (tables.terms, term_place)):
        moved = [b""] * len(records)
        for n, r in enumerate(records):
            letters = kinds.fields(r.kind, len(r.fields))
            moved[place[n]] = written(r.kind, [new[l][f] if l in new else f for l, f in zip(letters, r.fields)])
        made += moved
    return b"".join(made)


def order(parts, rng):
    """A random new place for each of a list, with all parts of one before it; the last stays last."""
    place, left = {}, list(range(len(parts)))
    while left:
        ready = [n for n in left[:-1] if all(p in place for p in parts[n])] or left[-1:]
        n = rng.choice(ready)
        place[n] = len(place)
        left.remove(n)
    return place


def damaged(image, rng):
    """An image with a few changes."""
    made, offset = [], 0
    while offset < len(image):
        length = int.from_bytes(image[offset:offset + 2], "little")
        made.append(bytearray(image[offset:offset + length]))
        offset += length
    for _ in range(rng.randint(1, 3)):
        rng.choice([field_damage] * 6 + [domain_damage] * 4 + [other_damage] * 2)(made, rng)
    whole = b"".join(made)
    return whole[:rng.randrange(len(whole) + 1)] if rng.random() < 0.05 else whole


def field_damage(made, rng):
    """Another number in a field, mostly a lower one."""
    n = max(rng.randrange(len(made)), rng.randrange(len(made)))
    if len(made[n]) > 5:
        at = rng.randrange(4, len(made[n]) - 1, 2)
        old = int.from_bytes(made[n][at:at + 2], "little")
        lower = rng.randrange(old + 1)
        new = rng.choice([lower, lower, old ^ 1, rng.randrange(9), rng.randrange(65536)])
        made[n][at:at + 2] = new.to_bytes(2, "little")


def domain_damage(made, rng):
    """Another domain in a type or a takedown, or another method in a call."""
    domains = sum(r[2] == kinds.DOMAIN for r in made if len(r) > 2)
    others = (*range(kinds.FUNCTION_T, kinds.OBJECT_T + 1), kinds.CALL, kinds.TAKEDOWN)
    with_domain = [r for r in made if len(r) > 5 and r[2] in others]
    if with_domain and domains:
        r = rng.choice(with_domain)
        at = 4 if r[2] in (kinds.ADVICE_T, kinds.OBJECT_T) else 8 if r[2] == kinds.CALL else 6
        r[at:at + 2] = rng.randrange(domains).to_bytes(2, "little")


def other_damage(made, rng):
    """Another byte, or a record twice, or one with bytes put in behind it, or a record left out; or one method, body,
    label or entry more or less."""
    n, how = rng.randrange(len(made)), rng.randrange(5)
    groups = [r for r in made if len(r) > 7 and r[2] in kinds.GROUPS]
    if how == 4 and groups:
        r = rng.choice(groups)
        group, _, _, last = kinds.GROUPS[r[2]]
        end = len(r) - 2 * len(last)
        one = slice(end - 2 * len(group), end)
        r[one] = rng.choice([b"", r[one] * 2])
        r[:2] = len(r).to_bytes(2, "little")
    elif how == 3 and len(made[n]) > 3:
        made[n] += rng.randbytes(rng.randint(1, 4))
        made[n][:2] = len(made[n]).to_bytes(2, "little")
    elif how == 0 and made[n]:
        made[n][rng.randrange(len(made[n]))] = rng.randrange(256)
    elif how == 1:
        made.insert(rng.randrange(len(made)), made[n][:])
    elif len(made) > 1:
        del made[n]


def lengthened(image, rng):
    """An image some of whose records have bytes behind their fields: the same program."""
    made, offset = b"", 0
    while offset < len(image):
        length, kind = (int.from_bytes(image[at:at + 2], "little") for at in (offset, offset + 2))
        more = 0 if kind in kinds.GROUPS else rng.choice([0, 0, 1, 2, rng.randrange(9)])
        made += (length + more).to_bytes(2, "little") + image[offset + 2:offset + length] + rng.randbytes(more)
        offset += length
    return made


def images(seed, count):
    """So many random images: sound, in another order, damaged."""
    rng = random.Random(seed)
    while count > 0:
        image = sound(rng)
        if len(image) > 20_000:
            continue
        yield image
        yield shuffled(image, rng)
        yield damaged(image, rng)
        yield damaged(image, rng)
        count -= 4
