#!/usr/bin/env python3
"""Images whose section of types is dear to check: refusal 8 asks whether a type is equal to an earlier one.

    python3 worst-types.py DIR      writes some 70 images into DIR, which is made if it is not there

Count the instructions of each image's check (or time it), and divide by the image's length: the dearest is told by its name.
`images()` yields the same as pairs of a name and bytes, for a search that changes them further.

Each image has domains, 128 types and one term, and is accepted, but for those that end in `-repeated`, whose last type is
equal to the one before it (refusal 8). What the types are:
    objects-M-last      objects of M methods that differ in the last method alone: equal descriptors, the longest comparison
    objects-M-first     objects of M methods that differ in the second method's type alone
    objects-M-sums      objects of M methods with equal descriptors and equal sums of their fields
    objects-M-swapped   the same methods in another order
    mixed               objects of 2 to 8 methods with equal descriptors
    KIND-251            types whose descriptors leave one remainder by 251, as far as there are such (the filter before note 0055)
    KIND-bit            types whose keys have one bit of the filter (note 0055), as far as there are such: compared with all keys
KIND is objects-M, functions, pairs, references. The keys are those of crates/check_repeats/specs/Keys.antt.
"""
import itertools
import os
import random
import struct
import sys

TYPES = 128
DOMAINS = 16
UNIT, NUMBER, PAIR, FUNCTION, REFERENCE, ADVICE, OBJECT = 16, 18, 19, 20, 21, 24, 25
FACTOR, RANGE = 1640531527, 1 << 32


def record(kind, *fields):
    return struct.pack('<%dH' % (2 + len(fields)), 4 + 2 * len(fields), kind, *fields)


def image(types):
    """The bytes of an image with these types, each a kind with its fields; it has as many domains as they name."""
    named = [f for t in types for f in domains_of(t)]
    count = 1 + max(named, default=0)
    return b''.join([record(1, 1 << d) for d in range(count)] + [record(*t) for t in types] + [record(32, 0)])


def domains_of(t):
    kind, fields = t[0], t[1:]
    if kind == OBJECT:
        return fields[0::2]
    return {FUNCTION: fields[1:2], REFERENCE: fields[1:2], ADVICE: fields[0:1]}.get(kind, ())


def types_of(t):
    kind, fields = t[0], t[1:]
    if kind == OBJECT:
        return fields[1::2]
    return {PAIR: fields, FUNCTION: fields[0:1] + fields[2:3], REFERENCE: fields[0:1]}.get(kind, ())


def descriptor(t):
    kind, fields = t[0], t[1:]
    a, b, c = (list(fields) + [0, 0, 0])[:3]
    return kind + 256 * a + 65536 * b + 16777216 * c


def key(t):
    if t[0] != OBJECT:
        return descriptor(t)
    hash = 1
    for f in t[1:]:
        hash = (hash + f) * FACTOR // 65536 % RANGE
    return hash


def bit(t):
    return key(t) * FACTOR % RANGE >> 22


def remainder(t):
    return descriptor(t) % 251


def plain():
    return [(UNIT,), (NUMBER,)]


def last(m):
    types = plain()
    while len(types) < TYPES:
        types.append((OBJECT,) + (0, 0) * (m - 1) + (0, len(types) - 1))
    return types


def first(m):
    types = plain()
    while len(types) < TYPES:
        types.append((OBJECT, 0, 0, 0, len(types) - 1) + (0, 0) * (m - 2))
    return types


def sums(m):
    """Equal first three fields, and what one method's type has more, the last one's has less."""
    types, there, seed = plain(), set(), random.Random(m)
    while len(types) < 40:
        types.append((FUNCTION, len(types) - 1, 0, 0))
    while len(types) < TYPES:
        n = len(types)
        middle = [seed.randrange(DOMAINS) if i % 2 else seed.randrange(n) for i in range(2 * m - 4)]
        rest = 20 * m - sum(middle) if m > 2 else seed.randrange(n)
        t = (OBJECT, 0, 0, 0) + tuple(middle) + (rest,)
        if 0 <= rest < n and t not in there:
            there.add(t)
            types.append(t)
    return types


def swapped(m):
    methods = [(d, d % 2) for d in range(m - 2)]
    orders = itertools.islice(itertools.permutations(methods), TYPES - 2)
    return plain() + [(OBJECT, 0, 0, 0, 0) + tuple(x for q in p for x in q) for p in orders]


def mixed():
    types = plain()
    while len(types) < TYPES:
        n = len(types)
        types.append((OBJECT,) + (0, 0) * (1 + n % 7) + (0, n - 1))
    return types


def drawn(kind, methods, n, seed):
    """A type of a kind that names types below n."""
    a, b, p = seed.randrange(n), seed.randrange(n), seed.randrange(DOMAINS)
    if kind == OBJECT:
        return (OBJECT,) + tuple(x for _ in range(methods) for x in (seed.randrange(DOMAINS), seed.randrange(n)))
    return {PAIR: (PAIR, a, b), FUNCTION: (FUNCTION, a, p, b), REFERENCE: (REFERENCE, a, p)}[kind]


def colliding(kind, methods, class_of, tries=6000):
    """Types whose class is one that an earlier type has, as far as so many draws find one."""
    types, seed = plain(), random.Random(kind * 16 + methods)
    there, classes = set(types), {}
    while len(types) < TYPES:
        best = None
        for k in range(tries):
            t = drawn(kind, methods, len(types), seed)
            if t in there:
                continue
            if best is None or classes.get(class_of(t), 0) > classes.get(class_of(best), 0):
                best = t
            if best is not None and k > 200 and classes.get(class_of(best), 0) > 0:
                break
        if best is None:
            best = (FUNCTION, len(types) - 1, 0, len(types) - 1)
        there.add(best)
        classes[class_of(best)] = classes.get(class_of(best), 0) + 1
        types.append(best)
    return types


def families():
    for m in range(1, 9):
        yield 'objects-%d-last' % m, last(m)
        yield 'objects-%d-251' % m, colliding(OBJECT, m, remainder)
        yield 'objects-%d-bit' % m, colliding(OBJECT, m, bit)
        if 1 < m:
            yield 'objects-%d-first' % m, first(m)
            yield 'objects-%d-sums' % m, sums(m)
    yield 'objects-7-swapped', swapped(7)
    yield 'objects-8-swapped', swapped(8)
    yield 'mixed', mixed()
    for name, kind in (('functions', FUNCTION), ('pairs', PAIR), ('references', REFERENCE)):
        yield name + '-251', colliding(kind, 0, remainder)
        yield name + '-bit', colliding(kind, 0, bit)


def images():
    for name, types in families():
        yield name, image(types)
        yield name + '-repeated', image(types[:-1] + [types[-2]])


def main():
    folder = sys.argv[1]
    os.makedirs(folder, exist_ok=True)
    for name, content in images():
        with open(os.path.join(folder, name + '.img'), 'wb') as f:
            f.write(content)


if __name__ == '__main__':
    main()
