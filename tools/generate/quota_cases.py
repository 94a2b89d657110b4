"""Cases of document 02, card 9: bindings, cells and pieces in two halves, domain 0's and that of all other domains. Each
is an image with a budget.

make_stored.py puts them among the stored images of the program `watch`.
"""
from make_cases import BUDGET, cells, chain, halves, image, pieces, repeat
from takedown_cases import L, X, labelled, marked
from bukzarn.lang.terms import (advice, call, install, keep, let, lower, mark, match, new_label, number, object_of, pair,
                             pointcut, sequence, show, split, stack, unit, variable)
from bukzarn.lang.types import NUMBER, UNIT, label as label_type, object_of as object_type

LOW = variable("w", label_type(NUMBER, 1))


def low(body, p=1):
    """A body at domain p, then a print at domain 0, which shows that the run went on."""
    return sequence(lower(p, body), show(number(7)))


def other_cases():
    """Each room of the other domains, just used up and passed."""
    for n in (1024, 1025):
        yield f"other-bindings-{n}", image(low(repeat(n - 2, unit(), 1)), chain(2)), BUDGET
    for n in (128, 129):
        yield f"other-cells-{n}", image(low(cells(n, 1)), chain(2)), BUDGET
    for n in (256, 257):
        yield f"other-pieces-{n}", image(low(pieces(n, 1)), chain(2)), BUDGET
    yield "other-bindings-1025", image(low(repeat(1023, unit(), 1)), chain(2)), 6143
    yield "other-bindings-1025", image(low(repeat(1023, unit(), 1)), chain(2)), 6142


# Whose half it is.

def both_halves():
    """All bindings of both halves."""
    return sequence(lower(1, repeat(1022, unit(), 1)), repeat(1022, unit()))


def shared(n):
    """Bindings of two domains other than 0, n in all: they share one half."""
    return sequence(lower(1, repeat(510, unit(), 1)), low(repeat(n - 514, unit(), 2), 2))


def by_the_advice(n):
    """n marks by domain 0 of a label that advice of domain 1 watches: each makes one binding of the other half, and the
    loop's call one of domain 0's."""
    watch = install(advice(pointcut(NUMBER, L), "x", unit(), 1))
    return labelled(watch, repeat(n, marked(1)), show(number(7)))


def every_binding(n):
    """At domain 1, a split, a call, a match and a function, which make five bindings; with n made before them."""
    t = object_type([(1, UNIT)])
    x, y = variable("x", NUMBER), variable("y", NUMBER)
    parts = split(pair(number(1), number(2)), "x", "y", sequence(show(x), show(y)))
    called = call(object_of(t, "self", show(number(3))), 0)
    matched = match(stack(), [], "r", show(number(4)), unit())
    bound = let("z", number(5), show(variable("z", NUMBER)), 1)
    return low(sequence(repeat(n - 2, unit(), 1), parts, called, matched, bound))


def low_stack(n):
    """At domain 1, n pairs, then a stack of two values, of which domain 0 kept one."""
    asked = match(keep(LOW, number(2), stack()), [None, None], None, show(number(1)), show(number(2)))
    inside = lower(1, sequence(pieces(n, 1), asked))
    return let("w", new_label(NUMBER, 1), labelled(keep(L, number(1), inside)))


def whose_cases():
    yield "both-halves", image(both_halves(), chain(2)), BUDGET
    yield "others-share-1024", image(shared(1024), chain(3)), BUDGET
    yield "others-share-1025", image(shared(1025), chain(3)), BUDGET
    yield "cells-of-another-domain-128", image(cells(128, of=1), chain(2)), BUDGET
    yield "cells-of-another-domain-129", image(cells(129, of=1), chain(2)), BUDGET
    yield "advice-bindings-1000", image(by_the_advice(1000), chain(2)), BUDGET
    for n in (1019, 1020, 1021, 1022, 1023, 1024):
        yield f"each-binding-after-{n}", image(every_binding(n), chain(2)), BUDGET
    yield "other-pieces-256-by-a-stack", image(low_stack(254), chain(2)), BUDGET
    yield "other-pieces-257-by-a-stack", image(low_stack(255), chain(2)), BUDGET


# Marks that lack a half.

def marks(mainline, others):
    """So many advices of domain 0 and of domain 1 on one label, then a method that marks it and calls itself for ever."""
    t = object_type([(0, UNIT)])
    again = object_of(t, "self", sequence(mark(L, number(5)), call(variable("self", t), 0)))

    def watches(n, p):
        return halves(n, install(advice(pointcut(NUMBER, L, p=p), "x", unit(), p)))

    return labelled(watches(mainline, 0), watches(others, 1), call(again, 0))


def printing_marks(n):
    """Advice of both domains that prints, and marks with all bindings of the other half but n used up before: the advice
    of domain 0 does not run either where a mark lacks the other half."""
    def watch(p):
        return install(advice(pointcut(NUMBER, L, p=p), "x", show(X), p))

    return labelled(watch(0), watch(1), lower(1, repeat(1022 - n, unit(), 1)), marked(1), marked(2))


def mark_cases():
    yield "mark-lacks-its-half", image(marks(32, 31), chain(2)), BUDGET
    yield "mark-lacks-the-others-half", image(marks(30, 33), chain(2)), BUDGET
    yield "mark-lacks-both-halves", image(marks(31, 33), chain(2)), BUDGET
    for n in (0, 1, 2):
        yield f"others-left-for-{n}-marks", image(printing_marks(n), chain(2)), BUDGET


def quota_cases():
    yield from other_cases()
    yield from whose_cases()
    yield from mark_cases()
