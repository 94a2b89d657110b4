"""Cases of document 02, card 8: of the advice that one mark triggers, the newest runs first. Each is an image with a
budget.

make_stored.py puts them among the stored images of the program `watch`.
"""
from make_cases import BUDGET, chain, image, repeat
from takedown_cases import L, X, labelled, marked, watch
from bukzarn.lang.terms import (abort, advice, branch, equal, install, let, lower, mark, number, plus, pointcut, sequence,
                             show, unit, variable)
from bukzarn.lang.types import NUMBER, UNIT, advice as advice_type


def around(*between):
    """Two watches of domain 0 with something installed between them."""
    return labelled(watch(10), *between, watch(20), marked(1))


def each_of_many(n):
    """So many watches, installed in a loop that counts down: the last one prints 1, the one before it 2, and so on."""
    return labelled(repeat(n, install(advice(pointcut(NUMBER, L), "x", show(plus(X, variable("i", NUMBER)))))), marked(0))


def twice():
    """One advice installed before another and again after it: it runs first and last."""
    a = variable("a", advice_type(0))
    printing = advice(pointcut(NUMBER, L), "x", show(X))
    return labelled(let("a", printing, sequence(install(a), watch(10), install(a), marked(1))))


def within():
    """The newer of two watches marks the label again: both run at the inner mark before the older runs at the outer."""
    again = branch(equal(X, number(1)), mark(L, number(2)), unit())
    return labelled(watch(10), watch(20, 0, again), marked(1))


def newest_cases():
    low = lower(1, watch(30, 1))
    yield "newest-of-64-first", image(each_of_many(64)), BUDGET
    yield "newest-installed-twice", image(twice()), BUDGET
    yield "newest-marks-again", image(within()), BUDGET
    yield "newest-aborts", image(labelled(watch(10), watch(20, 0, abort(UNIT)), marked(1))), BUDGET
    yield "high-watches-alone", image(around(), chain(2)), BUDGET
    yield "low-watch-between", image(around(low), chain(2)), BUDGET
    yield "low-watches-around", image(labelled(low, watch(10), low, watch(20), low, marked(1)), chain(2)), BUDGET
