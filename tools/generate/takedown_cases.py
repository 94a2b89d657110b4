"""Cases of document 02, card 7: takedowns, each an image with a budget.

make_stored.py puts them among the stored images of the program `watch`.
"""
from make_cases import BUDGET, byte_behind, chain, image, installed, recursive, repeat
from bukzarn.lang.kinds import TAKEDOWN
from bukzarn.lang.records import record
from bukzarn.lang.terms import (advice, apply, branch, call, equal, function, install, let, lower, mark, new_label, number,
                             object_of, plus, pointcut, sequence, show, takedown, typed, unit, variable)
from bukzarn.lang.types import NUMBER, UNIT, advice as advice_type, label as label_type, object_of as object_type

L = variable("l", label_type(NUMBER, 0))
X = variable("x", NUMBER)


def labelled(*statements):
    """Statements in sequence under a label of numbers."""
    return let("l", new_label(NUMBER), sequence(*statements))


def watch(n, p=0, *first):
    """Installs advice of domain p that prints the marked number plus n, after what it does first."""
    return install(advice(pointcut(NUMBER, L, p=p), "x", sequence(*first, show(plus(X, number(n)))), p))


def marked(n):
    return mark(L, number(n))


# What is removed, and what still runs.

def at_its_own_mark():
    """Three watches of domain 1, the middle one of which takes domain 1 down, and one of domain 0: at the first mark all
    four run, at the second the last one alone."""
    return labelled(watch(10, 1), watch(20, 1, takedown(1)), watch(30, 1), watch(40), marked(1), marked(2))


def of_each_domain():
    """Two watches of each of three domains, the second below the first and the third below both: takedowns of the middle
    one, the lowest, the highest, with a mark after each. The others keep their order."""
    watches = [watch(10 * n, p) for n, p in enumerate((0, 1, 2, 0, 1, 2))]
    return labelled(*watches, takedown(1), marked(1), takedown(2), marked(2), takedown(0), marked(3))


def by_the_advice():
    """Advice of domain 1 on a pointcut of domain 0: a takedown of 0 leaves it, one of 1 removes it."""
    low = install(advice(pointcut(NUMBER, L), "x", show(X), 1))
    return labelled(low, takedown(0), marked(1), takedown(1), marked(2))


def inside_a_mark():
    """A watch between two others that takes its domain down and marks again: that mark finds no watch, and what was
    picked beside it still runs."""
    again = branch(equal(X, number(1)), mark(L, number(2)), unit())
    return labelled(watch(10), watch(20, 0, takedown(0), again), watch(30), marked(1), marked(3))


def installed_again():
    """Two watches, taken down and installed again in the other order."""
    a, b = (variable(name, advice_type(0)) for name in "ab")
    two = sequence(install(a), install(b), marked(1), takedown(0), install(b), marked(2), install(a), marked(3))

    def printing(n):
        return advice(pointcut(NUMBER, L), "x", show(plus(X, number(n))))

    return labelled(let("a", printing(10), let("b", printing(20), two)))


def in_bodies():
    """Takedowns in a function, in a method of domain 1, and in a lower."""
    t = object_type([(1, UNIT)])
    f = function("u", UNIT, takedown(0))
    calls = sequence(marked(1), apply(variable("f", f.type), unit()), marked(2), watch(30), watch(40, 1),
                     lower(1, call(variable("o", t), 0)), marked(3), watch(50, 1), lower(1, takedown(1)), marked(4))
    return labelled(watch(10), watch(20, 1), let("f", f, let("o", object_of(t, "self", takedown(1)), calls)))


def removed_cases():
    yield "takedown-at-its-own-mark", image(at_its_own_mark(), chain(2)), BUDGET
    yield "takedown-of-each-domain", image(of_each_domain(), chain(3)), BUDGET
    yield "takedown-by-the-advice", image(by_the_advice(), chain(2)), BUDGET
    yield "takedown-inside-a-mark", image(inside_a_mark()), BUDGET
    yield "takedown-and-installed-again", image(installed_again()), BUDGET
    yield "takedown-in-bodies", image(in_bodies(), chain(2)), BUDGET


# Room and steps.

def over_advice(*statements):
    """Statements under a name for advice that no mark finds."""
    return let("a", advice(pointcut(NUMBER), "x", unit()), sequence(*statements))


def again(n, *then):
    """Installs that advice n times, and does something after each."""
    return repeat(n, sequence(install(variable("a", advice_type(0))), *then))


def enclosed_takedown(sequences):
    """A takedown in so many sequences, inside sums that wait: 511 more terms enclose it."""
    body = takedown(0)
    for _ in range(sequences - 1):
        body = sequence(body, unit())
    return recursive("sum", lambda rest: plus(variable("i", NUMBER), rest), 511, sequence(body, number(0)))


def room_cases():
    yield "takedown-of-nothing", image(takedown(0)), 0
    yield "takedown-of-nothing", image(takedown(0)), 1
    yield "takedown-512", image(enclosed_takedown(1)), BUDGET
    yield "takedown-513", image(enclosed_takedown(2)), BUDGET
    yield "takedown-each-time", image(over_advice(again(1000, takedown(0)))), BUDGET
    yield "advice-64-after-takedown", image(over_advice(again(64), takedown(0), again(64))), BUDGET
    yield "advice-65-after-takedown", image(over_advice(again(64), takedown(0), again(65))), BUDGET
    yield "takedown-frees-no-other", image(sequence(installed(64), takedown(1), watch_none()), chain(2)), BUDGET


def watch_none():
    """Installs advice of domain 1 that no mark finds."""
    return install(advice(pointcut(NUMBER, p=1), "x", unit(), 1))


# Refusals.

def short_takedown():
    """An image whose takedown has no domain."""
    return record(1, 1) + record(16) + record(TAKEDOWN, 0)


def refused_cases():
    yield "takedown-without-domain", short_takedown(), BUDGET
    yield "takedown-of-an-absent-domain", image(takedown(1)), BUDGET
    yield "takedown-of-another-type", image(typed(takedown(0), NUMBER)), BUDGET
    yield "takedown-upward", image(lower(1, takedown(0)), chain(2)), BUDGET
    yield "takedown-beside", image(takedown(1), (1, 2)), BUDGET
    yield "longer-takedown", byte_behind(image(at_its_own_mark(), chain(2)), TAKEDOWN), BUDGET


def takedown_cases():
    yield from removed_cases()
    yield from room_cases()
    yield from refused_cases()
