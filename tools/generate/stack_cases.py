"""Cases of document 02, card 6: keeps, the current stack and matches, each an image with a budget.

make_stored.py puts them among the stored images of the program `watch`.
"""
from itertools import product

from make_cases import BUDGET, byte_behind, chain, halves, image, lengthened, pieces, recursive, repeat
from bukzarn.lang.kinds import DOMAIN, IMAGE_LIMIT, MATCH
from bukzarn.lang.records import record, word
from bukzarn.lang.terms import (advice, apply, call, function, install, let, keep, lower, mark, match, minus, new_cell,
                             new_label, number, object_of, pair, plus, pointcut, read, sequence, show, stack, store,
                             typed, unit, variable)
from bukzarn.lang.types import (NUMBER, STACK, UNIT, label as label_type, object_of as object_type,
                             reference as reference_type)

A, B = variable("a", label_type(NUMBER, 0)), variable("b", label_type(NUMBER, 0))
LOW = variable("w", label_type(NUMBER, 1))
S = variable("s", STACK)
NO = number(-1)


def labelled(body):
    """A body under two labels of numbers."""
    return let("a", new_label(NUMBER), let("b", new_label(NUMBER), body))


def cut(*labels, p=0):
    return pointcut(NUMBER, *labels, p=p)


def top(p=0):
    """The innermost kept value if it is under the first label, else -1; asked at a domain."""
    return match(stack(), [(cut(A, p=p), "x")], "rest", variable("x", NUMBER), NO)


# Every pattern of up to three entries, on stacks of up to three values: the values, the innermost first, with their
# labels; and what an entry may be, with the pointcuts by name.

KEPT = ((10, A), (200, B), (3000, A))
ENTRIES = (None, "ca", "cb")


def kept(values, body):
    """A body under these values, the first of which is the innermost."""
    for n, label in values:
        body = keep(label, number(n), body)
    return body


def shown(entries, rest):
    """A match of s that prints the difference of the values that it binds, and -1 if it does not fit. With the rest,
    100,000 is added unless that is empty."""
    bound = [(variable(c, cut(A).type), f"v{i}") for i, c in enumerate(entries) if c]
    found = iter(bound)
    asked = [next(found) if c else None for c in entries]
    values = [variable(name, NUMBER) for _, name in bound] or [number(0)]
    yes = values[0]
    for v in values[1:]:
        yes = minus(yes, v)
    if rest:
        yes = plus(yes, match(variable(rest, STACK), [], None, number(0), number(100_000)))
    return show(match(S, asked, rest, yes, NO))


def patterns(size, rest):
    """Matches of a stack of so many values with every pattern: entries for anything and for each of two labels, and one
    close."""
    shapes = [entries for n in range(4) for entries in product(ENTRIES, repeat=n)]
    tried = [shown(entries, rest) for entries in shapes]
    while len(tried) > 1:
        tried = [sequence(*tried[i:i + 2]) for i in range(0, len(tried), 2)]
    body = let("ca", cut(A), let("cb", cut(B), let("s", kept(KEPT[:size], stack()), tried[0])))
    return labelled(body)


def pattern_cases():
    for size, (name, rest) in product(range(4), (("empty", None), ("rest", "r"))):
        yield f"match-{name}-on-{size}", image(patterns(size, rest)), BUDGET


# What is seen of the keeps around.

def seen_by_advice():
    """Advice of a low domain that asks what is kept around its mark: nothing, one value, two, and nothing again; and
    not the keep whose value is being worked out."""
    l = variable("l", label_type(UNIT, 0))
    watch = advice(pointcut(UNIT, l), "u", show(top(1)), 1)
    marked = mark(l, unit())
    inner = keep(A, number(5), sequence(marked, keep(A, number(6), marked), marked))
    value = keep(A, sequence(marked, number(7)), marked)
    body = sequence(install(watch), marked, inner, marked, value)
    return let("l", new_label(UNIT), labelled(body))


def through_lower():
    """A high keep and a low one inside it, both seen from the low body."""
    cuts = [(cut(LOW, p=1), "x"), (cut(A), "y")]
    both = match(stack(), cuts, None, minus(variable("x", NUMBER), variable("y", NUMBER)), NO)
    inside = lower(1, keep(LOW, number(50), show(both)))
    return let("w", new_label(NUMBER, 1), labelled(keep(A, number(8), inside)))


def through_calls():
    """A function and a method that ask for the innermost kept value: where they are called decides, not where they were
    made."""
    asking = function("u", UNIT, top())
    t = object_type([(0, NUMBER)])
    f, o = variable("f", asking.type), variable("o", t)
    calls = sequence(show(apply(f, unit())), show(call(o, 0)))
    made = let("o", object_of(t, "self", top()), sequence(calls, keep(A, number(9), calls)))
    return labelled(let("f", keep(A, number(4), asking), made))


def in_a_cell():
    """A stack that is stored, and matched after its keeps are over."""
    c = variable("c", reference_type(STACK, 0))
    stored = keep(A, number(3), keep(B, number(20), store(c, stack())))
    found = [(cut(B), "x"), (cut(A), "y")]
    asked = match(read(c), found, None, minus(variable("x", NUMBER), variable("y", NUMBER)), NO)
    return labelled(let("c", new_cell(stack()), sequence(stored, asked)))


def in_order():
    """The stack, then the pointcuts from left to right, are worked out, then a branch; in the first one outer variables
    are seen behind those that are bound."""
    def said(n, e):
        return sequence(show(number(n)), e)

    found = [(said(2, cut(A)), "x"), None, (said(3, cut(A, B)), "y")]
    yes = said(4, plus(variable("x", NUMBER), plus(variable("y", NUMBER), variable("z", NUMBER))))
    asked = match(said(1, stack()), found, "rest", yes, said(5, NO))
    return let("z", number(1000), labelled(kept(KEPT, asked)))


def seen_cases():
    yield "advice-sees-keeps", image(seen_by_advice(), chain(2)), BUDGET
    yield "keeps-through-lower", image(through_lower(), chain(2)), BUDGET
    yield "keeps-through-calls", image(through_calls()), BUDGET
    yield "stack-in-a-cell", image(in_a_cell()), BUDGET
    yield "match-in-order", image(in_order()), BUDGET
    yield "match-at-its-budget", image(match(stack(), [], None, number(1), number(2))), 1
    yield "match-at-its-budget", image(match(stack(), [], None, number(1), number(2))), 2
    yield "keep-at-its-budget", image(labelled(keep(A, number(1), number(2)))), 4
    yield "keep-at-its-budget", image(labelled(keep(A, number(1), number(2)))), 5


# Room.

def pieces_by_a_stack(taken, size):
    """So many pairs, then a stack of so many values."""
    asked = match(kept(KEPT[:size], stack()), [None] * size, None, number(1), number(2))
    return labelled(sequence(pieces(taken), asked))


def bindings_by_a_match(left, label):
    """A match of two values with so many bindings left; whether it fits says the label of the second."""
    asked = match(kept(KEPT[:2], stack()), [(cut(A), "x"), (cut(label), "y")], None, number(1), number(2))
    return labelled(sequence(repeat(1024 - left - 4, unit()), asked))


def enclosed_by_keeps(frames, result):
    """Keeps one inside the other: so many terms enclose the innermost reduction."""
    return recursive("deep", lambda again: keep(A, variable("i", NUMBER), again), frames - 1, result)


def large_stack(pairs):
    """A stack of 254 values, which takes as many pieces; then so many pairs; then a pointcut, and a match that takes
    the first eight values off."""
    eight = [None] * 7 + [(cut(A), "x")]
    asked = match(S, eight, "rest", variable("x", NUMBER), NO)
    behind = halves(pairs, let("p", pair(unit(), unit()), unit()))
    return labelled(let("s", enclosed_by_keeps(255, stack()), sequence(behind, show(asked))))


def match_tree(count):
    """So many matches, each with eight entries for anything, in the branches of one another."""
    if count == 0:
        return number(count)
    inner = count - 1
    return match(stack(), [None] * 8, "r", match_tree(inner // 2), match_tree(inner - inner // 2))


def long_image(length):
    """An image of a length, as many matches as it may have terms for; the last but one record is a pointcut. Bytes that
    are skipped stand behind its domain."""
    inner = match_tree(339)
    made = image(match(stack(), [(pointcut(NUMBER), "x"), None], None, NO, inner))
    domain = word(made, 0)
    return record(DOMAIN, made[4:domain], bytes(length - len(made))) + made[domain:]


def room_cases():
    yield "pieces-256-by-a-stack", image(pieces_by_a_stack(253, 3)), BUDGET
    yield "pieces-257-by-a-stack", image(pieces_by_a_stack(254, 3)), BUDGET
    yield "pieces-257-by-a-stack", image(pieces_by_a_stack(254, 3)), 2045
    yield "pieces-257-by-a-stack", image(pieces_by_a_stack(254, 3)), 2044
    yield "empty-stack-without-pieces", image(pieces_by_a_stack(256, 0)), BUDGET
    yield "bindings-1024-by-a-match", image(bindings_by_a_match(2, B)), BUDGET
    yield "bindings-1025-by-a-match", image(bindings_by_a_match(1, B)), BUDGET
    yield "no-match-without-bindings", image(bindings_by_a_match(0, A)), BUDGET
    yield "keeps-512", image(labelled(enclosed_by_keeps(512, number(0)))), BUDGET
    yield "keeps-513", image(labelled(enclosed_by_keeps(513, number(0)))), BUDGET
    yield "matches-16384-bytes", long_image(IMAGE_LIMIT), BUDGET
    yield "matches-16385-bytes", long_image(IMAGE_LIMIT + 1), BUDGET
    yield "stack-of-254", image(large_stack(1)), BUDGET
    yield "stack-of-254-and-pairs", image(large_stack(2)), BUDGET


# Refusals.

def entries(n):
    """A match with so many entries."""
    return labelled(match(stack(), [None] * n, "rest", number(1), number(2)))


def match_record(*behind, first=None):
    """An image whose root is a match over a stack, the numbers 1 and 2 and an empty pointcut (terms 0 to 3), with these
    fields behind its branches."""
    types = record(18) + record(26) + record(23, 0, 0)
    terms = (first or record(56, 1)) + record(34, 0, 1, 0) + record(34, 0, 2, 0) + record(46, 2)
    return record(1, 1) + types + terms + record(MATCH, 0, 0, 1, 2, *behind)


def stack_type_twice():
    return record(1, 1) + record(26) + record(18) + record(26)


def refused_cases():
    yield "match-of-8-entries", image(entries(8)), BUDGET
    yield "match-of-9-entries", image(entries(9)), BUDGET
    yield "match-without-close", match_record(), BUDGET
    yield "longer-match", byte_behind(image(entries(1)), MATCH), BUDGET
    yield "longer-keep", lengthened(image(labelled(kept(KEPT, top())))), BUDGET
    yield "match-empty-pointcut", match_record(4, 0), BUDGET
    yield "match-entry-of-itself", match_record(5, 0), BUDGET
    yield "match-close-2", match_record(4, 2), BUDGET
    yield "match-pointcut-twice", match_record(4, 4, 0), BUDGET
    yield "stack-type-twice", stack_type_twice(), BUDGET
    yield "match-of-a-number", match_record(4, 0, first=record(34, 0, 5, 0)), BUDGET
    yield "match-entry-no-pointcut", image(match(stack(), [(number(5), "x")], None, number(1), number(2))), BUDGET
    yield "match-branches-differ", image(typed(match(stack(), [], None, number(1), unit()), NUMBER)), BUDGET
    yield "match-rest-is-no-number", image(match(stack(), [], "r", variable("r", NUMBER), NO)), BUDGET
    yield "match-second-branch-binds-nothing", image(match(stack(), [], "r", NO, variable(0, NUMBER))), BUDGET
    yield "keep-of-another-type", image(labelled(keep(A, unit(), number(1)))), BUDGET
    yield "keep-under-low-label", image(let("w", new_label(NUMBER, 1), keep(LOW, number(1), NO)), chain(2)), BUDGET
    yield "low-keep-under-high-label", image(labelled(lower(1, keep(A, number(1), unit()))), chain(2)), BUDGET
    yield "stack-as-result", image(stack()), BUDGET


def stack_cases():
    yield from pattern_cases()
    yield from seen_cases()
    yield from room_cases()
    yield from refused_cases()
