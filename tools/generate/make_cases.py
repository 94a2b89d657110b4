"""The cases of document 01 ("Bench sheet") that are run, and others at the limits: each an image with a budget.

make_stored.py puts them among the stored images of the program `watch`.
"""
from bukzarn.lang.kinds import GROUPS, OBJECT, OBJECT_T, POINTCUT
from bukzarn.lang.records import record, word
from bukzarn.lang.terms import (abort, advice, apply, branch, call, function, install, lay_out, less, let, lower, mark,
                             minus, new_cell, new_label, number, object_of, pair, plus, pointcut, read, sequence,
                             show, store, typed, unit, variable)
from bukzarn.lang.types import (NUMBER, UNIT, function as function_type, label as label_type, object_of as object_type,
                             reference as reference_type)

BUDGET = 100_000


def types_of(e):
    """The types of a tree, each term's before its children's."""
    yield e.type
    for child in e.children:
        yield from types_of(child)


def image(root, masks=(1,)):
    """The bytes of an image, its types in the order of a walk from the root."""
    return lay_out(root, masks, types_of(root)).image


def recursive(name, body, start, result, p=0):
    """A function of the number `i` that runs at domain p, called with a start. Its body calls it again by `again`. It
    stands in a cell: with the cell's name it makes two bindings and one cell, and one binding more for each further
    call."""
    cell = variable(name, reference_type(function_type(NUMBER, p, result.type), p))
    again = apply(read(cell), minus(variable("i", NUMBER), number(1)))
    test = less(variable("i", NUMBER), number(1))
    whole = function("i", NUMBER, branch(test, result, body(again)), p)
    run = sequence(store(cell, whole), apply(read(cell), number(start)))
    return let(name, new_cell(function("i", NUMBER, result, p), p), run, p)


def repeat(times, body, p=0):
    """A unit term so many times, at domain p: bindings are times + 2 besides the body's own, and one cell."""
    return recursive("loop", lambda again: sequence(body, again), times, unit(), p)


def nested(depth):
    """Sums, one inside the other, to a depth."""
    e = number(0)
    for _ in range(depth - 1):
        e = plus(number(1), e)
    return e


def chain(domains):
    """Masks of domains each of which is below all that come before it."""
    return [(2 << d) - 1 & 0xFFFF for d in range(domains)]


def pointcut_of(labels):
    """A mark with a label that stands so often in a pointcut: its advice runs once."""
    l = variable("l", label_type(NUMBER, 0))
    watch = advice(pointcut(NUMBER, *[l] * labels), "x", show(variable("x", NUMBER)))
    return let("l", new_label(NUMBER), sequence(install(watch), mark(l, number(7))))


def enclosed(frames):
    """Sums that wait for one another: so many terms enclose the innermost reduction."""
    return recursive("sum", lambda again: plus(variable("i", NUMBER), again), frames - 1, number(0))


def cells(n, p=0, of=0):
    """n cells, the loop's own among them, made at domain p; all but that one are of another domain, if said."""
    return repeat(n - 1, let("c", new_cell(variable("i", NUMBER), max(p, of)), unit(), p), p)


def installed(n):
    watch = advice(pointcut(NUMBER), "x", unit())
    return let("a", watch, repeat(n, install(variable("a", watch.type))))


def pieces(n, p=0):
    return repeat(n, let("p", pair(unit(), unit()), unit(), p), p)


def halves(n, e):
    """n copies of a unit term in sequence, as a flat tree."""
    return e if n == 1 else sequence(halves(n // 2, e), halves(n - n // 2, e))


def full_report():
    """256 plain cells of 8 numbers, half of them made at domain 1, and a result of 8 numbers: 17,994 bytes."""
    eight = number(-1)
    for _ in range(3):
        eight = pair(eight, eight)
    v = variable("v", eight.type)

    def cells_at(p):
        four = function("u", UNIT, halves(4, store(new_cell(v, p), v)), p)
        return let("f", four, halves(32, apply(variable("f", four.type), unit())), p)

    return let("v", eight, sequence(cells_at(0), lower(1, cells_at(1)), v))


def aborting():
    """A print and a cell, then abort: log and cell are reported."""
    return sequence(show(number(1)), let("c", new_cell(number(2)), abort(UNIT)))


def picked_at_the_start():
    """An advice that installs another for the same label: it runs from the next mark on."""
    l = variable("l", label_type(NUMBER, 0))
    second = advice(pointcut(NUMBER, l), "y", show(plus(variable("y", NUMBER), number(100))))
    first = advice(pointcut(NUMBER, l), "x", sequence(show(variable("x", NUMBER)), install(second)))
    marks = sequence(mark(l, number(1)), mark(l, number(2)))
    return let("l", new_label(NUMBER), sequence(install(first), marks))


def low_marks_high():
    """Low code that marks a high label."""
    l = variable("l", label_type(NUMBER, 0))
    return let("l", new_label(NUMBER), lower(1, mark(l, number(1))))


def low_stores_high():
    """A lowered body that stores to a high cell."""
    c = variable("c", reference_type(NUMBER, 0))
    return let("c", new_cell(number(1)), lower(1, store(c, number(2))))


def arithmetic(op):
    """An image of two numbers under an operation, as bytes: one that is out of range cannot be laid out."""
    five = bytes.fromhex("0a0022000000" "05000000")
    return bytes.fromhex("060001000100" "04001200") + five + five + bytes.fromhex("0c002b000000") + bytes([op, 0, 0, 0, 1, 0])


def type_twice():
    """An image with the type number twice."""
    return bytes.fromhex("060001000100" "04001200" "04001200")


def lengthened(made, kinds_too=()):
    """An image each of whose records has bytes behind its fields, those of exact lengths none but for kinds_too (document
    02, card 1); one byte more from record to record."""
    longer, offset, more = b"", 0, 0
    while offset < len(made):
        length, kind = word(made, offset), word(made, offset + 2)
        more = more % 5 + 1
        skipped = bytes(range(more)) if kind not in GROUPS or kind in kinds_too else b""
        longer += record(kind, made[offset + 4:offset + length] + skipped)
        offset += length
    return longer


def byte_behind(made, longer):
    """An image whose records of one kind have one byte more."""
    whole, offset = b"", 0
    while offset < len(made):
        length, kind = word(made, offset), word(made, offset + 2)
        whole += record(kind, made[offset + 4:offset + length] + bytes(kind == longer))
        offset += length
    return whole


def longer_type_twice():
    """An image with a type twice, once with two bytes behind its fields."""
    return bytes.fromhex("060001000100" "04001200" "080015000000" "0000" "0a0015000000" "0000" "0700")


def short_number():
    """An image whose number has 2 bytes."""
    return bytes.fromhex("060001000100" "04001200" "080022000000" "0500")


def numbers(methods):
    """The type of an object with so many methods of domain 0, each of which gives a number."""
    return object_type([(0, NUMBER)] * methods)


def adding(methods):
    """An object with so many methods, the first of which adds up the numbers of all: each calls the next."""
    t = numbers(methods)
    bodies = [plus(number(m), call(variable("self", t), m + 1)) for m in range(methods - 1)]
    return call(object_of(t, "self", *bodies, number(methods - 1)), 0)


def endless(around):
    """A method that calls itself for ever, with something around the call."""
    t = object_type([(0, UNIT)])
    return call(object_of(t, "self", around(call(variable("self", t), 0))), 0)


def waiting(frames):
    """A method that calls itself inside a sum until a cell has counted down: so many terms enclose the innermost
    reduction, the sums that wait, the branch and its test."""
    t, c = numbers(1), variable("c", reference_type(NUMBER, 0))
    down = sequence(store(c, minus(read(c), number(1))), plus(number(1), call(variable("self", t), 0)))
    body = branch(less(read(c), number(1)), number(0), down)
    return let("c", new_cell(number(frames - 2)), call(object_of(t, "self", body), 0))


def in_cells():
    """An object in a cell, which its own method replaces by another: the next call finds that one."""
    t = numbers(1)
    c = variable("c", reference_type(t, 0))
    second = object_of(t, "self", number(2))
    first = object_of(t, "self", sequence(store(c, second), number(1)))
    calls = sequence(show(call(read(c), 0)), show(call(read(c), 0)))
    empty = new_cell(object_of(t, "self", number(0)))
    return let("c", empty, sequence(store(c, first), calls))


def outer_variables():
    """An object that a function gives, called outside it: its bodies have the function's argument."""
    t, x = numbers(2), variable("x", NUMBER)
    o, itself = variable("o", t), variable("self", t)
    made = function("x", NUMBER, object_of(t, "self", plus(x, call(itself, 1)), minus(number(0), x)))
    calls = pair(call(o, 0), call(o, 1))
    return let("f", made, let("o", apply(variable("f", made.type), number(7)), calls))


def low_method(around):
    """An object with a high method and a low one that prints; `around` has the call of the low one."""
    t = object_type([(0, NUMBER), (1, UNIT)])
    o = variable("o", t)
    return let("o", object_of(t, "self", number(5), show(number(7))), sequence(around(call(o, 1)), call(o, 0)))


def low_calls_high():
    """A low method whose body calls the high one."""
    t = object_type([(0, NUMBER), (1, UNIT)])
    return call(object_of(t, "self", number(5), show(call(variable("self", t), 0))), 0)


def bodies(n, methods):
    """An object with n bodies whose type has so many methods."""
    return call(object_of(numbers(methods), "self", *[number(5)] * n), 0)


def past_the_last(m):
    """A call of a method by its number, of an object with two."""
    return typed(call(object_of(numbers(2), "self", number(5), number(6)), m), NUMBER)


def alike():
    """Two object types that differ in their last method alone, both used."""
    s, t = object_type([(0, NUMBER), (0, NUMBER)]), object_type([(0, NUMBER), (1, NUMBER)])
    two = (object_of(t, "self", number(5), number(6)), object_of(s, "self", number(7), number(8)))
    return pair(call(two[0], 0), call(two[1], 1))


def object_type_twice():
    """An image with an object type twice, and one that differs in its last method between them."""
    number_t = bytes.fromhex("060001000100" "04001200")
    one, other = (record(OBJECT_T, 0, 0, 0, 0), record(OBJECT_T, 0, 0))
    return number_t + one + other + one


def object_cases():
    """Cases of document 02, card 3."""
    yield "methods-8", image(adding(8)), BUDGET
    yield "methods-9", image(adding(9)), BUDGET
    yield "method-calls-itself", image(endless(lambda e: e)), BUDGET
    yield "method-calls-itself", image(endless(lambda e: e)), 1024
    yield "method-prints-and-calls-itself", image(endless(lambda e: sequence(show(number(1)), e))), 9
    yield "method-waits-512", image(waiting(512)), BUDGET
    yield "method-waits-513", image(waiting(513)), BUDGET
    yield "objects-in-cells", image(in_cells()), BUDGET
    yield "outer-variables-in-methods", image(outer_variables()), BUDGET
    yield "low-method-from-above", image(low_method(lambda e: e), chain(2)), BUDGET
    yield "low-method-lowered", image(low_method(lambda e: lower(1, e)), chain(2)), BUDGET
    yield "low-method-calls-high", image(low_calls_high(), chain(2)), BUDGET
    yield "method-past-the-last", image(past_the_last(2)), BUDGET
    yield "method-65535", image(past_the_last(65_535)), BUDGET
    yield "bodies-too-few", image(bodies(1, 2)), BUDGET
    yield "bodies-too-many", image(bodies(2, 1)), BUDGET
    yield "object-types-alike", image(alike(), chain(2)), BUDGET
    yield "object-type-twice", object_type_twice(), BUDGET
    yield "longer-call", lengthened(image(adding(2))), BUDGET
    yield "longer-object", byte_behind(image(adding(2)), OBJECT), BUDGET
    yield "longer-object-type", byte_behind(image(adding(2)), OBJECT_T), BUDGET


def room_cases():
    """Cases of document 02, card 5: the budget ends where the next step lacks room, and one step before."""
    yield "frames-513", image(enclosed(513)), 2563
    yield "frames-513", image(enclosed(513)), 2562
    yield "bindings-1025", image(repeat(1023, unit())), 6143
    yield "bindings-1025", image(repeat(1023, unit())), 6142
    yield "cells-129", image(cells(129)), 1024
    yield "labels-65", image(repeat(65, let("l", new_label(UNIT), unit()))), 520
    yield "advice-65", image(installed(65)), 459
    yield "pieces-257", image(pieces(257)), 2056
    yield "aborted", image(aborting()), 5
    yield "aborted", image(aborting()), 4


def all_cases():
    """Each case: its name, its image, its budget."""
    i = variable("i", NUMBER)
    yield "depth-64", image(nested(64)), BUDGET
    yield "depth-65", image(nested(65)), BUDGET
    yield "domains-16", image(number(5), chain(16)), BUDGET
    yield "domains-17", image(number(5), chain(17)), BUDGET
    yield "pointcut-of-8-labels", image(pointcut_of(8)), BUDGET
    yield "pointcut-of-9-labels", image(pointcut_of(9)), BUDGET
    yield "countdown", image(repeat(3, show(i))), 28
    yield "countdown", image(repeat(3, show(i))), 29
    yield "aborted", image(aborting()), BUDGET
    yield "frames-512", image(enclosed(512)), BUDGET
    yield "frames-513", image(enclosed(513)), BUDGET
    yield "bindings-1024", image(repeat(1022, unit())), BUDGET
    yield "bindings-1025", image(repeat(1023, unit())), BUDGET
    yield "cells-128", image(cells(128)), BUDGET
    yield "cells-129", image(cells(129)), BUDGET
    yield "labels-64", image(repeat(64, let("l", new_label(UNIT), unit()))), BUDGET
    yield "labels-65", image(repeat(65, let("l", new_label(UNIT), unit()))), BUDGET
    yield "advice-64", image(installed(64)), BUDGET
    yield "advice-65", image(installed(65)), BUDGET
    yield "pieces-256", image(pieces(256)), BUDGET
    yield "pieces-257", image(pieces(257)), BUDGET
    yield "log-1638", image(repeat(819, sequence(show(i), show(i)))), BUDGET
    yield "log-1639", image(sequence(repeat(819, sequence(show(i), show(i))), show(number(0)))), BUDGET
    yield "report-17994", image(full_report(), chain(2)), BUDGET
    yield "picked-at-the-start", image(picked_at_the_start()), BUDGET
    yield "low-marks-high", image(low_marks_high(), chain(2)), BUDGET
    yield "low-stores-high", image(low_stores_high(), chain(2)), BUDGET
    yield "operation-4", arithmetic(4), BUDGET
    yield "type-twice", type_twice(), BUDGET
    yield "longer-records", lengthened(image(picked_at_the_start())), BUDGET
    yield "longer-pointcut", lengthened(image(pointcut_of(2)), [POINTCUT]), BUDGET
    yield "longer-type-twice", longer_type_twice(), BUDGET
    yield "short-number", short_number(), BUDGET
    yield from object_cases()
    yield from room_cases()
