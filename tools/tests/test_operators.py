"""Operators that stand for others: comparisons, truths, signs, products by a constant; names for numbers."""
import random
import subprocess
import unittest

import common
from bukzarn.lang import kinds, terms, types
from bukzarn.lang.assembler import assemble
from bukzarn.lang.gate import verdict
from bukzarn.lang.lexer import SourceError

HEAD = "domain main\ndomain watch <= main\nframe { wide at 2 width 2 signed near at 1 }\nlet x = frame[3] in let c = new cell 1 in "
LEAST, GREATEST = -(1 << 31), (1 << 31) - 1
EDGES = (0, 1, -1, 2, 3, 7, 10, 100, 255, 256, 1000, -1000, 65_536, GREATEST, LEAST, GREATEST // 3, LEAST // 2)


def image(text, head=HEAD):
    made = assemble(head + text)
    refused = verdict(made.image)
    assert not refused, f"{text}: {refused.words}"
    return made.image


def clamped(n):
    return max(LEAST, min(GREATEST, n))


class Counted:
    """The value of a term of sums and bindings, with the steps and bindings that it takes."""

    def __init__(self, e, scope):
        self.steps = self.bindings = 0
        self.value = self.of(e, scope)

    def of(self, e, scope):
        if e.kind == kinds.NUMBER:
            return e.fields[0]
        if e.kind == kinds.VARIABLE:
            return scope[e.fields[0]]
        self.steps += 1
        if e.kind == kinds.ARITHMETIC:
            op, a, b = e.fields
            a, b = self.of(a, scope), self.of(b, scope)
            return clamped(a - b if op else a + b)
        function, argument = e.fields
        self.bindings += 1
        value = self.of(argument, scope)
        return self.of(function.fields[0], {**scope, function.names[0]: value})


class Operators(unittest.TestCase):
    def test_what_they_stand_for(self):
        for text, meant in (("x > 5", "5 < x"), ("x + 1 > frame[2] - 3", "frame[2] - 3 < x + 1"),
                            ("frame.wide > frame.near", "frame.near < frame.wide"), ("2 * x > 3 * frame[1]", "3 * frame[1] < 2 * x"),
                            ("{ print 1; 2 } > x", "x < { print 1; 2 }"), ("{ print 1; 2 } <= 5",
                                                                          "if 5 < { print 1; 2 } then false else true"),
                            ("{ print 1; 2 } >= { print 3; 4 }", "if { print 1; 2 } < { print 3; 4 } then false else true"),
                            ("{ print 1; 2 } != { print 3; 4 }", "if { print 1; 2 } == { print 3; 4 } then false else true"),
                            ("read c > x", "x < read c"),
                            ("x < 1 or x < 2 and not x < 3", "if x < 1 then true else (if x < 2 then (if x < 3 then false else "
                                                             "true) else false)"),
                            ("x < 1 and x < 2 and x < 3", "if (if x < 1 then x < 2 else false) then x < 3 else false"),
                            ("not not true", "if (if true then false else true) then false else true"),
                            ("-x", "0 - x"), ("-read c", "0 - read c"), ("3 - -x", "3 - (0 - x)"), ("- 5", "-5"), ("-(5)", "-5"),
                            ("-x + 1", "(0 - x) + 1"), ("-2 * x", "x * -2"), ("2 * 3 * x", "6 * x"), ("1 * x", "x"), ("0 * x", "0"),
                            ("2 * x", "x + x"), ("3 * x", "x + x + x"),
                            ("10 * x", "let e = (let d = x + x in d + d + x) in e + e"),
                            ("x * 10", "10 * x"), ("4 * frame[1]", "let f = frame[1] in let d = f + f in d + d"),
                            ("-2 * x", "let f = 0 - x in f + f"), ("-1 * x", "0 - x"), ("0 * { print 1; 2 }", "let f = { print 1; 2 } in 0"),
                            ("let d = new cell x > 5 in ()", "let d = new cell (5 < x) in ()")):
            with self.subTest(text):
                self.assertEqual(image(text), image(meant))

    def test_the_order_must_not_be_seen(self):
        effects = ("{ print 1; 2 }", "{ c := 2; 3 }", "(abort number)", "(function (n : number) { n })(1)",
                   "(let d = new cell 1 in 2)", "{ lower to watch { print 1 }; 2 }", "(let (a, b) = (1, 2) in a)")
        for sign in (">", "<="):
            for first in effects:
                for second in (*effects, "frame[1]", "read c"):
                    for text in (f"{first} {sign} {second}", f"{second} {sign} {first}"):
                        with self.subTest(text), self.assertRaises(SourceError) as caught:
                            assemble(HEAD + text)
                        self.assertIn("bind one of them before", str(caught.exception))
                for plain in ("x", "5", "-5"):
                    image(f"{first} {sign} {plain}")
                    image(f"{plain} {sign} {first}")

    def test_products(self):
        """Every product is the true one, as far as the range goes, and costs what the page says."""
        rng = random.Random(42)
        numbers = [*EDGES, *(rng.randrange(LEAST, GREATEST) >> rng.randrange(32) for _ in range(60))]
        x = terms.variable("x", types.NUMBER)
        for k in numbers:
            made = terms.multiple(k, x)
            self.assertTrue(terms.is_pure(made))
            for value in numbers:
                found = Counted(made, {"x": value})
                self.assertEqual(found.value, clamped(k * value), (k, value))
            digits, ones = len(bin(abs(k))) - 2, bin(k).count("1")
            negated = k < 0
            sums = digits + ones - 2 if k else 0
            bindings = max(0, digits - 2) + (negated and digits > 1)
            self.assertEqual((found.steps, found.bindings), (sums + bindings + negated, bindings), k)

    def test_every_product_is_accepted(self):
        """The greatest constants give trees that are not too deep."""
        for k in (GREATEST, LEAST, 0x55555555, -0x7fffffff):
            image(f"print {k} * x; print {k} * frame[1]; ()")

    def test_signs(self):
        for text, value in (("-K", -7), ("K * K", 49), ("-(-2147483648)", GREATEST), ("LOW", LEAST), ("-2147483648", LEAST)):
            made = image(text, "domain a\nconst K = 7\nconst LOW = -2147483648\n")
            self.assertEqual(made, image(f"({value})", "domain a\n"), text)


class Constants(unittest.TestCase):
    def test_names_for_numbers(self):
        head = "domain a\nconst FIRST = 3\nconst NEXT = FIRST\nconst LAST = -FIRST\nconst MASK = 0xff\n"
        for text, meant in (("FIRST + NEXT", "3 + 3"), ("LAST", "-3"), ("MASK - 1", "255 - 1"), ("frame[FIRST]", "frame[3]"),
                            ("FIRST * frame[0]", "3 * frame[0]"), ("let x = 1 in x > NEXT", "let x = 1 in x > 3")):
            self.assertEqual(image(text, head), image(meant, "domain a\n"), text)
        fields = "frame { p at FIRST width NEXT q at LAST }\nframe.p + frame.q"
        self.assertEqual(image(fields, head), image("frame { p at 3 width 3 q at -3 }\nframe.p + frame.q", "domain a\n"))

    def test_watches_see_them_and_have_their_own(self):
        procedure = "domain a domain w <= a const HIGH = 5\nlet l = new label number in watches at w; mark l with HIGH"
        watch = "const LOW = 2\ninstall advice on pointcut {l} as x { if x > HIGH or x < LOW then print HIGH - LOW else () }"
        plain = procedure.replace("const HIGH = 5\n", "").replace("HIGH", "5")
        other = watch.replace("const LOW = 2\n", "").replace("LOW", "2").replace("HIGH", "5")
        self.assertEqual(assemble(procedure, watches=[(watch, "w")]).image, assemble(plain, watches=[(other, "w")]).image)
        with self.assertRaises(SourceError):
            assemble(procedure, watches=[(watch, "w"), ("print LOW", "v")])


class Frame(unittest.TestCase):
    def test_outside_the_frame(self):
        """What docs/LANGUAGE.md says of fields outside the frame, as the built program runs them; its frame has 256 bytes."""
        program = common.program("watch")
        if not program.exists():
            self.skipTest("the program is not built")
        page = (common.ROOT / "docs/LANGUAGE.md").read_text(encoding="utf-8")
        self.assertIn("-1, -257, -65793 or -16843009", page)
        for offset, more, values in ((300, "", (-1, -257, -65793, -16843009)), (300, " signed", (-1, -257, -65793, -16843009)),
                                     (-9, " little", (-1, -257, -65793, -16843009)), (255, "", (255, 65279, 16711423, 2147483646))):
            for width, value in enumerate(values, 1):
                text = f"domain a frame {{ f at {offset} width {width}{more} }} print frame.f"
                said = subprocess.run([program], input=assemble(text).image, capture_output=True, check=True).stdout.decode()
                self.assertEqual(said.split("\n")[0], f"log 0 {value}", text)


if __name__ == "__main__":
    unittest.main()
