"""The text form: what it gives, how types are worked out, and what is said of its errors."""
import re
import unittest

import common  # noqa: F401
from bukzarn.lang import recordform
from bukzarn.lang.assembler import assemble
from bukzarn.lang.disassembler import disassemble
from bukzarn.lang.gate import verdict
from bukzarn.lang.lexer import SourceError

HEAD = "domain main\ndomain watch <= main\n"


def text_of(program):
    """The text that the disassembler gives for a program, without its head."""
    made = disassemble(assemble(HEAD + program).image)
    return made.split("\n\n", 1)[1].strip()


class Text(unittest.TestCase):
    def refused_and_written(self, text, number):
        """What the engine refuses with this number can be written, and its text gives the bytes again."""
        with self.subTest(text):
            image = assemble(HEAD + text).image
            self.assertEqual(verdict(image).number, number)
            again = disassemble(image)
            self.assertFalse(again.startswith("records"))
            self.assertEqual(assemble(again).image, image)

    def test_the_bench_sheets_second_case(self):
        image = assemble("domain main\n5").image
        self.assertEqual(image.hex(" "), "06 00 01 00 01 00 04 00 12 00 0a 00 22 00 00 00 05 00 00 00")

    def test_every_construct(self):
        """Each text is its own normal form, and is accepted."""
        for program in (
                "()", "true", "-2147483648", "print 1 + 2;\n()", "if 1 < 2 then 3 else 4", "(1, (true, ()))",
                "let (x0, x1) = (1, true) in\nx0", "let x0 = function (x0 : number) at d0 { x0 + 1 } in\nx0(2)",
                "frame[255] == 255", "let x0 = new label unit at d0 in\nmark x0 with ()",
                "install advice on pointcut {} of number at d1 as x0 at d1 { print x0 }",
                "let x0 = new cell 1 at d1 in\nx0 := 2", "let x0 = new cell 1 at d0 in\nread x0 - (1 + 1)",
                "let x0 = object { m0 at d0 : number; m1 at d1 : unit } as x0 {\n    m0 { 5 }\n    m1 { () }\n} in\n"
                "lower to d1 { x0.m1 };\nx0.m0", "object { m0 at d0 : truth } as x0 { m0 { x0.m0 } }.m0",
                "let x0 = new label number at d0 in\nkeep x0 with 5 { 6 }", "match stack with [] then 1 else 2",
                "let x0 = new label unit at d0 in\nkeep x0 with () { match stack with [any, rest as x1] then 1 else 2 }",
                "let x0 = pointcut {} of number at d1 in\nlet x1 = stack in\n"
                "match x1 with [x0 as x2, any, pointcut {} of truth at d0 as x3, rest as x4]\n"
                "then match x4 with [any] then x2 else if x3 then 3 else 4\nelse 5",
                "takedown of d1;\ntakedown of d0", "lower to d1 { takedown of d1 }",
                "lower to d1 { abort unit }", "abort (number, truth)", "(function (x0 : number) at d0 { x0 })(1)"):
            with self.subTest(program):
                text = program.replace("d0", "main").replace("d1", "watch")
                self.assertIsNone(verdict(assemble(HEAD + text).image))
                if not program.startswith("(function"):
                    self.assertEqual(text_of(text), program)

    def test_an_application_of_a_function_is_a_let(self):
        self.assertEqual(text_of("(function (x : number) { x })(1)"), "let x0 = 1 in\nx0")

    def test_skipped_bytes(self):
        """The text of records says bytes behind a record's known fields, also an odd number of them."""
        text = "records\ndomain 0: mask 0x0001 skipped ff\ntype 0: number skipped 07 00\nterm 0: number 5 as 0 skipped 01 02 03\n"
        image = assemble(text).image
        self.assertEqual(image.hex(" "), "07 00 01 00 01 00 ff 06 00 12 00 07 00 0d 00 22 00 00 00 05 00 00 00 01 02 03")
        self.assertEqual(disassemble(image), text)
        self.assertIsNone(verdict(image))

    def test_grouping(self):
        self.assertEqual(text_of("{ print 1; print 2 }; print 3"), "{\n    print 1;\n    print 2\n};\nprint 3")
        self.assertEqual(text_of("1 - (2 - 3) - 4"), "1 - (2 - 3) - 4")
        self.assertEqual(text_of("let p = (1, 2) in let f = function (q : (number, number)) { 0 } in f(3, 4) + f(p)"),
                         "let x0 = (1, 2) in\nlet x1 = function (x1 : (number, number)) at d0 { 0 } in\n"
                         "x1(3, 4) + x1(x0)")

    def test_left_out_domains_are_the_current_one(self):
        self.assertEqual(text_of("lower to watch { let c = new cell 1 in c := 2 }"),
                         "lower to d1 {\n    let x0 = new cell 1 at d1 in\n    x0 := 2\n}")

    def test_a_recursive_function_stands_in_a_cell(self):
        made = text_of("define f (n : number) to number { if n < 1 then 0 else f(n - 1) } in f(3)")
        self.assertEqual(made, "let x0 = new cell function (x0 : number) at d0 { abort number } at d0 in\n"
                               "x0 := function (x1 : number) at d0 { if x1 < 1 then 0 else (read x0)(x1 - 1) };\n"
                               "(read x0)(3)")

    def test_a_function_that_does_not_call_itself_does_not(self):
        made = text_of("define f (n : number) to number { n } in f(3)")
        self.assertEqual(made, "let x0 = function (x0 : number) at d0 { x0 } in\nx0(3)")

    def test_methods_by_name(self):
        """Bodies may stand in any order; each is read at its method's domain, and has the object itself."""
        head = "type t = object { a at main : number; b at watch : unit }\n"
        made = text_of(head + "let c = 3 in object t as self { b { let c = new cell 1 in c := 2 } a { self.a + c } }.a")
        self.assertEqual(made, "let x0 = 3 in\nobject { m0 at d0 : number; m1 at d1 : unit } as x1 {\n"
                               "    m0 { x1.m0 + x0 }\n"
                               "    m1 {\n        let x2 = new cell 1 at d1 in\n        x2 := 2\n    }\n}.m0")

    def test_a_method_may_give_a_function(self):
        made = text_of("object { f at main : function from number at main to number } as s {"
                       "    f { function (n : number) { n } } }.f(3)")
        self.assertTrue(made.endswith("}.m0(3)"), made)

    def test_equal_object_types_may_have_other_names(self):
        self.assertIsNone(verdict(assemble(HEAD + (
            "type s = object { a at main : number; b at main : number }\n"
            "type t = object { c at main : number; d at main : number }\n"
            "let x = object s as s { a { 1 } b { 2 } } in x.a + x.d")).image))

    def test_objects_against_the_rules(self):
        """What the engine refuses can be written: bodies and methods by number, with a stated type."""
        one = "object { a at main : number } as s { a { 1 } }"
        for text, number in (
                ("(object as s { a { 1 } b { 2 } } : object { a at main : number }).0", 14),
                ("(object as s { a { 1 } } : number)", 14), (f"({one}.1 : number)", 14),
                (f"({one}.65535 : number)", 14), ("(5.0 : number)", 14), ("object { a at main : number } as s { a { true } }.a", 14),
                ("object { a at watch : number } as s { a { 1 } }.a", 15), (one, 16)):
            self.refused_and_written(text, number)

    def test_words_of_patterns_are_names_elsewhere(self):
        """In a pattern a variable of such a name gets parentheses."""
        head = "let rest = pointcut {} of number in let any = 1 in "
        made = text_of(head + "match stack with [any, (rest) as x, rest as any] then x else any")
        self.assertIn("match stack with [any, x0 as x2, rest as x3] then x2 else x1", made)

    def test_values_of_a_pattern_are_bound_left_to_right(self):
        """The rest is the innermost; the pointcuts and the second branch see none of them."""
        image = assemble(HEAD + "let c = pointcut {} of number in let y = 7 in "
                                "match stack with [c as x, c as x, rest as s] then x else y").image
        self.assertIn("variable 1 as", recordform.disassemble(image))
        self.assertIn("[x0 as x2, x0 as x3, rest as x4] then x3 else x1", disassemble(image))

    def test_stacks_against_the_rules(self):
        """What the engine refuses can be written."""
        label = "let l = new label number in "
        for text, number in (
                ("match 5 with [] then 1 else 2", 14), ("match stack with [5 as x] then 1 else 2", 14),
                ("(match stack with [rest as s] then 1 else true : number)", 14), ("(match stack with [] then 1 else 2 : truth)", 14),
                (label + "keep l with true { 1 }", 14), (label + "(keep l with 1 { 1 } : truth)", 14),
                ("keep 5 with 5 { 1 }", 14), ("(stack : number)", 14),
                (label + "lower to watch { keep l with 1 { () } }", 15), ("stack", 16)):
            self.refused_and_written(text, number)

    def test_takedowns_against_the_rules(self):
        """What the engine refuses can be written."""
        for text, number in (("(takedown of main : number)", 14), ("lower to watch { takedown of main }", 15)):
            self.refused_and_written(text, number)

    def test_stated_types_are_not_checked(self):
        self.assertEqual(verdict(assemble(HEAD + "print (true : number)").image).number, 14)
        self.assertEqual(verdict(assemble(HEAD + "(var 3 : unit)").image).number, 13)

    def test_names_of_inner_variables_hide_outer_ones(self):
        self.assertEqual(text_of("let x = 1 in let x = x + 1 in x"), "let x0 = 1 in\nlet x1 = x0 + 1 in\nx1")

    def test_domains_are_closed_upwards(self):
        image = assemble("domain a\ndomain c <= b\ndomain b <= a\n()").image
        self.assertEqual([image[4], image[10], image[16]], [1, 7, 5])

    def test_types_by_name(self):
        text = "type level = (number, number)\nlet l = new label level in mark l with (1, 2)"
        self.assertIsNone(verdict(assemble(HEAD + text).image))


class Frames(unittest.TestCase):
    def field(self, how, program="frame.f"):
        return text_of(f"frame {{ f at {how} }}\n{program}").rsplit(" in\n")[-1]

    def test_fields(self):
        self.assertEqual(self.field("9"), "frame[9]")
        self.assertEqual(self.field("9 width 2"), "x0(x0(frame[9])) + frame[10]")
        self.assertEqual(self.field("9 width 2 little"), "x0(x0(frame[10])) + frame[9]")
        self.assertEqual(self.field("9 width 2 signed"), "x1(x1(x0(frame[9]))) + frame[10]")
        self.assertEqual(self.field("9 signed"), "x0(frame[9])")
        self.assertEqual(self.field("9", "frame.f[20]"), "frame[29]")
        self.assertEqual(self.field("9", "let b = 1 in frame.f[b]"), "frame[x0 + 9]")

    def test_each_domain_has_its_own_functions(self):
        made = assemble(HEAD + "frame { f at 1 width 2 }\nlower to watch { print frame.f }; frame.f")
        self.assertIsNone(verdict(made.image))

    def test_a_watch_binds_its_own_functions(self):
        """So the procedure around it is the same with it and without."""
        procedure = HEAD + "frame { f at 1 width 2 }\nwatches at watch"
        made = disassemble(assemble(procedure, "p", [("print frame.f", "w")]).image)
        self.assertIn("lower to d1 {\n    let x0 = function (x0 : number) at d1 {", made)


ERRORS = (
    ("5", "line 1: a text starts with its domains"),
    ("domain a\n\nx", "line 3: x is not bound here; in scope are: none"),
    ("domain a\nlet y = 1 in x", "line 2: x is not bound here; in scope are: y"),
    ("domain a\nprint", "line 2: expected a term, but found the end of the text: write print NUMBER"),
    ("domain a\n(1", "line 2: expected ')' for the '(' in line 2"),
    ("domain a\n5 $", "line 2: '$' is not part of the language"),
    ("domain a\n5 6", "line 2: expected the end of the text, but found '6'"),
    ("domain a\nlower to b { () }", "line 2: there is no domain b; the domains are a"),
    ("domain a\ndomain a\n()", "line 2: a domain is declared twice: a"),
    ("domain a\n1(2)", "what is applied must be a function"),
    ("domain a\nread 1", "what is read must be a cell, but is a number"),
    ("domain a\nfunction (x) { () }", "the parameter x needs a type"),
    ("domain a\npointcut {}", "say of which values"),
    ("domain a\nnew label t", "there is no type t"),
    ("domain a\n2147483648", "must be from -2147483648 to 2147483647"),
    ("domain a\nframe.p", "the frame has no field p"),
    ("domain a\nframe { p at 3 width 5 }\n()", "a width must be from 1 to 4, but is 5"),
    ("domain a\nframe { p at 3 }\nframe.p[1 + 1]", "expected ']' for the '['"),
    ("domain a\nframe { p at 3 }\nframe.p[(1 + 1)]", "must be a variable or a number"),
    ("domain a\nframe { p at 3 }\nframe.p[40000]", "must be from -32768 to 32767, but is 40000"),
    ("domain a\nlet in = 1 in 2", "expected a name for a variable, but found 'in', which is a word of the language"),
    ("domain a\nwatches at a;\nwatches at a", "line 3: the watches have a place already: text, line 2"),
    ("domain a\ndefine f (n : number) to truth { f(n); 1 } in f(1)", "does not have the type that is said"),
    ("domain a\npointcut {" + ", ".join(["1"] * 9) + "}", "a pointcut has at most 8 labels, this one has 9"),
    ("\n".join(f"domain d{i}" for i in range(17)) + "\n()", "line 17: an image has at most 16 domains"),
    ("domain a\ntype t = object { }\n()", "line 2: an object has 1 to 8 methods, this one has 0"),
    ("domain a\ntype t = object { " + "; ".join(f"m{i} at a : unit" for i in range(9)) + " }\n()", "this one has 9"),
    ("domain a\ntype t = object { m at a : unit; m at a : unit }\n()", "a method is declared twice: m"),
    ("domain a\ntype t = number\nobject t as s { }", "line 3: the type of an object must be an object type"),
    ("domain a\nobject { m at a : unit } as s { n { () } }", "the object has no method n; its methods are m"),
    ("domain a\nobject { m at a : unit } as s { m { () } m { () } }", "the method m has a body already"),
    ("domain a\nobject { m at a : unit; n at a : unit } as s { m { () } }", "1 body, but its type has 2 methods"),
    ("domain a\nobject as s { m { () } }", "an object's type stands after object"),
    ("domain a\n5.m", "m can only be called on an object, but this is a number"),
    ("domain a\n5.0", "numbers are whole: count in tenths or hundredths"),
    ("domain a\ntype s = object { m at a : unit; n at a : unit }\ntype t = object { n at a : unit; m at a : unit }\n"
     "object s as s { m { () } n { () } }", "line 4: m is more than one method"),
    ("domain a\nkeep 1 { 2 }", "expected 'with' and a value after the label of a keep"),
    ("domain a\nkeep 1 with 2", "expected '{' before a body"),
    ("domain a\nmatch stack then 1 else 2", "expected 'with' and a pattern after the stack of a match"),
    ("domain a\nmatch stack with 5 then 1 else 2", "expected '[' before a pattern"),
    ("domain a\nmatch stack with [any any] then 1 else 2", "expected ',' between the entries of a pattern"),
    ("domain a\nmatch stack with [rest as x, any] then 1 else 2", "after the rest, which stands last in a pattern"),
    ("domain a\nmatch stack with [rest] then 1 else 2", "expected 'as' and a name for the rest of the stack"),
    ("domain a\nmatch stack with [5] then 1 else 2", "expected 'as' and a name for the value"),
    ("domain a\nmatch stack with [5 as x] then x else 2", "an entry of a pattern is any or a pointcut"),
    ("domain a\nmatch stack with [" + ", ".join(["any"] * 9) + "] then 1 else 2", "at most 8 entries, this one has 9"),
    ("domain a\nmatch stack with [] else 2", "expected 'then' after the pattern of a match"),
    ("domain a\ntakedown a", "expected 'of' and a domain after takedown"),
    ("domain a\ntakedown of b", "line 2: there is no domain b; the domains are a"),
    ("domain a\nlet takedown = 1 in 2", "but found 'takedown', which is a word of the language"),
    ("records\nterm 0: takedown as 0", "takedown does not have 1 fields"),
    ("records\nterm 0: match 1 2 3 as 0", "match does not have 4 fields"),
    ("records\ntype 0: object 0", "object does not have 1 fields"),
    ("records\nterm 0: object as 0", "object does not have 1 fields"),
    ("records\nterm 0: number 5", "line 2: a term ends with 'as'"),
    ("records\nterm 1: unit as 0", "line 2: this is term 0, but the line says 1"),
    ("records\nterm 0: units as 0", "no term is called units"),
    ("records\ntype 0: pair 1", "pair does not have 1 fields"),
    ("records\ntype 0: pair 1 70000", "70000 is not from 0 to 65535"),
    ("records\nbytes 1 2 xy", "bytes are written as hexadecimal"),
    ("records\nnonsense", "expected domain, type or term"),
)


def without_column(error):
    """An error's words, with the line alone."""
    return re.sub(r", column \d+", "", str(error))


class Errors(unittest.TestCase):
    def test_errors_name_line_and_cause(self):
        for text, words in ERRORS:
            with self.subTest(text), self.assertRaises(SourceError) as caught:
                assemble(text)
            self.assertIn(words, without_column(caught.exception))

    def test_watches_have_names_of_their_own(self):
        watch = "type t = number\nframe { f at 1 }\nprint (frame.f : t)"
        assemble(HEAD + "watches at watch", "p", [(watch, "w"), (watch, "v")])

    def test_a_watch_inside_a_function_may_call_it(self):
        procedure = "define f (n : number) to unit { watches at main } in f(1)"
        made = assemble(HEAD + procedure, "p", [("if n < 1 then () else f(n - 1)", "w")]).image
        self.assertIsNone(verdict(made))

    def test_errors_of_watches(self):
        for procedure, watch, words in (
                ("()", "()", "the procedure has no place for watches"),
                ("watches at watch", "domain b\n()", "w, line 1: a watch has no domains of its own"),
                ("watches at watch", "\nlevel", "w, line 2: level is not bound here")):
            with self.subTest(words), self.assertRaises(SourceError) as caught:
                assemble(HEAD + procedure, "p", [(watch, "w")])
            self.assertIn(words, without_column(caught.exception))

    def test_deep_texts(self):
        with self.assertRaises(SourceError) as caught:
            assemble("domain a\n" + "(" * 50_000)
        self.assertIn("nested too deeply", str(caught.exception))


if __name__ == "__main__":
    unittest.main()
