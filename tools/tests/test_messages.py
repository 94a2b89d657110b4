"""What the tool says where people stumble, and that nothing they can give it ends in a traceback."""
import os
import resource
import signal
import subprocess
import sys
import tempfile
import unittest
from pathlib import Path

import common
from bukzarn.lang import forms, refusals
from bukzarn.lang.assembler import assemble
from bukzarn.lang.gate import verdict
from bukzarn.lang.lexer import TOKEN_LIMIT, SourceError, tokens

HEAD = "domain main\ndomain watch <= main\n"
LEVEL = HEAD + "let level = new label number in let c = new cell 1 in watches at watch; mark level with 5; "
TOOL = common.ROOT / "tools/watchtool.py"

OBJECT = ("type s = object { scale at main : number; note at watch : unit }\n"
          "let o = object s as self { scale { 8 } note { () } } in ")
LABEL = "let l = new label number in "

# A text, and what the error says of it.
ERRORS = (
    # A slip in a let, or a term too few.
    ("let p = 5; print p", "line 3, column 10: 'in' is missing after the value of p"),
    ("let p = 5;\nlet q = 6;\nprint p; q", "'in' is missing after the value of p"),
    ("let p = 5; print 6", "'in' is missing after the value of p"),
    ("let (p, q) = (1, 2); print q", "'in' is missing after the value of p, q"),
    ("let p = print 1; r in p", "r is not bound here"),
    ("let a = (let b = 5 b); c", "line 3, column 20: expected 'in' after the value of b"),
    ("let x : number = 5 in x", "found ':': write let NAME = VALUE in TERM"),
    ("let (a, b) = 5 in a", "what is taken apart must be a pair, but is a number"),
    ("print 1;", "line 3, column 8: a term is missing after ';'"),
    ("{ print 1; }", "a term is missing after ';'"),
    ("print 1 print 2", "line 3, column 9: expected the end of the text, but found 'print': write ';' between two terms"),
    ("{ print 1 print 2 }", "expected '}' for the '{' in line 3, column 1, but found 'print': write ';' between two terms"),
    ("let x = (1 in x", "expected ')' for the '(' in line 3, column 9"),
    ("print 1)", "found ')': there is nothing here for it to close"),
    ("(1, 2, 3)", "for three write (a, (b, c))"),
    # Signs and words of other languages.
    ("if 1 ≤ 2 then 1 else 2", "'≤' is not part of the language: write a <= b"),
    ("if 1 = 2 then 1 else 2", "expected 'then' after the test of an if, but found '=': to compare write a == b"),
    ("if true && false then 1 else 2", "'&&' is not part of the language: write a and b"),
    ("if true || false then 1 else 2", "'||' is not part of the language: write a or b"),
    ("if !true then 1 else 2", "'!' is not part of the language: write not a"),
    ("1 and true", "line 3, column 1: 'and' takes a truth, but this is a number: compare it, with == or <"),
    ("true or frame[0]", "line 3, column 9: 'or' takes a truth, but this is a number"),
    ("not 5", "line 3, column 5: 'not' takes a truth, but this is a number"),
    ("1 + not true", "found 'not': put parentheses or braces around it"),
    ("-true", "'-' takes a number, but this is a truth"),
    ("true > 1", "line 3, column 1: '>' takes a number, but this is a truth"),
    ("and true", "found 'and': it belongs to TEST and TEST"),
    ("frame[0] * frame[1]", "one factor must be a constant, k * x"),
    ("2 * true", "'*' takes a number, but this is a truth"),
    ("1000000 * 1000000", "the product must be from -2147483648 to 2147483647, but is 1000000000000"),
    ("4 / 2", "'/' is not part of the language: there is no division"),
    # Both sides do something, and the right one would come first.
    ("let c = new cell 1 in { c := 2; 3 } > { c := 4; 5 }", "'>' works out its right side first, and both sides do something: "
                                                          "bind one of them before"),
    ("{ print 1; 2 } <= { print 3; 4 }", "'<=' works out its right side first"),
    ("define f (n : number) { n } in f(1) > f(2)", "'>' works out its right side first"),
    # Constants.
    ("const a = 5\nconst a = 6\na", "a constant is declared twice: a"),
    ("const a = 5\nlet a = 6 in a", "line 4, column 5: a is a constant, 5: take another name for a variable"),
    ("const a = 5\ndefine f (a : number) { a } in f(1)", "a is a constant, 5: take another name for a parameter"),
    ("const a = 2147483648\na", "a constant must be from -2147483648 to 2147483647"),
    ("const a = true\na", "expected a number for a constant, but found 'true': write const NAME = NUMBER"),
    ("const a 5\na", "found '5': write const NAME = NUMBER"),
    ("let x = 5 in const a = 5 a", "found 'const'"),
    ("// 3", "a comment starts with #"),
    ('print "p"', "there are no strings"),
    ("c += 1", "to add to a cell write"),
    ("c++", "'++' is not part of the language: to add to a cell write"),
    ("1.5", "line 3, column 1: numbers are whole: count in tenths or hundredths, so that 5.5 degrees are 55 tenths"),
    ("let t = 6 in\n  if 5.5 < t then print t else ()", "line 4, column 6: numbers are whole: count in tenths"),
    (".5", "found '.': numbers are whole"),
    ("1e3", "'1e3' is not a number"),
    ("5 \u2212 3", "write the plain sign -"),
    ("1 < 2 < 3", "comparisons cannot be chained: write a < b and b < c"),
    ("1 < 2 >= 3", "comparisons cannot be chained: write a < b and b < c"),
    ("x = 5; x", "x is not bound here: to bind a name write let x = ... in"),
    ("var x = 5; x", "found 'x': to bind a name write let x = ... in"),
    ("def f(x) { x } in f(1)", "def is not bound here: write define f (x : type)"),
    ("größe", "'ö' is not part of the language: names have the letters a to z"),
    ("Print 5", "Print is not bound here: perhaps you mean print"),
    ("let level = 5 in leve1", "leve1 is not bound here: perhaps you mean level; in scope are: level"),
    # Branches, functions, types, domains, the frame.
    ("if 1 < 2 then 3 else ()", "line 3, column 22: the first branch gives a number, the second nothing: give both branches"),
    ("match stack with [] then 3\nelse ()", "line 4, column 6: the first branch gives a number, the second nothing"),
    (LABEL + "install advice on pointcut {l} as x { if x < 5 then print 5 else\n6 }", "line 4, column 1: the first branch gives "
     "nothing, the second a number"),
    ("if true then (1, 2) else (1, true)", "the branches give different types: give both branches the same type"),
    ("if 1 < 2 then 3", "found the end of the text: write if TEST then TERM else TERM, with else () where nothing"),
    ("if 1 < 2 then print 1; print 2 else ()", "found ';': put a branch of several terms in braces, { a; b }"),
    ("if 1 < 2 then let x = 1 in x else 2", "found 'let': put parentheses or braces around it: { let ... }"),
    ("define f() { 5 } in f()", "if it needs no value, write (u : unit)"),
    ("define f(x : number, y : number) { x } in 1", "for two values take a pair"),
    ("define f(x : number) { f(x) } in f(1)", "f is not bound in its own body: a function that calls itself"),
    ("define f(x : number) = x in f(1)", "found '=': write define NAME (NAME : TYPE) { BODY } in TERM"),
    ("function (x) { x }", "the parameter x needs a type: (x : type)"),
    ("let f = function (x : number) { x } in f 5", "and parentheses around an argument: f(x)"),
    ("type t = int\n()", "there is no type int: write number"),
    ("type t = nunber\n()", "there is no type nunber: perhaps you mean number"),
    ("type t = cell number at main\n()", "the type of a cell is reference TYPE at DOMAIN"),
    ("type t = function from number to number\n()", "found 'to': write function from TYPE at DOMAIN to TYPE"),
    ("domain low < main\n()", "found '<': write domain NAME, or domain NAME <= NAME, NAME"),
    ("lower to wotch { () }", "the domains are main, watch: perhaps you mean watch"),
    ("lower watch { () }", "found 'watch': write lower to DOMAIN { BODY }"),
    ("print watch", "watch is not bound here: it is a domain, not a value"),
    ("print unit", "found 'unit': it is a type, not a value: write ()"),
    ("abort", "write abort TYPE, for instance abort unit"),
    ("frame(3)", "found '(': write frame[INDEX], or frame.FIELD"),
    ("frame.pressure", "the frame has no field pressure: write frame { pressure at OFFSET } at the top"),
    ("frame { pressure at 3 }\nframe.presure", "its fields are pressure: perhaps you mean pressure"),
    ("frame { pressure at 3 }\nprint pressure", "it is a field of the frame, frame.pressure"),
    # Cells, labels, watches.
    ("let c = new 5 in 5", "found '5': write new cell VALUE, or new label TYPE"),
    ("let c = cell 5 in 5", "found 'cell': write new cell VALUE"),
    ("let c = new cell in 5", "found 'in': write new cell VALUE, or new label TYPE"),
    ("else 5", "found 'else': it belongs to if TEST then TERM else TERM"),
    ("read 5", "what is read must be a cell, but is a number"),
    ("c := 5", "c is not bound here: a cell is made with let x = new cell ... in"),
    (LABEL + "mark l 5", "found '5': write mark LABEL with VALUE"),
    (LABEL + "install advice on pointcut l as x { () }", "found 'l': write pointcut {LABEL, LABEL}"),
    (LABEL + "install advice on pointcut {l} { () }", "found '{': write advice on pointcut {LABEL} as NAME { BODY }"),
    (LABEL + "install advice on pointcut {l} as (a, b) { () }", "take it apart in the body, with let (x, y) = NAME in"),
    (LABEL + "install on l { () }", "found 'on': write install advice on pointcut {LABEL} as NAME { BODY }"),
    ("watches in watch", "found 'in': write watches at DOMAIN"),
    # Objects and calls.
    ("type s = object { a at main : number, b at main : unit }\n()", "found ',': write object { METHOD at DOMAIN : TYPE;"),
    ("type s = object { a : number }\n()", "found ':': write object { METHOD at DOMAIN : TYPE;"),
    ("type s = { a at main : number }\n()", "found '{': write object before the methods"),
    (OBJECT + "object s { scale { 1 } }", "found '{': write object TYPE as NAME { METHOD { BODY }"),
    (OBJECT + "object s as x { scale = 1 }", "found '=': write object TYPE as NAME { METHOD { BODY }"),
    (OBJECT + "object s as x { scale { 1 }; note { () } }", "found ';': write object TYPE as NAME { METHOD { BODY }"),
    (OBJECT + "o.sale", "its methods are scale, note: perhaps you mean scale"),
    (OBJECT + "o->scale", "'->' is not part of the language: call a method with o.m"),
    (OBJECT + "o.scale()", "what is applied must be a function, but is a number; write it without ()"),
    (OBJECT + "scale", "scale is not bound here: it is a method: call it on an object, o.scale"),
    (OBJECT + "s.scale", "s is not bound here: it is a type, not a value"),
    ("let x = (1, 2) in x.first", "can only be called on an object, but this is a pair: take it apart with let (x, y) = ... in"),
    ("let x = (1, 2) in x[0]", "a pair is taken apart by let (x, y) = ... in"),
    # Stacks.
    (LABEL + "keep l with 5; 1", "found ';': write keep LABEL with VALUE { BODY }"),
    (LABEL + "keep l 5 { 1 }", "found '5': write keep LABEL with VALUE { BODY }"),
    (LABEL + "match stack with pointcut {l} as x then x else 0", "found 'pointcut': write match stack with [pointcut"),
    (LABEL + "match stack with [l as x] then x else 0", "an entry of a pattern is any or a pointcut: write pointcut {LABEL}"),
    (LABEL + "match stack with [pointcut {l}] then 1 else 0", "found ']': write match stack with [pointcut {LABEL} as NAME"),
    (LABEL + "match stack with [pointcut {l} as x, _] then x else 0", "write any for one value, rest as NAME for all"),
    (LABEL + "match stack with [pointcut {l} as x] then 1 else x", "x is bound only in the first branch"),
    (LABEL + "match stack() with [any] then 1 else 2", "must be a function, but is a stack; write it without ()"),
    # Takedowns.
    ("takedown watch", "found 'watch': write takedown of DOMAIN"),
    ("takedown of level", "there is no domain level; the domains are main, watch"),
    ("uninstall watch", "uninstall is not bound here: to remove watches write takedown of DOMAIN"),
    # Numbers and names that are too long.
    ("a" * 20_000, "a name has at most 100 letters, this one has 20000"),
    ("9" * 10_000, "but has 10000 digits"),
    ("0x" + "f" * 10_000, "but has 10002 digits"),
)

# A text that is refused, and how to mend it.
MENDS = (
    ("let c = new cell 1 in print c", "Write read before the cell."),
    ("let c = new cell 1 in read c := 2", "Name a cell, without read"),
    (LABEL + "install advice on l as x { print x }", "Write pointcut {LABEL}, with the label in the braces."),
    (LABEL + "install l", "Write advice on pointcut { } as x { }"),
    (LABEL + "install pointcut {l}", "Write advice on the pointcut as x { }."),
    (LABEL + "advice on pointcut {l} as x { print x }; 1", "Write install before the advice."),
    (LABEL + "print l", "A label is marked, or stands in a pointcut"),
    (LABEL + "keep pointcut {l} with 5 { 1 }", "Write its label, without pointcut { }."),
    (LABEL + "match l with [any] then 1 else 2", "Write stack, which is what is kept where it stands."),
    ("mark 5 with 5", "Name a label: it is made with new label."),
    ("print (1, 2)", "Take the pair apart: let (x, y) = ... in."),
    ("print (print 1)", "What stands there gives nothing"),
    ("print true", "Write if ... then 1 else 0."),
    ("print stack", "Take the stack apart: match"),
    (OBJECT + "print o", "Call one of the object's methods: o.m."),
    ("let f = function (x : number) { x } in print f", "Apply the function: f(x)."),
    ("if 1 then 2 else 3", "Compare it, with == or <."),
    ("(if 1 < 2 then 3 else () : number)", "Give both branches the same type"),
    ("(match stack with [] then 3 else () : number)", "Give both branches the same type"),
    ("5; 6", "Print it, or give it a name with let."),
    ("(5 : truth)", "Change the part that is named, or its stated type."),
)


# Constructs that are repeated thousands of times.
DEEP = ("(", "{ ", "(1, ", "1 + (", "f(", "read ", "let x = ", "let x = 1 in ", "define f (x : number) { ",
        "define f (x : number) to number { ", "if true then 1 else ", "match stack with [any] then ", "print ",
        "object { m at a : unit } as x { m { ", "install advice on pointcut {} of unit as x { ", "lower to a { ",
        "keep stack with 1 { ", "frame[", "function (x : unit) { ", "(1 : (", "type t = reference ", "(); ")

# A program that checks all files of its arguments, and prints how each check ended.
CHECK_ALL = """
import sys
from bukzarn import watchtool
for file in sys.argv[1:]:
    try:
        watchtool.main(["check", file])
    except SystemExit as ended:
        print(ended)
"""


def spent():
    """The processor time that the commands have taken so far, in seconds."""
    used = resource.getrusage(resource.RUSAGE_CHILDREN)
    return used.ru_utime + used.ru_stime


def explained(text):
    """What is said of a text that is refused."""
    made = assemble(text, "p")
    refused = verdict(made.image, made.domains)
    return refusals.explain(made.image, refused.number, refused.place, made.places, made.domains)


class Messages(unittest.TestCase):
    def test_errors(self):
        for text, words in ERRORS:
            with self.subTest(text[:40]), self.assertRaises(SourceError) as caught:
                assemble(HEAD + text)
            self.assertIn(words, str(caught.exception))

    def test_a_forgotten_install(self):
        for watch, words in (("\nadvice on pointcut {level} as l { () }", "w, line 2, column 1: this advice is not installed: "
                                                                        "write install before it"),
                             ("let n = 1 in\nprint n;\nadvice on pointcut {level} as l { () }", "w, line 3, column 1: "),
                             ("pointcut {level}", "ends with a pointcut: write install advice on pointcut {LABEL} as"),
                             ("5", "ends with a number: print it, or end with ; ()")):
            with self.assertRaises(SourceError) as caught:
                assemble(LEVEL + "1", "p", [(watch, "w")])
            self.assertIn(words, str(caught.exception))

    def test_a_watch_without_a_term(self):
        for watch, place in (("", "line 1, column 1"), ("\n\n", "line 1, column 1"), ("# nothing yet\n", "line 1, column 1"),
                             ("const a = 5\n", "line 1, column 11")):
            with self.assertRaises(SourceError) as caught:
                assemble(LEVEL + "1", "p", [(watch, "w")])
            self.assertIn(f"w, {place}: this watch is empty: write install advice on pointcut", str(caught.exception))
            self.assertTrue(caught.exception.excerpt().endswith("^"))

    def test_the_line_is_shown_with_a_sign_below(self):
        for line, shown in (("  print 5.5", "\n    print 5.5\n          ^"), ("\tprint\t5.5", "\n    print 5.5\n          ^"),
                            ("print 5.5 # \x1b[31m\u202e", "\n    print 5.5 # \\x1b[31m\\u202e\n          ^"),
                            ("print 1; " * 40 + "print 5.5", "\n    ... " + ("print 1; " * 40)[-44:] + "print 5.5\n"
                             + " " * 58 + "^")):
            with self.assertRaises(SourceError) as caught:
                assemble(HEAD + line, "p")
            self.assertEqual(caught.exception.excerpt(), shown)

    def test_a_constant_of_a_watch_is_no_variable_of_its_procedure(self):
        with self.assertRaises(SourceError) as caught:
            assemble(LEVEL + "1", "p", [("const c = 5\nprint c", "w")])
        self.assertIn("w, line 1, column 7: c is a variable of the procedure", str(caught.exception))

    def test_names_that_the_procedure_binds_later(self):
        procedure = HEAD + "watches at watch; let top = 5 in define f (n : number) { n } in f(top)"
        for name in ("top", "f"):
            with self.assertRaises(SourceError) as caught:
                assemble(procedure, "p", [(f"print {name}", "w")])
            self.assertIn(f"{name} is not bound here: its procedure binds it only after", str(caught.exception))

    def test_refusals_of_types_say_what_to_write(self):
        for text, words in MENDS:
            with self.subTest(text):
                said = explained(HEAD + text)
                self.assertTrue(said.startswith("refused 14 "), said)
                self.assertRegex(said, r"\nIt comes from p, line \d, column \d+:\n")
                self.assertIn(f"\nTo mend it: {words}", said)

    def test_every_construct_tells_its_form(self):
        """A word that begins a construct, and nothing behind it: the message has the construct's form."""
        alone = {"print", "install", "mark", "new", "if", "match", "read", "function", "advice", "pointcut", "lower", "watches",
                 "abort", "frame", "object", "keep", "takedown", "let", "define"}
        for word in alone:
            with self.subTest(word), self.assertRaises(SourceError) as caught:
                assemble(HEAD + word)
            self.assertTrue(str(caught.exception).endswith(f"the end of the text: write {forms.FORMS[word]}"))

    def test_nested_patterns(self):
        nested = assemble(HEAD + "let ((a, b), (c, d)) = ((1, 2), (3, 4)) in print a; print d; b + c").image
        by_hand = assemble(HEAD + "let (x, y) = ((1, 2), (3, 4)) in let (a, b) = x in let (c, d) = y in "
                                  "print a; print d; b + c").image
        self.assertEqual(nested, by_hand)
        self.assertIsNone(verdict(nested))
        with self.assertRaises(SourceError) as caught:
            assemble(HEAD + "let (a, (b, c)) = (1, (2, 3)) in d")
        self.assertTrue(str(caught.exception).endswith("d is not bound here; in scope are: c, b, a"))


class Files(unittest.TestCase):
    """Files that are not what they should be, as a command of its own sees them."""

    def setUp(self):
        folder = tempfile.TemporaryDirectory()
        self.addCleanup(folder.cleanup)
        self.folder = Path(folder.name)

    def said(self, name, data, *more):
        """The exit status and what is told of a file, at once."""
        file = self.folder / name
        file.write_bytes(data)
        start = spent()
        ended = subprocess.run([sys.executable, TOOL, "asm", file, *more], capture_output=True, check=False, timeout=60)
        self.assertLess(spent() - start, 5)
        told = ended.stderr.decode()
        self.assertNotIn("Traceback", told)
        return ended.returncode, told

    def test_files(self):
        self.assertEqual(self.said("bom.proc", b"\xef\xbb\xbfdomain a\n5"), (0, ""))
        for name, data, words in (("big.proc", b"domain a\n" + b"5;" * 5_000_000, "has more than 1,000,000 bytes"),
                                  ("deep.proc", b"domain a\n" + b"(" * 50_000, "nested too deeply"),
                                  ("long.proc", b"domain a\n" + b"5;" * 400_000, "more than 60,000 words"),
                                  ("types.proc", b"domain a\n(5 : " + b"(" * 50_000, "nested too deeply"),
                                  ("lets.proc", b"domain a\n" + b"let x = " * 1_000 + b"1", "expected 'in' after the value of x"),
                                  ("slips.proc", b"domain a\n" + b"let x = " * 1_000 + b"1; 2", "'in' is missing after"),
                                  ("domains.proc", b"domain a\n" + b"domain b\n" * 15_000, "declared twice: b"),
                                  ("bytes.proc", bytes(range(256)), "is not a text"),
                                  ("first.watch", b"()", "is a watch: the procedure on which it hangs comes first"),
                                  ("empty.proc", b"", "a text starts with its domains")):
            code, told = self.said(name, data)
            self.assertEqual(code, 1, name)
            self.assertIn(words, told)

    def test_deep_nesting(self):
        """Each construct inside itself, as deep as a text may be long, is answered soon and without a crash; in one child for
        all."""
        files = []
        for n, part in enumerate(DEEP):
            files.append(self.folder / f"{n}.proc")
            files[-1].write_text("domain a\n" + part * ((TOKEN_LIMIT - 100) // (len(tokens(part, "")) - 1)))
        start = spent()
        command = [sys.executable, "-c", CHECK_ALL, *files]
        ended = subprocess.run(command, cwd=common.ROOT / "python", capture_output=True, text=True, check=False)
        self.assertEqual((ended.returncode, ended.stderr), (0, ""))
        self.assertLess(spent() - start, len(DEEP))
        said = [line for line in ended.stdout.splitlines() if not line.startswith("    ")]
        self.assertEqual(len(said), len(DEEP))
        for file, line in zip(files, said):
            self.assertRegex(line, rf"^watchtool: {file}, line [0-9]+, column [0-9]+: ")

    def test_a_folder_and_a_file_that_is_not_there(self):
        for file in (self.folder, self.folder / "none"):
            ended = subprocess.run([sys.executable, TOOL, "check", file], capture_output=True, check=False)
            self.assertEqual((ended.returncode, ended.stderr[:11]), (1, b"watchtool: "))

    def test_interrupted(self):
        """Ctrl-C while a file is read, which is a pipe that gives nothing, ends the tool without a word."""
        pipe = self.folder / "pipe.proc"
        os.mkfifo(pipe)
        with subprocess.Popen([sys.executable, TOOL, "check", pipe], stderr=subprocess.PIPE) as child, open(pipe, "wb"):
            child.send_signal(signal.SIGINT)
            self.assertEqual((child.wait(60), child.stderr.read()), (-signal.SIGINT, b""))

    def test_a_terminal(self):
        """An image is not written to a terminal, a text is."""
        main, terminal = os.openpty()
        self.addCleanup(os.close, main)
        for command, code in ((("asm", "sonde.proc"), 1), (("disasm", "first.img"), 0)):
            ended = subprocess.run([sys.executable, TOOL, *command], cwd=common.ROOT / "examples", stdout=terminal,
                                   stderr=subprocess.PIPE, check=False)
            self.assertEqual((ended.returncode, b"name a file with -o FILE" in ended.stderr), (code, code == 1))
        os.close(terminal)

    def test_closed_output(self):
        read, write = os.pipe()
        os.close(read)
        command = [sys.executable, TOOL, "disasm", common.ROOT / "examples/plain.img"]
        ended = subprocess.run(command, stdout=write, stderr=subprocess.PIPE, check=False)
        os.close(write)
        self.assertEqual((ended.returncode, ended.stderr), (1, b""))


if __name__ == "__main__":
    unittest.main()
