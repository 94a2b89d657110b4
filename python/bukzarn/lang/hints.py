"""What to write instead of what other languages have and this one has not, and what is missing after a slip."""
import difflib

from . import forms, kinds

NO_PRODUCTS = "one factor must be a constant, k * x: to multiply two values, define a function that adds and calls itself"
NO_QUOTIENTS = "there is no division: define a function that subtracts and calls itself"
NO_FRACTIONS = "numbers are whole: count in tenths or hundredths"
SAME_BRANCHES = "give both branches the same type: where one gives nothing, the other gives nothing either"
BIND_FIRST = "works out its right side first, and both sides do something: bind one of them before, let x = ... in"
NO_STRINGS = "there are no strings: print takes a number"
LOOP = "a loop is a function that calls itself: define f (x : type) to type { ... } in ..."
FUNCTION = "write define f (x : type) { ... } in ..."
BIND = "to bind a name write let x = ... in"
MAKE_CELL = "a cell is made with let x = new cell ... in"
TAKE_DOWN = "to remove watches write takedown of DOMAIN"
AND, OR, NOT = "write a and b", "write a or b", "write not a"
COMMENT = "a comment starts with #"
DIGITS = "0123456789"

# For each sign or word of other languages, what to write.
INSTEAD = {
    "≤": "write a <= b", "≥": "write a >= b", "≠": "write a != b",
    "=": "to compare write a == b, to store to a cell a := b",
    "->": "call a method with o.m, and state the result of a function after 'to'",
    "=>": "a function is written function (x : type) { ... }",
    "&": AND, "&&": AND, "|": OR, "||": OR, "!": NOT,
    "/": NO_QUOTIENTS, "%": NO_QUOTIENTS, "×": "write k * x", "·": "write k * x",
    ".": NO_FRACTIONS,
    "//": COMMENT, "/*": COMMENT,
    "+=": "to add to a cell write c := read c + 1",
    "++": "to add to a cell write c := read c + 1",
    "-=": "to subtract from a cell write c := read c - 1",
    '"': NO_STRINGS, "'": NO_STRINGS, "“": NO_STRINGS, "”": NO_STRINGS, "’": NO_STRINGS,
    "−": "write the plain sign -", "–": "write the plain sign -",
    "\u00a0": "write a plain space",
    "cell": "write new cell VALUE", "label": "write new label TYPE",
    "elif": "write else if",
    "return": "a body gives the value of its last term",
    "while": LOOP, "for": LOOP, "loop": LOOP,
    "def": FUNCTION, "fn": FUNCTION, "func": FUNCTION, "fun": FUNCTION, "lambda": "write function (x : type) { ... }",
    "set": "to store to a cell write c := value", "null": "write ()", "none": "write ()",
    "uninstall": TAKE_DOWN, "remove": TAKE_DOWN, "take": TAKE_DOWN, "pop": "a kept value goes when its keep ends",
    "push": "write keep LABEL with VALUE { BODY }", "case": "write match stack with [...] then ... else ...",
}

# For each word that other languages have for a type, the type.
TYPES_INSTEAD = {
    "int": "write number", "integer": "write number", "float": NO_FRACTIONS, "double": NO_FRACTIONS, "bool": "write truth",
    "boolean": "write truth", "void": "write unit", "string": NO_STRINGS, "cell": "the type of a cell is reference TYPE at "
    "DOMAIN", "{": "write object before the methods: object { METHOD at DOMAIN : TYPE }",
}

BRANCH = "put a branch of several terms in braces, { a; b }"

# What a sign behind a whole term may mean.
BEHIND = {
    ",": "',' separates the two parts of a pair, (a, b); for three write (a, (b, c))",
    ":": "put a stated type in parentheses: (a : type)",
    "[": "only the frame has an index: frame[i]; a pair is taken apart by let (x, y) = ... in",
    "else": BRANCH,
}
BEHIND.update({sign: "comparisons cannot be chained: write a < b and b < c" for sign in ("<", ">", "<=", ">=", "==", "!=")})
BEHIND.update({sign: "there is nothing here for it to close" for sign in (")", "}", "]")})
TWO_TERMS = "write ';' between two terms, and parentheses around an argument: f(x)"

# Types that stand in place of a value, and the value that may be meant.
NO_VALUES = {"unit": ": write ()", "truth": ": write true or false", "number": "", "reference": ""}

# Words that begin a term which stands alone: elsewhere it gets parentheses or braces.
LOOSE = frozenset(("let", "define", "print", "install", "mark", "new", "if", "match", "not"))


def instead(text):
    """What to write instead of a sign or word, behind a colon; nothing where there is no such advice."""
    return f": {INSTEAD[text]}" if text in INSTEAD else ""


def foreign(line, at):
    """The sign of another language at a place of a line, with what to write instead."""
    if line[at] in DIGITS:
        end = next((i for i in range(at, len(line)) if not line[i].isalnum() and line[i] != "_"), len(line))
        return f"'{line[at:end][:40]}' is not a number: write digits only, or 0x and hexadecimal digits"
    sign = line[at:at + 2] if line[at:at + 2] in INSTEAD else line[at]
    letters = ": names have the letters a to z, digits and _" if sign.isalpha() else ""
    return f"{sign!r} is not part of the language{instead(sign) or letters}"


def behind(token):
    """What is missing or too much where a token stands behind a whole term, behind a colon."""
    if token.text in BEHIND:
        return f": {BEHIND[token.text]}"
    starts = token.kind in ("name", "number") or token.text in ("(", "{")
    return instead(token.text) or forms.around(token.text) or (f": {TWO_TERMS}" if starts else "")


def no_term(token, form):
    """What to write where a token stands in place of a term, inside a construct, behind a colon."""
    if token.text in LOOSE:
        return f": put parentheses or braces around it: {{ {token.text} ... }}"
    if token.text in NO_VALUES:
        return f": it is a type, not a value{NO_VALUES[token.text]}"
    return instead(token.text) or forms.write(form) or forms.around(token.text)


def near(name, known):
    """The known name that a name may be meant for, behind a colon."""
    lower = {k.lower(): k for k in known}
    found = difflib.get_close_matches(name[:40].lower(), lower, 1, 0.75)
    return f": perhaps you mean {lower[found[0]]}" if found else ""


def semicolon(tokens, start):
    """The first ';' from a token on that stands in no brackets of its own."""
    depth = 0
    for token in tokens[start:]:
        depth += (token.text in ("(", "{", "[")) - (token.text in (")", "}", "]"))
        if depth < 0:
            return None
        if depth == 0 and token.text == ";":
            return token
    return None


def let_without_in(error, names, tokens, start):
    """The error in a let whose value starts at a token: where a ';' ends the value and a name is used behind it, or no
    'in' comes at all, it is the 'in' that is missing. The innermost let that fits decides."""
    if error.missing not in (*names, "in"):
        return error
    found = semicolon(tokens, start)
    if found:
        words = f"'in' is missing after the value of {', '.join(names)}: write let ... = ... in, without ';'"
        return type(error)(found.place, words)
    return type(error)(error.place, error.words)


EMPTY_WATCH = f"this watch is empty: write {forms.FORMS['install']}"


def watch_that_gives(t):
    """A watch's term that gives something, where it is to give nothing."""
    ways = {kinds.ADVICE_T: "this advice is not installed: write install before it",
            kinds.NUMBER_T: "a watch must give nothing, but this one ends with a number: print it, or end with ; ()"}
    wanted = f"a watch must give nothing, but this one ends with {a(t.kind)}: write {forms.FORMS['install']}"
    return ways.get(t.kind, wanted)


# What a type says that a term is, in words.
WORDS = {kinds.REFERENCE_T: "a cell", kinds.ADVICE_T: "an advice", kinds.OBJECT_T: "an object"}


def a(kind):
    """What a term is whose type is of a kind, with its article."""
    return WORDS.get(kind, f"a {kinds.name(kind)}")


def a_value(t):
    """What a term of a type gives."""
    return "nothing" if t.kind == kinds.UNIT_T else a(t.kind)


def counted(n, one, many=""):
    """A count with its noun."""
    return f"{n} {one if n == 1 else many or one + 's'}"


# For a kind of type that stands where another kind is wanted, what to write; None stands for every other kind.
TYPE_MENDS = {
    (kinds.LABEL_T, kinds.POINTCUT_T): "Write pointcut {LABEL}, with the label in the braces.",
    (kinds.LABEL_T, kinds.ADVICE_T): "Write advice on pointcut { } as x { }, with the label in the first braces.",
    (kinds.POINTCUT_T, kinds.ADVICE_T): "Write advice on the pointcut as x { }.",
    (kinds.POINTCUT_T, kinds.LABEL_T): "Write its label, without pointcut { }.",
    (kinds.ADVICE_T, kinds.UNIT_T): "Write install before the advice.",
    (kinds.NUMBER_T, kinds.UNIT_T): "Print it, or give it a name with let.",
    (kinds.NUMBER_T, kinds.TRUTH_T): "Compare it, with == or <.",
    (kinds.TRUTH_T, kinds.NUMBER_T): "Write if ... then 1 else 0.",
    (kinds.UNIT_T, None): "What stands there gives nothing: it prints, stores, marks or installs. Name a value.",
    (None, kinds.REFERENCE_T): "Name a cell, without read: it is made with new cell.",
    (None, kinds.LABEL_T): "Name a label: it is made with new label.",
    (None, kinds.STACK_T): "Write stack, which is what is kept where it stands.",
    (kinds.LABEL_T, None): "A label is marked, or stands in a pointcut: it has no value to use.",
    (kinds.PAIR_T, None): "Take the pair apart: let (x, y) = ... in.",
    (kinds.FUNCTION_T, None): "Apply the function: f(x).",
    (kinds.OBJECT_T, None): "Call one of the object's methods: o.m.",
    (kinds.STACK_T, None): "Take the stack apart: match ... with [...] then ... else ....",
}


def type_mend(t, wanted):
    """What to write where a type stands and another kind of type is wanted; nothing where nothing is sure."""
    if t.kind == kinds.REFERENCE_T and t.first.kind == wanted:
        return "Write read before the cell."
    ways = ((t.kind, wanted), (None, wanted), (t.kind, None))
    return next((TYPE_MENDS[way] for way in ways if way in TYPE_MENDS), "") if t.kind != wanted else ""
