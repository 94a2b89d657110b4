"""The kinds of records (document 01, "The image"; document 02, cards 3, 6 and 7): for each its number, its name, and its
fields.

A field is one letter: m a mask, a a lower type, p a domain, t a term's own type, e a lower term, k a variable's number,
v a truth, o an operation, i a method's number, x an entry of a match, c its close (all 16 bits), n a number of 4 bytes.
In some kinds a group of fields follows the first ones, repeated as often as the record's length says.
"""

DOMAIN = 1
(UNIT_T, TRUTH_T, NUMBER_T, PAIR_T, FUNCTION_T, REFERENCE_T, LABEL_T, POINTCUT_T, ADVICE_T,
 OBJECT_T, STACK_T) = range(16, 27)
(UNIT, TRUTH, NUMBER, VARIABLE, SEQUENCE, PRINT, IF, PAIR, SPLIT, FUNCTION, APPLY, ARITHMETIC, NEW_LABEL, MARK,
 POINTCUT, ADVICE, INSTALL, NEW_CELL, READ, STORE, LOWER, ABORT, OBJECT, CALL, STACK, KEEP,
 MATCH, TAKEDOWN, FRAME_BYTE) = range(32, 61)

KINDS = {
    DOMAIN: ("domain", "m"),
    UNIT_T: ("unit", ""),
    TRUTH_T: ("truth", ""),
    NUMBER_T: ("number", ""),
    PAIR_T: ("pair", "aa"),
    FUNCTION_T: ("function", "apa"),
    REFERENCE_T: ("reference", "ap"),
    LABEL_T: ("label", "ap"),
    POINTCUT_T: ("pointcut", "ap"),
    ADVICE_T: ("advice", "p"),
    OBJECT_T: ("object", ""),
    STACK_T: ("stack", ""),
    UNIT: ("unit", "t"),
    TRUTH: ("truth", "tv"),
    NUMBER: ("number", "tn"),
    VARIABLE: ("variable", "tk"),
    SEQUENCE: ("sequence", "tee"),
    PRINT: ("print", "te"),
    IF: ("if", "teee"),
    PAIR: ("pair", "tee"),
    SPLIT: ("split", "tee"),
    FUNCTION: ("function", "te"),
    APPLY: ("apply", "tee"),
    ARITHMETIC: ("arithmetic", "toee"),
    NEW_LABEL: ("new-label", "t"),
    MARK: ("mark", "tee"),
    POINTCUT: ("pointcut", "t"),
    ADVICE: ("advice", "tee"),
    INSTALL: ("install", "te"),
    NEW_CELL: ("new-cell", "te"),
    READ: ("read", "te"),
    STORE: ("store", "tee"),
    LOWER: ("lower", "tpe"),
    ABORT: ("abort", "t"),
    OBJECT: ("object", "t"),
    CALL: ("call", "tei"),
    STACK: ("stack", "t"),
    KEEP: ("keep", "teee"),
    MATCH: ("match", "teee"),
    TAKEDOWN: ("takedown", "tp"),
    FRAME_BYTE: ("frame-byte", "te"),
}

OPERATIONS = ("plus", "minus", "less", "equal")
SIGNS = ("+", "-", "<", "==")

IMAGE_LIMIT = 16_384
DOMAIN_LIMIT, TYPE_LIMIT, TERM_LIMIT = 16, 128, 1_024
DEPTH_LIMIT = 64
LABEL_LIMIT = 8
METHOD_LIMIT = 8
ENTRY_LIMIT = 8
LEAF_LIMIT = 8

# The kinds with a group: its fields, how often it stands at least and at most, and the fields behind it. Their lengths
# are exact.
GROUPS = {OBJECT_T: ("pa", 1, METHOD_LIMIT, ""), POINTCUT: ("e", 0, LABEL_LIMIT, ""),
          OBJECT: ("e", 1, METHOD_LIMIT, ""), MATCH: ("x", 0, ENTRY_LIMIT, "c")}


def section(kind):
    """0 for a domain, 1 for a type, 2 for a term."""
    return 0 if kind == DOMAIN else 1 if kind < UNIT else 2


def name(kind):
    return KINDS[kind][0]


def fields(kind, count=0):
    """The letters of a kind's fields; with a group, of a record of so many fields."""
    first, (group, _, _, last) = KINDS[kind][1], GROUPS.get(kind, ("", 0, 0, ""))
    return first + group * ((count - len(first + last)) // len(group)) + last if group else first


def counts(kind):
    """How many fields a record of a kind may have."""
    first, (group, least, most, last) = KINDS[kind][1], GROUPS.get(kind, ("", 0, 0, ""))
    return [len(first + last) + n * len(group) for n in range(least, most + 1)]
