"""The form of each construct, as a message shows it: words in capitals stand for what the writer fills in."""

FORMS = {
    # The head of a text.
    "domain": "domain NAME, or domain NAME <= NAME, NAME",
    "type": "type NAME = TYPE",
    "const": "const NAME = NUMBER",
    "frame of fields": "frame { NAME at OFFSET width BYTES signed little }, where width, signed and little may be left out",
    # Types.
    "function type": "function from TYPE at DOMAIN to TYPE",
    "reference type": "reference TYPE at DOMAIN",
    "label type": "label TYPE at DOMAIN",
    "pointcut type": "pointcut TYPE at DOMAIN",
    "advice type": "advice at DOMAIN",
    "object type": "object { METHOD at DOMAIN : TYPE; METHOD at DOMAIN : TYPE }",
    # Terms.
    "let": "let NAME = VALUE in TERM, or let (NAME, NAME) = PAIR in TERM",
    "define": "define NAME (NAME : TYPE) { BODY } in TERM, or define NAME (NAME : TYPE) to TYPE { BODY } in TERM if it calls "
              "itself",
    "print": "print NUMBER",
    "install": "install advice on pointcut {LABEL} as NAME { BODY }",
    "mark": "mark LABEL with VALUE",
    "new": "new cell VALUE, or new label TYPE",
    "if": "if TEST then TERM else TERM, with else () where nothing is to be done",
    "match": "match stack with [pointcut {LABEL} as NAME, any, rest as NAME] then TERM else TERM",
    "read": "read CELL",
    "function": "function (NAME : TYPE) { BODY }",
    "advice": "advice on pointcut {LABEL} as NAME { BODY }",
    "pointcut": "pointcut {LABEL, LABEL}, or pointcut {} of TYPE",
    "lower": "lower to DOMAIN { BODY }",
    "watches": "watches at DOMAIN",
    "abort": "abort TYPE, for instance abort unit",
    "frame": "frame[INDEX], or frame.FIELD",
    "object": "object TYPE as NAME { METHOD { BODY } METHOD { BODY } }",
    "keep": "keep LABEL with VALUE { BODY }",
    "takedown": "takedown of DOMAIN",
    "var": "(var NUMBER : TYPE)",
    "and": "TEST and TEST",
    "or": "TEST or TEST",
    "not": "not TEST",
    "stack": "stack",
}

# The constructs in whose middle a word stands, for a word that stands alone.
AROUND = {
    "in": ("let",), "then": ("if",), "else": ("if",), "on": ("advice",), "as": ("advice",), "with": ("mark", "keep"),
    "and": ("and",), "or": ("or",), "const": ("const",), "to": ("lower",), "of": ("takedown",), "at": ("watches",), "from": ("function type",),
    "width": ("frame of fields",),
}


def write(form):
    """What to write for a construct, behind a colon; nothing where none is under way."""
    return f": write {FORMS[form]}" if form in FORMS else ""


def around(word):
    """What to write around a word that stands alone, behind a colon."""
    said = ", or ".join(FORMS[form] for form in AROUND.get(word, ()))
    return f": it belongs to {said}" if said else ""
