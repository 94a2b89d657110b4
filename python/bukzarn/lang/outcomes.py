"""The outcomes of a run (document 01, "A run"; document 02, card 9): for each its word, what happened, what to do."""

BINDINGS = ("Each let and each call takes one binding, a split two, and a mark one for each watch that it triggers. Loop less "
            "often over a frame, or bind fewer names in the loop.")
CELLS = "Make cells once, before the loop over the levels, and store to them there."
PIECES = ("Each pair, pointcut and advice takes one piece, and a stack one for each value in it. Make pointcuts and advice once, "
          "before the loop over the levels, and mark single numbers where they will do.")
WATCHES = "The decoder's numbers up to this point are right, as they would be without the watches. "

OUTCOMES = (
    ("done", "The run is done", "Nothing: the result and the cells are in the report."),
    ("spent", "The budget was spent",
     "Allow a larger budget: a run that is done stays the same at any larger one. If that is spent too, look for a function "
     "that calls itself without end."),
    ("aborted", "The run was aborted",
     "The program said abort: either the decoder, because it turns the frame down, or a watch. 'watchtool.py rerun' shows "
     "whether the procedure also ends this way without its watches."),
    ("frames", "More than 512 unfinished terms",
     "Let a function that calls itself do so last. In f(n - 1) + n the sum has to wait for the answer, which makes an "
     "unfinished term for each call."),
    ("bindings", "The mainline had used its 1,024 bindings", BINDINGS),
    ("cells", "The mainline had used its 128 cells", CELLS),
    ("labels", "All 64 labels were used", "Make labels once, before the loop over the levels."),
    ("advice", "All 64 places of installed advice were used",
     "Install each watch once, before the loop over the levels. 'takedown of DOMAIN' frees the places of a domain's watches."),
    ("pieces", "The mainline had used its 256 pieces", PIECES),
    ("log", "The log was full", "Pass a longer log, 10 bytes for each printed number, or print less."),
    ("other-bindings", "The other domains had used their 1,024 bindings", WATCHES + BINDINGS),
    ("other-cells", "The other domains had used their 128 cells", WATCHES + CELLS),
    ("other-pieces", "The other domains had used their 256 pieces", WATCHES + PIECES),
)
WORDS = tuple(word for word, _, _ in OUTCOMES)


def sentence(number, steps):
    """How a run ended."""
    return f"{OUTCOMES[number][1]} after {steps} step{'' if steps == 1 else 's'}."


def number(text):
    """The number of an outcome, from its word or its number."""
    numbers = {word: n for n, word in enumerate(WORDS)} | {str(n): n for n in range(len(WORDS))}
    if text not in numbers:
        raise ValueError(f"'{text[:20]}' is no outcome: they are 0 to {len(WORDS) - 1}, or {', '.join(WORDS)}")
    return numbers[text]


def explain(n):
    """An outcome in words, and what to do."""
    word, happened, mend = OUTCOMES[n]
    return f"outcome {n}, {word}: {happened}.\nWhat to do: {mend}\n"


def table():
    """All outcomes, a paragraph each."""
    return "\n".join(f"{n:2}  {word}: {happened}.\n    {mend}" for n, (word, happened, mend) in enumerate(OUTCOMES)) + "\n"
