"""Generated images, a load that every station can repeat (document 02, card 12)."""
from . import kinds
from .layout import Refused
from .records import record, written

# The numbers of a draw, and the greatest depth.
MULTIPLIER, INCREMENT, MODULUS, DIVISOR = 1_664_525, 1_013_904_223, 1 << 32, 1 << 24
DEPTH_LIMIT = 9


class Draws:
    """The draws of a seed, and the terms that they give."""

    def __init__(self, seed):
        self.state, self.terms = seed % MODULUS, []

    def draw(self):
        self.state = (MULTIPLIER * self.state + INCREMENT) % MODULUS
        return self.state // DIVISOR

    def put(self, kind, *fields):
        """Writes a term, and gives its number."""
        self.terms.append(written(kind, fields))
        return len(self.terms) - 1

    def tree(self, depth):
        """A tree of a depth; left is drawn first."""
        choice = self.draw() % 4 if depth > 1 else 0
        if choice == 0 or (choice == 3 and depth < 3):
            return self.put(kinds.NUMBER, 1, self.draw())
        if choice == 3:
            first = self.put(kinds.PRINT, 0, self.tree(depth - 2))
            return self.put(kinds.SEQUENCE, 1, first, self.tree(depth - 1))
        left = self.tree(depth - 1)
        return self.put(kinds.ARITHMETIC, 1, choice - 1, left, self.tree(depth - 1))


def image(seed, depth):
    """The image of a seed and a depth."""
    if not 1 <= depth <= DEPTH_LIMIT:
        raise Refused(21, 0, f"the depth is {depth}, and not 1 to {DEPTH_LIMIT}")
    made = Draws(seed)
    made.tree(depth)
    head = record(kinds.DOMAIN, 1) + record(kinds.UNIT_T) + record(kinds.NUMBER_T)
    return head + b"".join(made.terms)
