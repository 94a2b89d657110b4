"""The numbers that the engine answers: outcomes and refusals, each with its words."""
from __future__ import annotations

from enum import IntEnum

from .lang import layout, outcomes, refusals


class Outcome(IntEnum):
    """How a run ended (document 01, "A run"; document 02, card 9)."""
    DONE = 0
    SPENT = 1
    ABORTED = 2
    FRAMES = 3
    BINDINGS = 4
    CELLS = 5
    LABELS = 6
    ADVICE = 7
    PIECES = 8
    LOG = 9
    OTHER_BINDINGS = 10
    OTHER_CELLS = 11
    OTHER_PIECES = 12

    @property
    def word(self) -> str:
        """The word of the bench sheet's listing: done, spent, aborted, .."""
        return outcomes.OUTCOMES[self][0]

    @property
    def words(self) -> str:
        """What happened."""
        return outcomes.OUTCOMES[self][1]

    @property
    def mend(self) -> str:
        """What to do about it."""
        return outcomes.OUTCOMES[self][2]


class Refusal(IntEnum):
    """Why a call is refused (document 01, "Turned back at the gate"; document 02)."""
    IMAGE_TOO_LONG = 1
    BROKEN_RECORD = 2
    UNKNOWN_KIND = 3
    WRONG_LENGTH = 4
    SECTION_ORDER = 5
    TOO_MANY_RECORDS = 6
    FIELD_RANGE = 7
    REPEATED_TYPE = 8
    EMPTY_SECTION = 9
    DOMAIN_ORDER = 10
    USE_COUNT = 11
    TOO_DEEP = 12
    UNBOUND_VARIABLE = 13
    TYPE_RULE = 14
    DOMAIN_RULE = 15
    ROOT_NOT_PLAIN = 16
    SHORT_WORK_AREA = 17
    SHORT_REPORT = 18
    OUTSIDE_CLASS = 19
    SHORT_OUTPUT = 20
    WRONG_DEPTH = 21
    SHORT_LOAD = 22
    WRONG_SET = 23
    SHORT_STRIPPED_OUTPUT = 24
    TOO_FEW_PLACES = 25

    @property
    def words(self) -> str:
        """What is wrong."""
        return refusals.REFUSALS[self][0]

    @property
    def mend(self) -> str:
        """How to mend it, whatever the image."""
        return refusals.REFUSALS[self][1]


class Refused(layout.Refused):
    """A call that the engine refused: `refusal` with its words, and `place`, an offset in the image.

    `explanation` also names the record and, if the image was assembled from texts, the line, and says how to mend it there.
    """

    def __init__(self, refusal: Refusal, place: int, explanation: str = "") -> None:
        super().__init__(int(refusal), place, refusal.words, refusal.mend)
        self.refusal = refusal
        self.explanation = explanation or refusals.in_general(int(refusal), place)

    def __str__(self) -> str:
        return self.explanation.rstrip()
