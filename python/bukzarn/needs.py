"""What any run of an image will need, without a run (document 02, card 10)."""
from __future__ import annotations

from typing import NamedTuple

from .lang import needs as words


class Needs(NamedTuple):
    """Upper numbers of what any run of an image uses, whatever the frame, the budget and the log. Bindings, pieces and cells
    are of domain 0's half, those called `other` of the half of all other domains (card 9)."""
    steps: int
    bindings: int
    other_bindings: int
    pieces: int
    other_pieces: int
    cells: int
    other_cells: int
    labels: int
    advice: int
    frames: int
    log: int

    def numbers(self) -> dict[str, int]:
        """Each number by its word, as the program `need` has it."""
        return {word.replace("_", "-"): number for word, number in self._asdict().items()}

    def over_limit(self, budget: int = words.BUDGET, log_length: int = words.LOG_LENGTH) -> list[str]:
        """The words of the numbers that are over their limits. Where there are none, every run is done or aborted."""
        limits = words.limits(budget, log_length)
        return [word for word, number in self.numbers().items() if number > limits[word]]

    def table(self, budget: int = words.BUDGET, log_length: int = words.LOG_LENGTH) -> str:
        """Each number beside its limit, and what follows for a run."""
        return words.table(self.numbers(), budget, log_length)
