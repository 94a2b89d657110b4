"""What is proved of the runs with and without watches (docs/CLAIMS.md), for the runs at hand, and what a comparison finds."""
from __future__ import annotations

from typing import Any

from ..recording import Recording
from ..runs import Run


def high_part(run: Run, high: int) -> tuple:
    """What is compared of a run that is done: the result, the high cells, the high printed numbers."""
    return run.result, [c for c in run.cells if high >> c.domain & 1], high_log(run, high)


def high_log(run: Run, high: int) -> list:
    return [printed for printed in run.log if high >> printed.domain & 1]


def agree(full: Run, bare: Run, high: int) -> bool:
    """Do two runs agree as far as demand 3 of document 01 says? High printed numbers as far as the shorter list goes; where
    both are done, all of it."""
    if full.done and bare.done:
        return high_part(full, high) == high_part(bare, high)
    logs = high_log(full, high), high_log(bare, high)
    shorter = min(map(len, logs))
    return logs[0][:shorter] == logs[1][:shorter]


def frames_text(count: int) -> str:
    return "the frame" if count == 1 else f"the {count:,} frames"


def claim_text(done: int, others: int, takedown: bool) -> str:
    """What is proved of the two runs of every frame, in one sentence: card 13 of document 02 where the run with the watches is
    done and no low body takes watches down, demand 3 of document 01 elsewhere."""
    if takedown:
        return ("Proved: the decoder's numbers are the same without the watches, as far as both runs go; where both are done, so "
                "are the result and the decoder's cells. (A watch takes watches down.)")
    parts = []
    if done:
        parts.append(f"in {frames_text(done)} where the run is done, the decoder's numbers, the result and the decoder's cells "
                     "are the same without the watches")
    if others:
        where = f"in the other {others:,}" if done else f"in {frames_text(others)} where the run is not done"
        parts.append(f"{where}, the decoder's numbers are the same as far as both runs go")
    return f"Proved: {'; '.join(parts)}." if parts else "There are no frames."


def comparison_claims(full: Recording, bare: Recording, high: int, takedown: bool) -> dict[str, Any]:
    """The line of what is proved, the frames in which the two runs differ where they may not, which there are none of, and those
    that a watch ended early."""
    done = sum(run.done for run in full)
    pairs = list(zip(full, bare))
    return {"proved": claim_text(done, len(full) - done, takedown),
            "differ": [n for n, (a, b) in enumerate(pairs) if not agree(a, b, high)],
            "cut": [n for n, (a, b) in enumerate(pairs) if a.outcome != b.outcome]}
