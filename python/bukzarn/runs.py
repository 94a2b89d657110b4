"""What runs leave: the records of log and report (document 01, "A run") as plain objects."""
from __future__ import annotations

import struct
from dataclasses import dataclass, field
from typing import NamedTuple, Union

from .numbers import Outcome

# Kinds of the records of a report.
UNIT, TRUTH, NUMBER, PLAIN_CELL, OTHER_CELL = 65, 66, 67, 68, 69

# A log record: length, kind, domain, number. The head of a report: length, kind, outcome, steps. Any other: length, kind.
LOG_RECORD, REPORT_HEAD, HEAD = struct.Struct("<4xHi"), struct.Struct("<4xHI"), struct.Struct("<HH")
WORD, SIGNED = struct.Struct("<H"), struct.Struct("<i")

# A leaf of a value: None for unit, a truth, or a number.
Leaf = Union[None, bool, int]


class LogRecord(NamedTuple):
    """A printed number, with the domain that printed it."""
    domain: int
    number: int


class Cell(NamedTuple):
    """A cell as it was at the end: its domain, and the leaves that it holds, or None for one that is not plain."""
    domain: int
    leaves: tuple[Leaf, ...] | None


@dataclass(slots=True)
class Run:
    """What a run left.

    `log` has the printed numbers in order, `result` the leaves of the result if the run is done, `cells` each cell in order of
    creation. The bytes of log and report are kept beside them.
    """
    outcome: Outcome
    steps: int
    log: tuple[LogRecord, ...]
    result: tuple[Leaf, ...]
    cells: tuple[Cell, ...]
    log_bytes: bytes = field(default=b"", repr=False, compare=False)
    report_bytes: bytes = field(default=b"", repr=False, compare=False)

    @property
    def done(self) -> bool:
        return self.outcome is Outcome.DONE

    def numbers(self, domain: int = 0) -> list[int]:
        """The numbers that a domain printed."""
        return [number for by, number in self.log if by == domain]

    def listing(self) -> str:
        """The listing of the bench sheet, as the program `watch` prints it."""
        lines = [f"log {domain} {number}" for domain, number in self.log]
        lines.append(f"{self.outcome.word} {self.steps}")
        if self.done:
            lines.append(" ".join(["value", *map(leaf_text, self.result)]))
        for domain, leaves in self.cells:
            lines.append(" ".join(["cell", str(domain), *(["other"] if leaves is None else map(leaf_text, leaves))]))
        return "\n".join(lines) + "\n"


def leaf_text(leaf: Leaf) -> str:
    """A leaf as the listing has it."""
    if leaf is None:
        return "unit"
    return str(leaf).lower() if isinstance(leaf, bool) else str(leaf)


def leaf_at(report: bytes, kind: int, at: int) -> Leaf:
    if kind == TRUTH:
        return WORD.unpack_from(report, at + 4)[0] != 0
    return SIGNED.unpack_from(report, at + 4)[0] if kind == NUMBER else None


def read_leaves(report: bytes, at: int, end: int) -> tuple[tuple[Leaf, ...], int]:
    """The leaves from an offset on, up to an end or a record of another kind, and where they end."""
    leaves = []
    while at < end:
        length, kind = HEAD.unpack_from(report, at)
        if kind not in (UNIT, TRUTH, NUMBER):
            break
        leaves.append(leaf_at(report, kind, at))
        at += length
    return tuple(leaves), at


def read_cells(report: bytes, at: int) -> tuple[Cell, ...]:
    """The cells from an offset on to the end."""
    cells = []
    while at < len(report):
        length, kind = HEAD.unpack_from(report, at)
        leaves = read_leaves(report, at + 6, at + length)[0] if kind == PLAIN_CELL else None
        cells.append(Cell(WORD.unpack_from(report, at + 4)[0], leaves))
        at += length
    return tuple(cells)


OUTCOMES = tuple(Outcome)


def read_run(log: bytes, report: bytes) -> Run:
    """The run that wrote these bytes. They are the library's, which is proved to write such records, so they are not doubted
    here; `bukzarn.lang.report` reads files that may be damaged."""
    number, steps = REPORT_HEAD.unpack_from(report, 0)
    outcome, at = OUTCOMES[number], REPORT_HEAD.size
    result: tuple[Leaf, ...] = ()
    if number == 0:
        result, at = read_leaves(report, at, len(report))
    cells = read_cells(report, at) if at < len(report) else ()
    return Run(outcome, steps, tuple(map(LogRecord._make, LOG_RECORD.iter_unpack(log))), result, cells, log, report)
