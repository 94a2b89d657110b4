"""The bytes of a log and a report (document 01, "A run"): as the program `watch` lists them, and in sentences."""
import struct
from dataclasses import dataclass, field

from . import outcomes
from .records import word

LOG, REPORT, UNIT, TRUTH, NUMBER, CELL, OTHER = 64, 70, 65, 66, 67, 68, 69
LEAVES = {UNIT: 4, TRUTH: 6, NUMBER: 8}
LOG_LENGTH = 10


class Damaged(Exception):
    """Bytes that are no log or report, and where."""


@dataclass
class Run:
    """What a run wrote: printed numbers with their domains, the outcome's number, the steps, the result's leaves, and
    each cell with its domain and leaves, which are None for a cell that is not plain."""
    printed: list
    outcome: int
    steps: int
    result: list = field(default_factory=list)
    cells: list = field(default_factory=list)


def need(holds, words, offset):
    if not holds:
        raise Damaged(f"byte {offset}: {words}")


def head(data, offset):
    """The length and the kind of the record at an offset."""
    need(offset + 4 <= len(data), "the bytes end inside a record", offset)
    length, kind = word(data, offset), word(data, offset + 2)
    need(4 <= length <= len(data) - offset, "a record's length is wrong", offset)
    return length, kind


def read_log(data):
    """The printed numbers of a log, each with its domain."""
    printed = []
    for offset in range(0, len(data), LOG_LENGTH):
        record = data[offset:offset + LOG_LENGTH]
        need(len(record) == LOG_LENGTH and (word(record, 0), word(record, 2)) == (LOG_LENGTH, LOG),
             "the log has no record of length 10 and kind 64 here", offset)
        printed.append(struct.unpack_from("<Hi", record, 4))
    return printed


def read_leaves(data, offset, end):
    """The leaves from an offset on, up to an end or another kind of record, and where they end."""
    leaves = []
    while offset < end:
        length, kind = head(data, offset)
        if kind not in LEAVES:
            break
        need(length == LEAVES[kind], "a leaf's length is wrong", offset)
        if kind == UNIT:
            leaves.append("unit")
        elif kind == TRUTH:
            leaves.append("true" if word(data, offset + 4) else "false")
        else:
            leaves.append(str(struct.unpack_from("<i", data, offset + 4)[0]))
        offset += length
    return leaves, offset


def read_one(data, offset):
    """The run whose report starts at an offset, and where it ends."""
    need(head(data, offset) == (10, REPORT), "the report has no record of length 10 and kind 70 here", offset)
    outcome, steps = struct.unpack_from("<HI", data, offset + 4)
    need(outcome < len(outcomes.WORDS), f"there is no outcome {outcome}", offset + 4)
    run, offset = Run([], outcome, steps), offset + 10
    if outcome == 0:
        run.result, offset = read_leaves(data, offset, len(data))
    while offset < len(data) and head(data, offset)[1] != REPORT:
        length, kind = head(data, offset)
        need(length >= 6 if kind == CELL else (length, kind) == (6, OTHER), "expected a cell (kind 68 or 69)", offset)
        leaves, end = read_leaves(data, offset + 6, offset + length)
        need(end == offset + length, "a cell holds only leaves", end)
        run.cells.append((word(data, offset + 4), leaves if kind == CELL else None))
        offset += length
    return run, offset


def read_runs(data):
    """The runs of a recording, whose reports stand one after another; at least one."""
    run, offset = read_one(data, 0)
    runs = [run]
    while offset < len(data):
        run, offset = read_one(data, offset)
        runs.append(run)
    return runs


def read_run(report, log=b""):
    """One run from the bytes that it wrote."""
    run, *others = read_runs(report)
    need(not others, f"there are {len(others) + 1} reports, and a log belongs to one: leave the log out", 0)
    run.printed = read_log(log)
    return run


def listing(run):
    """The listing that the program `watch` prints."""
    lines = [f"log {p} {n}" for p, n in run.printed]
    lines.append(f"{outcomes.WORDS[run.outcome]} {run.steps}")
    if run.outcome == 0:
        lines.append(" ".join(["value", *run.result]))
    lines += [" ".join(["cell", str(p), *(["other"] if leaves is None else leaves)]) for p, leaves in run.cells]
    return "\n".join(lines) + "\n"


def in_words(run, domains=None):
    """The same in sentences, with the domains' names where they are known."""
    def name(p):
        return domains[p] if domains and p < len(domains) else f"domain {p}"

    lines = [f"{name(p)} printed {n}." for p, n in run.printed]
    lines.append(outcomes.sentence(run.outcome, run.steps))
    if run.outcome == 0:
        lines.append(f"The result is {', '.join(run.result)}.")
    for i, (p, leaves) in enumerate(run.cells):
        holds = "a value that is not plain" if leaves is None else ", ".join(leaves)
        lines.append(f"Cell {i} of {name(p)} holds {holds}.")
    return "\n".join(lines) + "\n"
