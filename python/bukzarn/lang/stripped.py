"""A program with and without its watches (document 02, card 13): the domains that are kept, and two listings compared."""
from dataclasses import dataclass

from . import hints, kinds
from .disassembler import tree
from .layout import laid_out
from .terms import child_domains
from .types import Writer


# The refusal of a set that is not one of high domains.
WRONG_SET = 23

TAKEDOWN = "a low body contains a takedown"

# So many frames that differ are named.
FRAME_LIST_LIMIT = 10


class NoDomain(Exception):
    """A domain that is to be kept and that the image has not."""


def mask(keep, names):
    """The mask of domains that are named, by commas between them; where an image has no names they are numbers."""
    known = {name: d for d, name in enumerate(names or ())}
    numbers = {str(d): d for d in range(kinds.DOMAIN_LIMIT)}
    made = 0
    for word in keep.split(","):
        word = word.strip()
        if word not in known and word not in numbers:
            said = ", ".join(known) or "numbers, as an image has no names"
            raise NoDomain(f"there is no domain '{word[:40]}'; the domains are {said}{hints.near(word, known)}")
        made |= 1 << known.get(word, numbers.get(word))
    return made


def members(mask):
    """The domains of a mask."""
    return [d for d in range(kinds.DOMAIN_LIMIT) if mask >> d & 1]


def fault(image, high, names):
    """Why a mask is no set of high domains of an accepted image, in words; nothing where it is one."""
    tables, name = laid_out(image), Writer(names).domain
    count = len(tables.domains)
    if high >> count:
        return f"the image has no domain {high.bit_length() - 1}: they are 0 to {count - 1}"
    if not high & 1:
        return f"{name(0)} is left out, which is domain 0"
    for d, above in enumerate(tables.masks):
        if high >> d & 1 and above & ~high:
            return f"{name(d)} is kept, but {name((above & ~high).bit_length() - 1)} is above it and left out"
    return ""


def low_takedown(image, high):
    """Does a body that runs at a low domain, of functions and methods too, contain a takedown, at any depth?"""
    def found(e, here, inside):
        inside = inside or not high >> here & 1
        parts = zip(e.children, child_domains(e, len(e.children), here))
        return (inside and e.kind == kinds.TAKEDOWN) or any(found(c, p, inside) for c, p in parts)
    return found(tree(laid_out(image)), 0, False)


@dataclass
class Seen:
    """What is compared of a run's listing: outcome and steps, the result, the plain high cells, the high log."""
    outcome: str
    steps: int
    result: str
    cells: list
    log: list


def read(listing, high):
    """The listing of the program `watch`, at the high domains. A printed number has two words behind `log`, the outcome
    of that name one."""
    seen = Seen("", 0, "", [], [])
    for line in listing.splitlines():
        word, *rest = line.split()
        if word == "log" and len(rest) == 2:
            seen.log += [line] if high >> int(rest[0]) & 1 else []
        elif word == "cell":
            seen.cells += [line] if high >> int(rest[0]) & 1 and rest[1] != "other" else []
        elif word == "value":
            seen.result = " ".join(rest)
        else:
            seen.outcome, seen.steps = word, int(rest[0])
    return seen


def differences(full, bare):
    """What the stripped run has not as the full one has it, in words."""
    checks = (("the result", full.result == bare.result), ("the high log", full.log == bare.log),
              ("the plain high cells", full.cells == bare.cells), ("the outcome", full.outcome == bare.outcome),
              ("the steps, which are more", bare.steps <= full.steps))
    return [words for words, holds in checks if not holds]


def told(full, bare, takedown):
    """The comparison of two runs in lines, and whether what is claimed holds."""
    lines = [f"with the watches     {full.outcome} after {full.steps} steps",
             f"without them         {bare.outcome} after {bare.steps} steps",
             f"high log records     {len(full.log)} and {len(bare.log)}",
             f"plain high cells     {len(full.cells)} and {len(bare.cells)}",
             f"result               {full.result or 'none'} and {bare.result or 'none'}"]
    found, claimed = differences(full, bare), full.outcome == "done" and not takedown
    said = f"they differ in {', '.join(found)}" if found else "they are alike in result, high cells and high log"
    if claimed:
        lines.append(f"{said[0].upper()}{said[1:]}." if found else "They agree in result, high cells and high log.")
    else:
        why = TAKEDOWN if takedown else "the run with the watches is not done"
        lines.append(f"Nothing is claimed of the two: {why}. Here {said}.")
    return "\n".join(lines) + "\n", not found or not claimed


def frame_list(frames):
    """The first of many frames, in words."""
    shown = ", ".join(map(str, frames[:FRAME_LIST_LIMIT]))
    return f"frame {shown}" if len(frames) == 1 else f"frames {shown}{', ...' if len(frames) > FRAME_LIST_LIMIT else ''}"


def compare_frames(pairs, takedown):
    """The comparison of the runs of a recording, frame by frame, and whether what is claimed holds."""
    done, wrong, other, counts = [0, 0], [], [], [0, 0]
    total = 0
    for total, (full, bare) in enumerate(pairs, 1):
        claimed = full.outcome == "done" and not takedown
        for i, seen in enumerate((full, bare)):
            done[i] += seen.outcome == "done"
            counts[i] += len(seen.log)
        if differences(full, bare):
            (wrong if claimed else other).append(total - 1)
    claims = 0 if takedown else done[0]
    lines = [f"frames               {total}", f"done                 {done[0]} with the watches, {done[1]} without them",
             f"high log records     {counts[0]} and {counts[1]}"]
    if claims and not wrong:
        lines.append(f"The {claims} frames that are done with the watches agree in result, high cells and high log.")
    if wrong:
        lines.append(f"{len(wrong)} of the {claims} frames that are done with the watches differ: {frame_list(wrong)}.")
    if total > claims:
        why = TAKEDOWN if takedown else "the run with the watches is not done"
        alike = f"{len(other)} of them differ: {frame_list(other)}" if other else "here they are alike"
        lines.append(f"Nothing is claimed of {'all' if not claims else 'the other'} {total - claims}: {why}; {alike}.")
    return "\n".join(lines) + "\n", not wrong
