"""What the bench says of watches: the verdict with its line, the runs with and without them, needs, cells, totals, and what is
proved of the two runs."""
from __future__ import annotations

from collections import Counter
from dataclasses import dataclass
from typing import Any

from ..image import BUDGET, LOG_LENGTH, Image
from ..lang import gate, layout, needs, profile, refusals, sounding, stripped
from ..lang.assembler import Assembled, assemble
from ..lang.lexer import Place, SourceError
from ..numbers import Outcome, Refused
from ..recording import Recording
from ..runs import Run
from . import claims

# How the texts are called in messages: the procedure, and each watch by its place.
PROCEDURE = "procedure"

Answer = dict[str, Any]


@dataclass(frozen=True)
class Setup:
    """What a bench is started with: the procedure's text, the frames, and what the decoder prints for each level."""
    procedure: str
    frames: tuple[bytes, ...]
    columns: str = sounding.COLUMNS_TEXT


@dataclass(frozen=True)
class Fault:
    """Why a text is not accepted: where, what is wrong, how to mend it, and the engine's number and place where it refused."""
    message: str
    mend: str = ""
    place: Place | None = None
    refusal: tuple[int, int] | None = None

    def answer(self) -> Answer:
        """`text` is the number of the watch, or the procedure."""
        at = self.place
        text: int | str = PROCEDURE if not at or at.file == PROCEDURE else int(at.file)
        return {"message": self.message, "mend": self.mend, "refusal": self.refusal, "text": text,
                "line": at.line if at else None, "column": at.column if at else None}


def assemble_texts(procedure: str, watches: list[str]) -> Assembled | Fault:
    """The image of the texts, or what is wrong in one of them."""
    try:
        return assemble(procedure, PROCEDURE, [(text, str(n)) for n, text in enumerate(watches)])
    except SourceError as error:
        return Fault(error.words, place=error.place)


def refusal_fault(made: Assembled, refused: layout.Refused) -> Fault:
    """The engine's refusal of an image in words. The tool's own verdict has the cause; the engine's is the one that counts."""
    found = gate.verdict(made.image, made.domains)
    same = found is not None and (found.number, found.place) == (refused.number, refused.place)
    cause = found.words if same and found.words else refusals.REFUSALS[refused.number][0]
    mend = found.mend if same and found.mend else refusals.mend_of(made.image, refused.number, refused.place)
    return Fault(sentence(cause), mend, made.places.get(refused.place), (refused.number, refused.place))


def sentence(words: str) -> str:
    """Words as a sentence."""
    return words[:1].upper() + words[1:].rstrip(".") + "."


def judge(setup: Setup, watches: list[str]) -> Answer:
    """All that the page shows of a procedure with these watches."""
    made = assemble_texts(setup.procedure, watches)
    if isinstance(made, Fault):
        return {"fault": made.answer(), **procedure_answer(setup)}
    image = Image(made.image, made.domains, made.places)
    refused = image.verdict()
    if refused:
        return {"fault": refusal_fault(made, refused).answer(), **procedure_answer(setup)}
    return {"fault": None, "bytes": len(image), **comparison(setup, image)}


def procedure_answer(setup: Setup) -> Answer:
    """What is drawn while a watch is not accepted: the procedure by itself, if it is accepted."""
    made = assemble_texts(setup.procedure, [])
    if isinstance(made, Fault) or gate.verdict(made.image):
        return {"without": None}
    runs = Image(made.image).run_frames(setup.frames)
    return {"without": curve(runs, setup), "outcomes": outcome_rows(runs), "frames": len(runs)}


def comparison(setup: Setup, image: Image) -> Answer:
    """The runs of an accepted image with and without its watches."""
    high = layout.laid_out(image.data).masks[0]
    full, bare = image.run_frames(setup.frames), image.stripped_form(stripped.members(high)).run_frames(setup.frames)
    takedown = stripped.low_takedown(image.data, high)
    return {"with": curve(full, setup), "without": curve(bare, setup), "frames": len(full), "outcomes": outcome_rows(full),
            "needs": need_rows(image, full), "totals": totals(full, image.domains), "domains": list(image.domains),
            **claims.comparison_claims(full, bare, high, takedown)}


def curve(runs: Recording, setup: Setup) -> Answer:
    """The levels: frame, values, and what the watches printed there as pairs of domain and number; and beside each its dew point,
    where the columns have what it follows from."""
    made = runs.sounding(setup.columns)
    known = {"temperature", "humidity"} <= {column.name for column in made.columns}
    return {"dew": made.values(sounding.DEW_POINT) if known else [],
            "levels": [[level.frame, level.values, level.marks] for level in made.levels],
            "columns": [[column.name, profile.UNITS.get(column.name, ""), column.scale > 1] for column in made.columns]}


def outcome_rows(runs: Recording) -> list[Answer]:
    """How many runs ended in which way, with the first frame of each."""
    firsts: dict[Outcome, int] = {}
    for frame, run in enumerate(runs):
        firsts.setdefault(run.outcome, frame)
    return [{"word": outcome.word, "words": outcome.words, "mend": outcome.mend, "count": count, "first": firsts[outcome]}
            for outcome, count in runs.outcomes().items()]


def need_rows(image: Image, runs: Recording) -> Answer:
    """What any run needs at most beside what there is, if that is known without a run, and what was used here."""
    limits = needs.limits(BUDGET, LOG_LENGTH)
    used = {"steps": max((run.steps for run in runs), default=0), "log": max((len(run.log) for run in runs), default=0)}
    try:
        numbers, why = image.need().numbers(), ""
    except Refused as refused:
        numbers, why = {}, sentence(refused.words)
    return {"rows": [[word, numbers.get(word), used.get(word), limit] for word, limit in limits.items()], "why": why}


def totals(runs: Recording, domains: tuple[str, ...]) -> list[list]:
    """Over the whole recording, what each domain printed and what each cell held at the end of each frame: count, sum, least,
    greatest, last."""
    found: dict[tuple, list[int]] = {}
    for run in runs:
        for key, number in run_numbers(run):
            found.setdefault(key, []).append(number)
    return [[total_name(key, domains), len(numbers), sum(numbers), min(numbers), max(numbers), numbers[-1]]
            for key, numbers in sorted(found.items())]


def run_numbers(run: Run):
    """The numbers of a run, each with what it belongs to: a domain's prints, or a leaf of a cell."""
    for domain, number in run.log:
        yield (0, domain, 0, 0), number
    made: Counter[int] = Counter()
    for domain, leaves in run.cells:
        # A domain counts its own cells: a high one's number does not depend on the watches.
        place, made[domain] = made[domain], made[domain] + 1
        for leaf, value in enumerate(leaves or ()):
            if value is not None:
                yield (1, domain, place, leaf), int(value)


def total_name(key: tuple, domains: tuple[str, ...]) -> str:
    kind, domain, place, leaf = key
    name = domains[domain] if domain < len(domains) else f"domain {domain}"
    return f"cell {place} of {name}" + (f", part {leaf}" if leaf else "") if kind else f"printed by {name}"
