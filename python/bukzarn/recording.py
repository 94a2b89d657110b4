"""The runs of an image over a recording: as rows, levels, tables and pictures."""
from __future__ import annotations

from argparse import ArgumentTypeError
from collections import Counter
from collections.abc import Iterator, Sequence
from typing import TYPE_CHECKING, NamedTuple

from .lang import profile, sounding
from .numbers import Outcome
from .runs import Run

if TYPE_CHECKING:
    import pandas
    from matplotlib.figure import Figure

# What the decoder of the recorded ascent prints for each level, and by what it is divided.
COLUMNS = sounding.COLUMNS_TEXT

HEAD = "frame,domain,number"


class MissingPackage(ImportError):
    """A package that is not installed, and what there is in its place."""


class Row(NamedTuple):
    """A printed number: the frame's number, counted from 0, the domain that printed, and the number."""
    frame: int
    domain: int
    number: int


class Recording(Sequence):
    """The runs over the frames of a recording, one after another: `recording[i]` is the run over frame i."""

    def __init__(self, runs: Sequence[Run]) -> None:
        self.runs = list(runs)

    def __len__(self) -> int:
        return len(self.runs)

    def __getitem__(self, i):
        return Recording(self.runs[i]) if isinstance(i, slice) else self.runs[i]

    def __iter__(self) -> Iterator[Run]:
        return iter(self.runs)

    def __repr__(self) -> str:
        told = ", ".join(f"{count} {outcome.word}" for outcome, count in self.outcomes().items())
        return f"<Recording of {len(self)} frames: {told or 'none'}>"

    def outcomes(self) -> dict[Outcome, int]:
        """How many runs ended with each outcome."""
        counts = Counter(run.outcome for run in self.runs)
        return {outcome: counts[outcome] for outcome in Outcome if counts[outcome]}

    def rows(self) -> list[Row]:
        """A row for each printed number."""
        return [Row(frame, *printed) for frame, run in enumerate(self.runs) for printed in run.log]

    def csv(self) -> str:
        """The rows as a table, as `bukzarn run --out csv` writes it."""
        return "\n".join([HEAD, *(f"{r.frame},{r.domain},{r.number}" for r in self.rows())]) + "\n"

    def sounding(self, columns: str = COLUMNS, name: str = "") -> sounding.Sounding:
        """The levels that the decoder printed. `columns` names what it prints for each, as in "pressure/10,humidity"; marks
        are what other domains printed there."""
        try:
            named = sounding.columns(columns)
        except ArgumentTypeError as error:
            raise ValueError(str(error)) from None
        return sounding.Sounding(name, named, sounding.levels(self.rows(), named))

    def table(self, columns: str | None = None) -> pandas.DataFrame:
        """A DataFrame with a row for each printed number; with `columns` one for each level, with what the watches printed there
        as pairs of domain and number. It needs pandas; `rows` and `sounding` do not."""
        frames = import_optional("pandas", "rows() and sounding() give the same without it")
        if columns is None:
            return frames.DataFrame(self.rows(), columns=HEAD.split(","))
        made = self.sounding(columns)
        rows = [[level.frame, *level.values, tuple(level.marks)] for level in made.levels]
        return frames.DataFrame(rows, columns=["frame", *(c.name for c in made.columns), "watches"])

    def frame_table(self) -> pandas.DataFrame:
        """A DataFrame with a row for each frame: outcome, steps, how many numbers were printed, result."""
        frames = import_optional("pandas", "iterate over the recording without it")
        rows = [[run.outcome.word, run.steps, len(run.log), run.result] for run in self.runs]
        return frames.DataFrame(rows, columns=["outcome", "steps", "printed", "result"])

    def svg(self, columns: str = COLUMNS, title: str = "", beside: Recording | None = None) -> str:
        """The sounding as a picture: pressure down a logarithmic axis, a panel for each other column, a mark wherever a watch
        printed. `beside` is another recording of the same columns, drawn under it, such as one without the watches."""
        drawn = [beside.sounding(columns, "without the watches")] if beside else []
        return profile.profile([*drawn, self.sounding(columns, "the recording" if not beside else "with the watches")], title)

    def figure(self, columns: str = COLUMNS, title: str = "") -> Figure:
        """The same with matplotlib, which then must be installed; `svg` needs nothing."""
        figures = import_optional("matplotlib.figure", "svg() draws the same without it")
        made = self.sounding(columns)
        names = [c.name for c in made.columns if c.name != "pressure"]
        figure = figures.Figure(figsize=(4 * len(names), 6), layout="constrained")
        figure.suptitle(title)
        axes = figure.subplots(1, len(names), sharey=True, squeeze=False)[0]
        for axis, name in zip(axes, names):
            axis.plot(made.values(name), made.values("pressure"))
            marked = [(v, p) for v, p, e in zip(made.values(name), made.values("pressure"), made.levels) if e.marks]
            axis.plot(*(zip(*marked) if marked else ((), ())), "kD", mfc="white", ms=4)
            axis.set(xlabel=profile.with_unit(name), yscale="log")
        axes[0].set(ylabel=profile.with_unit("pressure"))
        axes[0].invert_yaxis()
        return figure


def import_optional(name: str, otherwise: str):
    """A package that may be used if it is there."""
    try:
        return __import__(name, fromlist=["_"])
    except ImportError:
        raise MissingPackage(f"{name.split('.')[0]} is not installed: {otherwise}") from None
