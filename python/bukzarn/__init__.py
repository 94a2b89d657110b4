"""The watch engine for Python: decoding procedures with watches that are proved unable to change what they watch.

    from bukzarn import Image

    image = Image.read("examples/ascent/ascent.proc", "examples/ascent/cold.watch")
    recording = image.run_frames(open("examples/ascent/ascent.frames", "rb").read(), 12)
    print(recording.sounding().text())

The engine is the proved library; this package passes bytes to it and reads what it leaves. `bukzarn.lang` is the assembler for
the text form of procedures and watches (docs/LANGUAGE.md), and `watchtool` the command. Nothing beyond the standard library is
needed; pandas and matplotlib are used where they are installed. docs/PYTHON.md goes through all of it.
"""
from ._library import IMAGE_LIMIT, REPORT_LENGTH, WORK_LENGTH, NoLibrary
from .image import BUDGET, LOG_LENGTH, BENCH_FRAME, Image
from .lang.lexer import SourceError
from .needs import Needs
from .numbers import Outcome, Refusal, Refused
from .recording import COLUMNS, MissingPackage, Recording, Row
from .runs import Cell, Leaf, LogRecord, Run

__version__ = "1.0"

__all__ = ["BENCH_FRAME", "BUDGET", "COLUMNS", "Cell", "IMAGE_LIMIT", "Image", "LOG_LENGTH", "Leaf", "LogRecord",
           "MissingPackage", "Needs", "NoLibrary", "Outcome", "REPORT_LENGTH", "Recording", "Refusal", "Refused", "Row",
           "Run", "SourceError", "WORK_LENGTH"]
