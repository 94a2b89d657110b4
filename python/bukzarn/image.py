"""Images: programs for the engine, and the calls that run, check and write them."""
from __future__ import annotations

import ctypes
import os
from collections.abc import Iterable, Iterator, Sequence
from pathlib import Path

from ._library import IMAGE_LIMIT, LOAD_LENGTH, NEEDS, REPORT_LENGTH, WORK_LENGTH, library, memory
from .lang import archive, assembler, refusals
from .needs import Needs
from .numbers import Refusal, Refused
from .recording import Recording
from .runs import Run, read_run

# What the bench sheet of document 01 runs with: budget, length of the log, frame.
BUDGET = 100_000
LOG_LENGTH = 16_384
BENCH_FRAME = bytes(range(256))

# How many frames are run in one call, and how much memory their logs may take.
BATCH, BATCH_LOGS = 64, 1 << 24

LARGEST = (1 << 32) - 1

Bytes = bytes | bytearray | memoryview
File = str | os.PathLike


def check_range(name: str, number: int, limit: int = LARGEST) -> int:
    """A number that the library can be given as it is."""
    if not 0 <= number <= limit:
        raise ValueError(f"{name} is {number}, and must be 0 to {limit}")
    return number


class Image:
    """A program for the engine, as the bytes of an image.

    Nothing is checked when an image is made: `verdict` checks it, and so does every call, as the engine's own do. The domains'
    names and the places of its terms are known if it was assembled from texts.

    Several threads can use one image at the same time: each thread has memory of its own for calls.
    """
    __slots__ = ("data", "domains", "places")

    def __init__(self, data: Bytes, domains: Sequence[str] = (), places: dict | None = None) -> None:
        self.data, self.domains, self.places = bytes(data), tuple(domains), places or {}

    @classmethod
    def read(cls, file: File, *watches: File) -> Image:
        """An image's file, whose name ends with .img, or a procedure's text with the texts of watches."""
        if str(file).endswith(".img"):
            if watches:
                raise ValueError(f"{file} is an image, and takes no watches: name the text of its procedure")
            return cls(Path(file).read_bytes())
        texts = [(Path(f).read_text(encoding="utf-8-sig"), str(f)) for f in (file, *watches)]
        return cls._from_assembled(assembler.assemble(*texts[0], texts[1:]))

    @classmethod
    def from_text(cls, procedure: str, *watches: str) -> Image:
        """A procedure and watches that are texts (docs/LANGUAGE.md). What is wrong in a text is a SourceError."""
        named = [(text, f"watch {n}") for n, text in enumerate(watches, 1)]
        return cls._from_assembled(assembler.assemble(procedure, "procedure", named))

    @classmethod
    def from_seed(cls, seed: int, depth: int) -> Image:
        """The image of a seed and a depth, a load that is the same at every station (document 02, card 12)."""
        output = ctypes.create_string_buffer(LOAD_LENGTH)
        answer = library.load(check_range("the seed", seed), check_range("the depth", depth), output, LOAD_LENGTH)
        return cls(output_bytes(answer, output))

    @classmethod
    def _from_assembled(cls, made: assembler.Assembled) -> Image:
        return cls(made.image, made.domains, made.places)

    def __eq__(self, other: object) -> bool:
        return isinstance(other, Image) and self.data == other.data

    def __hash__(self) -> int:
        return hash(self.data)

    def __len__(self) -> int:
        return len(self.data)

    def __repr__(self) -> str:
        return f"<Image of {len(self.data)} bytes>"

    def write(self, file: File) -> None:
        """Writes the image to a file."""
        Path(file).write_bytes(self.data)

    def verdict(self) -> Refused | None:
        """Nothing if the engine accepts the image, else its refusal, explained."""
        answer = library.validate(self.data, len(self.data), WORK_LENGTH, REPORT_LENGTH)
        return self._refusal(answer) if answer else None

    def run(self, frame: Bytes = BENCH_FRAME, budget: int = BUDGET, log_length: int = LOG_LENGTH) -> Run:
        """Runs the image over a frame, for at most `budget` steps. Refused is raised if the engine refuses the image."""
        memory.reserve(check_range("the log's length", log_length), 1)
        check_range("the budget", budget)
        frame = bytes(frame)
        answer = library.run(self.data, len(self.data), frame, len(frame), budget, memory.logs, log_length, memory.reports,
                             REPORT_LENGTH, memory.work, WORK_LENGTH)
        return self._read(answer, 0)

    def run_frames(self, recording: Bytes | Iterable[Bytes], length: int | None = None, budget: int = BUDGET,
                   log_length: int = LOG_LENGTH) -> Recording:
        """Runs the image over each frame of a recording, with one check for every 64 of them.

        `recording` is the frames one after another, `length` bytes each, or anything that gives one frame after another.
        Refused is raised if the engine refuses the image.
        """
        frames = split_frames(recording, length) if isinstance(recording, (bytes, bytearray, memoryview)) else recording
        return Recording(list(self.run_each(frames, budget, log_length)))

    def run_each(self, frames: Iterable[Bytes], budget: int = BUDGET, log_length: int = LOG_LENGTH) -> Iterator[Run]:
        """The runs over frames, one after another, of which none is kept: for recordings that are longer than the memory."""
        check_range("the budget", budget)
        batch = max(1, min(BATCH, BATCH_LOGS // max(1, check_range("the log's length", log_length))))
        for same in batches(map(bytes, frames), batch):
            yield from self._run_batch(same, budget, log_length)

    def _run_batch(self, frames: list[bytes], budget: int, log: int) -> list[Run]:
        """One call over frames of one length."""
        count, joined = len(frames), b"".join(frames)
        memory.reserve(log, count)
        library.run_frames(self.data, len(self.data), joined, len(joined), budget, memory.logs, log * count, memory.reports,
                           REPORT_LENGTH * count, memory.answers, count, memory.work, WORK_LENGTH)
        return [self._read(answer, i) for i, answer in enumerate(memory.answers[:count])]

    def _read(self, answer: int, i: int) -> Run:
        """What call i of the lent memory answered and left."""
        if not answer & 0xFFFF:
            raise self._refusal(answer)
        return read_run(*memory.result_bytes(answer, i))

    def _refusal(self, answer: int) -> Refused:
        """A refusal of this image, with the line of its text."""
        refusal, place = refusal_of(answer)
        words = refusals.explain(self.data, int(refusal), place, self.places, list(self.domains) or None)
        return Refused(refusal, place, words)

    def need(self) -> Needs:
        """What any run will need at most (document 02, card 10). Refused, with 19, if the image is outside the class whose needs
        are known without a run."""
        numbers = (ctypes.c_uint32 * NEEDS)()
        answer = library.need(self.data, len(self.data), numbers, NEEDS)
        if answer:
            raise self._refusal(answer)
        return Needs(*numbers)

    def fixed_form(self) -> Image:
        """The fixed form, the same for every image of a program (document 02, card 11)."""
        return self._write_form(lambda output: library.fixed(self.data, len(self.data), output, len(output)))

    def name(self) -> str:
        """The archive's name for the program: the first 16 hexadecimal digits of SHA-256 over the fixed form."""
        return archive.name(self.fixed_form().data)

    def stripped_form(self, keep: Iterable[int | str] = (0,)) -> Image:
        """The image without the watches below the kept domains, in the fixed form (document 02, card 13). The domains are
        numbers or names, domain 0 among them, and with each every domain above it."""
        mask = 0
        for domain in keep:
            number = self.domains.index(domain) if domain in self.domains else int(domain)
            mask |= 1 << check_range("a domain", number, 15)
        return self._write_form(lambda output: library.strip(self.data, len(self.data), mask, output, len(output)))

    def _write_form(self, call) -> Image:
        """The image that a call writes into an output as long as this one."""
        output = ctypes.create_string_buffer(max(1, len(self.data)))
        answer = call(output)
        if not answer & 0xFFFF:
            raise self._refusal(answer)
        return Image(output.raw[:answer & 0xFFFF], self.domains)


def refusal_of(answer: int) -> tuple[Refusal, int]:
    """The number and the place of a refusal, from what a call answers."""
    return Refusal(answer >> 16 & 0xFF), answer >> 24


def output_bytes(answer: int, output) -> bytes:
    """The bytes that a call wrote; of a refusal it is raised."""
    if not answer & 0xFFFF:
        raise Refused(*refusal_of(answer))
    return output.raw[:answer & 0xFFFF]


def split_frames(recording: Bytes, length: int | None) -> list[bytes]:
    """The frames of a recording. A last one that is short is not hidden."""
    if not length or length < 0:
        raise ValueError("name the length of a frame: run_frames(recording, length)")
    recording = bytes(recording)
    if len(recording) % length:
        raise ValueError(f"the recording has {len(recording)} bytes, which is no multiple of {length}: the last frame is short, "
                         "or the length is wrong")
    return [recording[at:at + length] for at in range(0, len(recording), length)]


def batches(frames: Iterable[bytes], most: int):
    """Lists of at most so many frames that follow each other and have the same length."""
    same: list[bytes] = []
    for frame in frames:
        if same and (len(same) == most or len(frame) != len(same[0])):
            yield same
            same = []
        same.append(frame)
    if same:
        yield same
