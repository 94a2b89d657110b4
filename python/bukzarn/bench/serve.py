"""Starts a bench: reads the texts and the frames, and serves the page until it is ended."""
from __future__ import annotations

import secrets
from pathlib import Path

from .. import _library
from ..image import BENCH_FRAME, split_frames
from ..lang import sounding
from .server import Server

# The most frames that are run at each change of a text: an ascent of two hours has some 7,200 of one second each.
FRAME_LIMIT = 20_000

# The most bytes of a recording that are read: those of a bench sheet's frame each, and more.
RECORDING_LIMIT = FRAME_LIMIT * 1_024


LAST_PORT = 65_535


class StartError(Exception):
    """What a bench cannot be started with, in words."""


def read_frames(file: str | None, length: int | None) -> tuple[list[bytes], dict]:
    """The frames, and what the page tells of them. Without a recording it is the one frame of the bench sheet."""
    if file is None:
        return [BENCH_FRAME], {"name": "the bench sheet's frame", "count": 1, "length": len(BENCH_FRAME), "left": 0}
    if not length:
        raise StartError("say how long a frame is: --length N")
    with open(file, "rb") as opened:
        data = opened.read(RECORDING_LIMIT + length)
    data = data[:len(data) - len(data) % length] if len(data) > RECORDING_LIMIT else data
    try:
        frames = split_frames(data, length)
    except ValueError as error:
        raise StartError(f"{file}: {error}") from None
    if not frames:
        raise StartError(f"{file} has no frame")
    kept = frames[:FRAME_LIMIT]
    left = Path(file).stat().st_size // length - len(kept)
    return kept, {"name": Path(file).name, "count": len(kept), "length": length, "left": left}


def bench(texts: list[tuple[str, str]], frames: str | None, length: int | None, port: int, columns: str) -> Server:
    """The server of a bench: the first text is the procedure, the others are watches; each is a text and its file's name."""
    sounding.columns(columns)
    if port > LAST_PORT:
        raise StartError(f"there is no port {port}: they are 1 to {LAST_PORT}, or 0 for one that is free")
    _library.load_library(_library.library_path())
    kept, told = read_frames(frames, length)
    named = [{"name": Path(name).name, "text": text} for text, name in texts]
    start = {"procedure": named[0], "watches": named[1:], "frames": told, "began": secrets.token_hex(8)}
    setup = {"procedure": texts[0][0], "frames": [frame.hex() for frame in kept], "columns": columns}
    try:
        return Server(port, start, setup)
    except OSError as error:
        raise StartError(f"port {port} is not free ({error.strerror}): name another with --port") from None
