"""The proved library: where it is, and its functions with their types, as include/bukzarn.h declares them.

A caller of the library trusts these declarations, as one in C trusts the header.
"""
from __future__ import annotations

import ctypes
import os
import threading
from pathlib import Path

from . import build

# Lengths, in bytes (document 01).
IMAGE_LIMIT = 16_384
WORK_LENGTH = 35_857
REPORT_LENGTH = 17_994
LOAD_LENGTH = 16_384

# How many numbers `need` gives (document 02, card 10).
NEEDS = 11

COMMAND = "python3 python/bukzarn/build.py"

BYTES, LENGTH, NUMBER = ctypes.c_char_p, ctypes.c_size_t, ctypes.c_uint64
OUTPUT = ctypes.c_void_p
ARGUMENTS = {
    "run": (BYTES, LENGTH, BYTES, LENGTH, ctypes.c_uint32, OUTPUT, LENGTH, OUTPUT, LENGTH, OUTPUT, LENGTH),
    "run_frames": (BYTES, LENGTH, BYTES, LENGTH, ctypes.c_uint32, OUTPUT, LENGTH, OUTPUT, LENGTH, OUTPUT, LENGTH, OUTPUT,
                   LENGTH),
    "validate": (BYTES, LENGTH, LENGTH, LENGTH),
    "need": (BYTES, LENGTH, OUTPUT, LENGTH),
    "fixed": (BYTES, LENGTH, OUTPUT, LENGTH),
    "load": (ctypes.c_uint32, LENGTH, OUTPUT, LENGTH),
    "strip": (BYTES, LENGTH, ctypes.c_uint16, OUTPUT, LENGTH),
}


class NoLibrary(Exception):
    """The shared library is not there, or is not one of ours."""


def library_path() -> Path:
    """The file of the shared library: in the folder that BUKZARN_LIBRARY names, if there is one in it, else beside this file.
    One that is older than the repository's archive is not taken, since it may be another engine."""
    named = Path(os.environ.get("BUKZARN_LIBRARY") or build.PACKAGE) / build.SHARED
    found = named if named.is_file() else build.PACKAGE / build.SHARED
    if not found.is_file():
        raise NoLibrary(f"{found} is not there: make it with '(cd crates/bukzarn && rt lib)' and '{COMMAND}'")
    archive = build.PACKAGE.parents[1] / "crates/bukzarn/out" / build.ARCHIVE
    if found.parent == build.PACKAGE and archive.is_file() and archive.stat().st_mtime > found.stat().st_mtime:
        raise NoLibrary(f"{found} is older than {archive}: make it again with '{COMMAND}'")
    return found


def load_library(file: Path) -> dict:
    """The functions of a library's file by their names."""
    try:
        library = ctypes.CDLL(str(file))
        functions = {name: getattr(library, f"bukzarn_{name}") for name in ARGUMENTS}
    except (OSError, AttributeError) as error:
        raise NoLibrary(f"{file} is not the engine for this machine ({error}): make it again with '{COMMAND}'") from None
    for name, function in functions.items():
        function.argtypes = ARGUMENTS[name]
        function.restype = None if name == "run_frames" else NUMBER
    return functions


class Library:
    """The functions, loaded when the first of them is called."""

    def __init__(self) -> None:
        self.lock = threading.Lock()
        self.functions: dict = {}

    def __getattr__(self, name: str):
        with self.lock:
            if not self.functions:
                self.functions.update(load_library(library_path()))
        return self.functions[name]


library = Library()


class Memory(threading.local):
    """The memory that is lent to calls, of each thread its own: logs, reports, answers and a work area."""

    def __init__(self) -> None:
        self.work = ctypes.create_string_buffer(WORK_LENGTH)
        self.allocate(0, 1)

    def allocate(self, log: int, count: int) -> None:
        """Logs of a length, and as many reports and answers."""
        self.log, self.count = log, count
        self.logs = ctypes.create_string_buffer(max(1, log * count))
        self.reports = ctypes.create_string_buffer(REPORT_LENGTH * count)
        self.answers = (ctypes.c_uint64 * count)()
        self.log_view, self.report_view = memoryview(self.logs).cast("B"), memoryview(self.reports).cast("B")

    def reserve(self, log: int, count: int) -> None:
        """Makes room for so many logs of a length."""
        if self.log != log or self.count < count:
            self.allocate(log, count)

    def result_bytes(self, answer: int, i: int) -> tuple[bytes, bytes]:
        """The bytes of log and report that the i-th of the calls left, which answered this."""
        at, base = i * self.log, i * REPORT_LENGTH
        return bytes(self.log_view[at:at + (answer >> 16)]), bytes(self.report_view[base:base + (answer & 0xFFFF)])


memory = Memory()
