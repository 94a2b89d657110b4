"""Processes that judge watches: a text that takes long holds up one of them for a limited time, and the page not at all."""
from __future__ import annotations

import contextlib
import json
import queue
import subprocess
import sys
from pathlib import Path
from typing import IO, cast

from . import worker

WORKERS = 2

# How long a request waits until one of them is free, in seconds: until each has ended what it does.
QUEUE_TIMEOUT = worker.TIME_LIMIT + 1

START = "import sys; sys.path.insert(0, sys.argv[1]); from bukzarn.bench.worker import main; main()"
FOLDER = str(Path(__file__).resolve().parents[2])


class Busy(Exception):
    """No process was free in time."""


class OverLimit(Exception):
    """The texts took too long, or too much memory."""


class Worker:
    """A process that judges, started anew when it has ended."""

    def __init__(self, setup: bytes) -> None:
        self.setup = setup
        self.start()

    def start(self) -> None:
        """Starts the process, which takes its own time for what it is started with."""
        words = [sys.executable, "-I", "-c", START, FOLDER]
        self.process = subprocess.Popen(words, stdin=subprocess.PIPE, stdout=subprocess.PIPE, stderr=subprocess.DEVNULL)
        self.requests, self.answers = cast(IO[bytes], self.process.stdin), cast(IO[bytes], self.process.stdout)
        with contextlib.suppress(OSError):
            self.requests.write(self.setup)
            self.requests.flush()

    def ask(self, request: bytes) -> bytes:
        """The answer to a request. The process ends itself if it takes too long."""
        if self.process.poll() is not None:
            self.end()
            self.start()
        try:
            self.requests.write(request)
            self.requests.flush()
            answer = self.answers.readline()
        except OSError:
            answer = b""
        if not answer.endswith(b"\n"):
            self.end()
            raise OverLimit
        return answer

    def end(self) -> None:
        """Ends the process; what it did not read goes nowhere."""
        self.process.kill()
        self.process.wait()
        self.answers.close()
        with contextlib.suppress(OSError):
            self.requests.close()


class Pool:
    """Some workers, each of which judges one request at a time."""

    def __init__(self, setup: dict) -> None:
        line = json.dumps(setup).encode() + b"\n"
        self.all = [Worker(line) for _ in range(WORKERS)]
        self.free: queue.SimpleQueue[Worker] = queue.SimpleQueue()
        for one in self.all:
            self.free.put(one)

    def ask(self, watches: list[str]) -> bytes:
        """What is to be said of watches, as JSON."""
        try:
            one = self.free.get(timeout=QUEUE_TIMEOUT)
        except queue.Empty:
            raise Busy from None
        try:
            return one.ask(json.dumps(watches).encode() + b"\n")
        finally:
            self.free.put(one)

    def end(self) -> None:
        for one in self.all:
            one.end()
