"""Judges watches in a process of its own, which ends if one takes too long.

A line of standard input is a request, in JSON: the first is what the bench is started with, each later one the texts of watches.
Each answer is a line of standard output.
"""
from __future__ import annotations

import json
import resource
import signal
import sys

from .judge import Setup, judge

# The most seconds that texts may take, and the most memory that the process may have.
TIME_LIMIT = 4.0
MEMORY_LIMIT = 2 << 30

# Enough for texts that are far deeper than an image may be, and few enough for the memory that Python has for calls.
RECURSION_LIMIT = 6_000


def setup(line: str) -> Setup:
    said = json.loads(line)
    return Setup(said["procedure"], tuple(map(bytes.fromhex, said["frames"])), said["columns"])


def main() -> None:
    signal.signal(signal.SIGINT, signal.SIG_DFL)
    sys.setrecursionlimit(RECURSION_LIMIT)
    resource.setrlimit(resource.RLIMIT_AS, (MEMORY_LIMIT, MEMORY_LIMIT))
    started = setup(sys.stdin.readline())
    for line in sys.stdin:
        # The alarm ends the process, also inside the library or a long loop; who asked sees that no answer came.
        signal.setitimer(signal.ITIMER_REAL, TIME_LIMIT)
        answer = judge(started, json.loads(line))
        signal.setitimer(signal.ITIMER_REAL, 0)
        print(json.dumps(answer, separators=(",", ":")), flush=True)


if __name__ == "__main__":
    main()
