#!/usr/bin/env python3
"""Feeds a receiver through a pipe that pauses: two frames of the recorded ascent, a pause, two frames. The rows of the first
two must be there before the others are sent.

    paused_pipe.py COMMAND [WORD ...]

A word {} stands for the recording, here /dev/stdin. Exit status 1, and what came, if a row is missing.
"""
import subprocess
import sys
import threading
from pathlib import Path

ASCENT = Path(__file__).resolve().parents[2] / "examples/ascent"
LENGTH, LONGEST_PAUSE = 12, 30


def main(words):
    frames, table = (ASCENT / "ascent.frames").read_bytes(), (ASCENT / "watched.csv").read_text().splitlines(keepends=True)
    words = ["/dev/stdin" if word == "{}" else word for word in words]
    child = subprocess.Popen(words, stdin=subprocess.PIPE, stdout=subprocess.PIPE, stderr=subprocess.DEVNULL, text=False)
    # If nothing comes, the pipe is closed, and the rows that were held back come too late.
    late = threading.Timer(LONGEST_PAUSE, child.kill)
    late.start()
    came = []
    for first, rows in ((0, 7), (2, 6)):
        child.stdin.write(frames[first * LENGTH:(first + 2) * LENGTH])
        child.stdin.flush()
        came += [child.stdout.readline().decode() for _ in range(rows)]
    late.cancel()
    child.stdin.close()
    came += [line.decode() for line in child.stdout]
    status = child.wait()
    if (came, status) != (table[:13], 0):
        sys.exit(f"status {status}, and these rows:\n{''.join(came)}")


if __name__ == "__main__":
    main(sys.argv[1:])
