#!/usr/bin/env python3
"""A station's decoder in Python, over the proved engine.

Frame by frame from a pipe, as a receiver gives them; a line for each printed number, as soon as it is decoded:

    python3 examples/python/decoder.py examples/ascent/watched.img 12 < examples/ascent/ascent.frames

A whole recording as a table, with a row for each level, and as a picture:

    python3 examples/python/decoder.py examples/ascent/watched.img 12 --recording examples/ascent/ascent.frames --svg ascent.svg

Exit status: 0 if every run is done, 1 if the image is refused or a file is wrong, 4 if a run ended otherwise, 2 for wrong use.
"""
import argparse
import signal
import sys
from pathlib import Path

# Where the package is not installed, it is used as it stands in the repository.
sys.path.insert(0, str(Path(__file__).resolve().parents[2] / "python"))

from bukzarn import COLUMNS, Image, MissingPackage, NoLibrary, Refused  # noqa: E402 (the path is set here)

NOT_DONE = 4


def frames(source, length):
    """The frames of a pipe, each as soon as all its bytes are there."""
    while frame := source.read(length):
        while len(frame) < length and (more := source.read(length - len(frame))):
            frame += more
        if len(frame) < length:
            sys.exit(f"decoder: the last frame has {len(frame)} of {length} bytes")
        yield frame


def decode(image, source, length):
    """Decodes a pipe: a line for each printed number at once. Answers how many runs were not done."""
    failed = 0
    print("frame,domain,number", flush=True)
    for number, frame in enumerate(frames(source, length)):
        run = image.run(frame)
        print("".join(f"{number},{domain},{value}\n" for domain, value in run.log), end="", flush=True)
        if not run.done:
            failed += 1
            print(f"frame {number}: {run.outcome.words}", file=sys.stderr)
    return failed


def table(image, file, args):
    """Decodes a recording: a table with a row for each level, by pandas if it is there. Answers how many runs were not done."""
    recording = image.run_frames(Path(file).read_bytes(), args.length)
    try:
        print(recording.table(args.columns).to_string(index=False))
    except MissingPackage:
        print(recording.sounding(args.columns).text(), end="")
    if args.svg:
        Path(args.svg).write_text(recording.svg(args.columns, Path(file).stem), encoding="utf-8")
    print(recording, file=sys.stderr)
    return sum(not run.done for run in recording)


def main():
    signal.signal(signal.SIGINT, signal.SIG_DFL)
    signal.signal(signal.SIGPIPE, signal.SIG_DFL)
    parser = argparse.ArgumentParser(description=__doc__.split("\n")[0])
    parser.add_argument("image", metavar="IMAGE")
    parser.add_argument("length", type=int, metavar="LENGTH", help="the bytes of a frame")
    parser.add_argument("--recording", metavar="FILE", help="a recording, in place of standard input")
    parser.add_argument("--columns", default=COLUMNS, metavar="NAMES", help=f"what the decoder prints for each level ({COLUMNS})")
    parser.add_argument("--svg", metavar="FILE", help="where to draw the sounding of a recording")
    args = parser.parse_args()
    if args.length < 1:
        parser.error("a frame has at least one byte")
    try:
        image = Image.read(args.image)
        if refused := image.verdict():
            raise refused
        failed = table(image, args.recording, args) if args.recording else decode(image, sys.stdin.buffer.raw, args.length)
    except (Refused, NoLibrary, OSError, ValueError) as error:
        sys.exit(f"decoder: {error}")
    sys.exit(NOT_DONE if failed else 0)


if __name__ == "__main__":
    main()
