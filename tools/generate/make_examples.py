#!/usr/bin/env python3
"""Makes the images of examples/ from their texts.

Run in the repository's root: python3 tools/generate/make_examples.py [WATCH [NEED]]
It writes examples/NAME.img for each line of examples/LIST. With WATCH (crates/watch/out/watch) it also writes the listings
examples/NAME.txt: what WATCH prints for each image; with NEED (crates/need/out/need) for some of them examples/NAME.need: what
NEED prints. make_stored.py puts the images among those that the gate runs.
"""
import subprocess
import sys
from pathlib import Path

sys.path.insert(0, str(Path(__file__).resolve().parents[2] / "python"))

from bukzarn.lang.assembler import assemble  # noqa: E402 (the path is set here)

EXAMPLES = Path("examples")

# The examples of what a flight will need (document 02, card 10).
WITH_NEEDS = ("plain", "ground", "limits")


def examples(folder=EXAMPLES):
    """Each example: its name and its texts' files."""
    for line in (folder / "LIST").read_text().split("\n"):
        words = line.split("#")[0].split()
        if words:
            yield words[0], words[1:]


def assembled(files, folder=EXAMPLES):
    """What the texts of an example give."""
    texts = [((folder / f).read_text(), f) for f in files]
    return assemble(*texts[0], texts[1:])


def said(program, image):
    """What a program prints for an image."""
    return subprocess.run([program], input=image, capture_output=True, check=True).stdout


def main(watch=None, need=None):
    for name, files in examples():
        image = assembled(files).image
        (EXAMPLES / f"{name}.img").write_bytes(image)
        if watch:
            (EXAMPLES / f"{name}.txt").write_bytes(said(watch, image))
        if need and name in WITH_NEEDS:
            (EXAMPLES / f"{name}.need").write_bytes(said(need, image))


if __name__ == "__main__":
    main(*sys.argv[1:])
