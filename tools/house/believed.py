#!/usr/bin/env python3
"""The definitions that a reader of the demands must believe.

They are the statements of the demands, of acceptance, of cards 4 and 12 and of P1 to P8, what the contracts of the
engine and of its library for other languages cite, and all definitions that these use, file by file: the closure of
their imports. P1 to P8 are a table that stands among the proofs, with its images.
docs/CLAIMS.md lists the same files, and a test compares the two.
"""
import sys
from pathlib import Path

from imports import place, theory, without_comments

ROOT = Path(__file__).resolve().parents[2]
STATEMENTS = ("demands/specs", "call_spec/specs", "verdict/specs/Acceptable.antt", "listing/specs/Listing.antt",
              "write_load/specs/Card12.antt", "answers_as_numbers/specs", "bukzarn/specs",
              "vm_links/specs", "demands_examples/proofs/Conformance.antt")


def imports(file):
    """The files of definitions that a file names; what a crate's code declares stands in its src/."""
    for module, _, _ in theory(without_comments(file.read_text(encoding="utf-8"), file.suffix)):
        crate, part, words = place(module) or (None, None, None)
        if crate and (ROOT / "crates" / crate).is_dir():
            folder = ROOT / "crates" / crate
            yield folder / "src" if words[0] == "declared" else folder.joinpath(part, *words).with_suffix(".antt")


def closure(files):
    """The files and all that they use, as paths from the repository's root."""
    seen, todo = set(), list(files)
    while todo:
        file = todo.pop()
        if file in seen:
            continue
        seen.add(file)
        if file.is_file():
            todo += imports(file)
    return sorted(str(f.relative_to(ROOT)) for f in seen)


def believed():
    """The files of the statements, and all that they use."""
    places = [ROOT / "crates" / place for place in STATEMENTS]
    return closure(f for p in places for f in ([p] if p.is_file() else p.glob("*.antt")) if f.name != "Lib.antt")


if __name__ == "__main__":
    try:
        print("\n".join(believed()))
    except BrokenPipeError:
        sys.exit(0)
