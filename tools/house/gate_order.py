#!/usr/bin/env python3
"""The order of crates.txt, and what the gate waits for.

The gate proves as many crates side by side as there are processors, those with the longest chain of others above them first,
whatever their order in crates.txt. So that order is for readers: layer by layer, and within a layer the crate first that has
the most lines to prove. Prints the lines of crates.txt in that order; with --chain the longest chain of crates, each of which
stands on the one before, with their lines: the gate takes no less time than for these.
"""
import re
import sys
from pathlib import Path

ROOT = Path(__file__).resolve().parents[2]


def crates(text):
    """Each crate with the crates that it stands on, in the file's order."""
    rows = (re.fullmatch(r"(\w+)[^:]*(?::(.*))?", line.split("#")[0].strip()) for line in text.splitlines())
    return {row[1]: (row[2] or "").split() for row in rows if row}


def layers(below):
    """The layer of each crate: 0 where it stands on none, else one more than the highest of those that it stands on."""
    layer = {}

    def find(name):
        if name not in layer:
            layer[name] = max((find(one) + 1 for one in below[name] if one in below), default=0)
        return layer[name]

    for name in below:
        find(name)
    return layer


def lines(name, root=ROOT):
    """The lines of a crate that are proved: sources, definitions and proofs."""
    files = (file for part in ("src", "specs", "proofs") for file in (root / "crates" / name / part).rglob("*"))
    return sum(file.read_text(encoding="utf-8").count("\n") for file in files if file.suffix in (".rt", ".antt"))


def ordered(below, size):
    layer = layers(below)
    return sorted(below, key=lambda name: (layer[name], -size.get(name, 0), name))


def chain(below, size):
    """The longest chain, from its lowest crate on."""
    longest = {}
    for name in ordered(below, size):
        under = max((longest[one] for one in below[name] if one in below), default=(0, []))
        longest[name] = (under[0] + size[name], [*under[1], name])
    return max(longest.values())[1]


def main():
    text = (ROOT / "crates.txt").read_text(encoding="utf-8")
    below = crates(text)
    size = {name: lines(name) for name in below}
    if "--chain" in sys.argv[1:]:
        for name in chain(below, size):
            print(f"{size[name]:6} {name}")
        return
    rows = {re.match(r"\w+", line)[0]: line for line in text.splitlines() if re.match(r"\w", line)}
    print("\n".join(line for line in text.splitlines() if line.startswith("#")))
    for name in ordered(below, size):
        print(rows[name])


if __name__ == "__main__":
    main()
