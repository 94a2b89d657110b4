#!/usr/bin/env python3
"""Names that a file of the crates imports and does not use, a line each: file and name.

An operator counts as used if its signs stand somewhere in the file; so it may miss one, and never names one that is used.
"""
import re
import sys
from pathlib import Path

from imports import WORD, items, theory, without_comments, without_imports

ROOT = Path(__file__).resolve().parents[2]


def words_used(text):
    """The words of a file but for its imports and comments, whole and in their parts."""
    text = without_imports(text)
    words = set(WORD.findall(text))
    if "[]" in text:
        words.add("[]")
    for word in list(words):
        words.update(re.split(r"[.·:&!*=<>]+", word))
    return words


# Traits of the library that a file imports for their methods alone, and one of these methods.
METHODS = {"Env": "arg"}


def is_used(name, words):
    """A trait is used if its method is. An operator is used if each of its signs stands somewhere."""
    if "◌" in name:
        return all(any(sign in word for word in words) for sign in name.split("◌") if sign)
    return name in words or METHODS.get(name) in words


def unused(file):
    text = without_comments(file.read_text(encoding="utf-8"), file.suffix)
    words = words_used(text)
    for _, names, _ in theory(text):
        yield from (name if name.split(".")[-1] == here else f"{name} as {here}" for name, here in names or () if not is_used(here, words))
    yield from (here for _, here in items(text) if not is_used(here, words))


def all_unused(root=ROOT):
    files = sorted(f for f in root.glob("crates/**/*") if f.suffix in (".rt", ".antt") and not {"must-fail", "out"} & set(f.parts))
    return [f"{file.relative_to(root)}: {name}" for file in files for name in unused(file)]


if __name__ == "__main__":
    found = all_unused()
    print("\n".join(found))
    sys.exit(1 if found else 0)
