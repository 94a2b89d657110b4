#!/usr/bin/env python3
"""Edits of must-fail/ that nothing rests on, a line each: the edit, and the file that it changes.

An edit says something of the engine only if the file that it changes is reached from a public function or from a claim. Public
functions are those of the library for other languages and the programs; claims are the files of proofs/ and specs/ that
docs/CLAIMS.md names. A file reaches what it imports, and a source file reaches the proofs of its functions too. Nothing is
reached through a crate that crates.txt does not put below it, since rt would not find it there.
"""
import functools
import re
import sys
from pathlib import Path

import gate_order
from imports import items, named, place, theory, without_comments

ROOT = Path(__file__).resolve().parents[2]
SOURCE = re.compile(r"\b(\w+)::(\w+)")
CLAIM = re.compile(r"\bcrates/(\w+)/((?:specs|proofs)/[\w/]+\.antt)")


def crates(root):
    """Each crate with the crates that it stands on."""
    return gate_order.crates((root / "crates.txt").read_text(encoding="utf-8"))


def below(graph):
    """Each crate with all that it stands on, directly or not, and itself."""
    @functools.cache
    def closure(name):
        return frozenset({name}).union(*(closure(one) for one in graph[name] if one in graph))

    return {name: closure(name) for name in graph}


def source_file(crate, words):
    """The file of a crate's src/ that a path begins with; the crate's own file where it names none."""
    for word in words[:1]:
        if (crate / "src" / f"{word}.rt").is_file():
            return crate / "src" / f"{word}.rt"
    return next((file for file in (crate / "src/lib.rt", crate / "src/main.rt") if file.is_file()), crate / "src")


def proofs_of(file, text):
    """The proofs of the functions of a source file."""
    crate = next(folder for folder in file.parents if folder.parent.name == "crates")
    proofs = crate / "proofs"
    if file.stem not in ("lib", "main"):
        return (proofs / file.stem).rglob("*.antt")
    names = set(re.findall(r"(?:\bfn |\bimpl |#\[cycle\()(\w+)", text))
    folders = (folder for folder in proofs.glob("*") if folder.is_dir() and names & set(folder.name.split("+")))
    return (found for folder in folders for found in folder.rglob("*.antt"))


def named_by(root, file, graph):
    """The files that a file names."""
    text = without_comments(file.read_text(encoding="utf-8"), file.suffix)
    for module, _, _ in theory(text):
        if place(module):
            crate, part, words = place(module)
            folder = root / "crates" / crate
            yield source_file(folder, words[1:]) if words[0] == "declared" else folder.joinpath(part, *words).with_suffix(".antt")
    if file.suffix == ".rt":
        own = file.relative_to(root).parts[1]
        for crate, part, words, _ in named(text, own):
            yield (root / "crates" / crate).joinpath(part, *words).with_suffix(".antt")
        for crate, word in [*SOURCE.findall(text), *(path[:2] for path, _ in items(text) if len(path) > 1)]:
            crate = own if crate == "crate" else crate
            if crate in graph:
                yield source_file(root / "crates" / crate, [word])
        for word in re.findall(r"\b(\w+)::", text):
            if (file.parent / f"{word}.rt").is_file():
                yield file.parent / f"{word}.rt"
        yield from proofs_of(file, text)


def roots(root, graph):
    """The files of the public functions, and those of the claims."""
    for crate in graph:
        for file in sorted((root / "crates" / crate / "src").rglob("*.rt")):
            if file.name == "main.rt" or "#[unsafe(no_mangle)]" in file.read_text(encoding="utf-8"):
                yield file
    for crate, file in CLAIM.findall((root / "docs/CLAIMS.md").read_text(encoding="utf-8")):
        yield root / "crates" / crate / file


def reached(root):
    """The files that the public functions and the claims rest on."""
    graph = crates(root)
    under = below(graph)
    seen, todo = set(), list(roots(root, graph))
    while todo:
        file = todo.pop()
        if file in seen or not file.is_file():
            continue
        seen.add(file)
        own = file.relative_to(root).parts[1]
        todo += (one for one in named_by(root, file, graph) if one.relative_to(root).parts[1] in under[own])
    return seen


def unreached_edits(root=ROOT):
    seen = reached(root)
    found = []
    for edit in sorted(root.glob("crates/*/must-fail/*.edit")):
        for name in re.findall(r"^file: (.*)$", edit.read_text(encoding="utf-8"), re.M):
            if edit.parents[1] / name not in seen:
                found.append(f"{edit.parents[1].name}/{edit.stem}: {name}")
    return found


if __name__ == "__main__":
    lines = unreached_edits()
    for line in lines:
        print(line)
    sys.exit(1 if lines else 0)
