#!/usr/bin/env python3
"""Spells the names of definitions, laws, fields and constructors in pages as the crates have them today (names.txt says how).

    python3 tools/port/pages.py README.md docs/CLAIMS.md docs/CONTRIBUTING.md docs/CRATES.md docs/DECISIONS.md docs/FIGURES.md

It changes code letters and code blocks alone: names by names.txt, `_+_` to `◌+◌`, `′` to `'`. A name that names.txt lacks and no
file of specs/ or proofs/ has is spelt in snake case where some file has it so. What then stands in no file of the crates is
printed, to be looked at.
"""
import re
import sys
from pathlib import Path

from respell import ROOT, TOKEN, code_of, snake

HERE = Path(__file__).resolve().parent
WORD = re.compile(r"[A-Za-z][\w-]*[\w₀-₉']*")
CODE = re.compile(r"`[^`\n]+`|^(?: {4}).*$", re.M)
OPERATOR = re.compile(r"_[^\s\w`()]+(?:_[^\s\w`()]*)*_?|[^\s\w`()]+_")


def words_of_the_crates():
    words = set()
    for file in Path(ROOT, "crates").rglob("*"):
        if file.suffix in (".rt", ".antt") and "out" not in file.parts:
            words.update(WORD.findall(code_of(file.read_text(encoding="utf-8"), "//" if file.suffix == ".rt" else "--")))
    return words


def main():
    to = dict(line.split() for line in (HERE / "names.txt").read_text(encoding="utf-8").splitlines())
    words = words_of_the_crates()

    def name(found):
        old = found[0].replace("′", "'")
        if old in to:
            return to[old]
        if old not in words and re.fullmatch(r"[a-z][\w'-]*", old):
            for new in (snake(old), snake(old) + "_lem", snake(old) + "_of"):
                if new in words:
                    return new
        return old

    def code(found):
        text = OPERATOR.sub(lambda op: op[0].replace("_", "◌"), found[0])
        return TOKEN.sub(name, text)

    for page in sys.argv[1:]:
        file = Path(page)
        text = file.read_text(encoding="utf-8")
        new = CODE.sub(code, text)
        if new != text:
            file.write_text(new, encoding="utf-8")
        for old, said in zip(CODE.findall(text), CODE.findall(new)):
            if old != said and any(word not in words for word in WORD.findall(said)):
                print(f"look: {page}: {old.strip()} -> {said.strip()}")


if __name__ == "__main__":
    main()
