#!/usr/bin/env python3
"""Spells the repository's own definitions, lemmas, fields and constructors as today's Rattle does: words in snake case, facts and
types in camel case. Run once, at the top, on the text that the kit's port.py left (docs/PORT.md has the commits).

    python3 tools/port/respell.py [--dry]

It goes by tokens. A name is the repository's own if a file of specs/ or proofs/ declares it; in a file that has the same name from
a library, it stays. Functions of src/, strings and generated names (behind `c.`, `tie.` and the like) keep their spelling. In
comments and in the pages of docs/ names are spelt anew within backquotes. Names that would fall together are listed and left alone.
"""
import collections
import os
import re
import sys

ROOT = os.path.abspath(os.path.join(os.path.dirname(__file__), "..", ".."))
TOKEN = re.compile(r"[^\s(){}\[\];,.\"`@:|]+(?<!:)")
WORD = re.compile(r"[a-z][A-Za-z0-9'₀-₉_-]*\Z")
DECLARED = re.compile(r"\s*(?:pub\s+)?(?:(?:abbrev|unfoldable|data|record|opaque|instance)\s+)*(?:pub\s+)?([^\s(){};,.\":=]+)((?:\s+[^\s(){};,.\":=]+)*)\s*(?:[({].*)?:(?:\s|$)")
HEADS = {"use", "pub", "module", "open", "let", "in", "where", "infix", "infixl", "infixr", "mutual", "unfolding", "mod", "then", "else", "if", "case", "of"}
GENERATED = {"c", "tie", "goal", "l", "s", "w"}
# names that fall together otherwise
APART = {"inPlace": "in_place_term"}
KEYWORDS = {"record", "data", "open", "module", "let", "in", "where", "use", "pub", "abbrev", "elim", "rw", "simp", "search", "grind", "omega", "cc", "subst", "absurd", "do", "ruleset", "match"}


def snake(name):
    name = name.replace("-", "_")
    name = re.sub(r"(?<=[a-z0-9₀-₉'])([A-Z])", r"_\1", name)
    name = re.sub(r"(?<=[A-Z])([A-Z][a-z])", r"_\1", name)
    return name.lower()


def camel(name):
    return "".join(part[:1].upper() + part[1:] for part in re.split(r"[-_]", name))


def pieces(text, line_comment):
    """The text in pieces, each with its kind: code, comment or string."""
    out, i, start, n = [], 0, 0, len(text)
    while i < n:
        if text.startswith(line_comment, i) and (line_comment == "//" or i == 0 or text[i - 1] in " \n\t"):
            out.append(("code", text[start:i]))
            j = text.find("\n", i)
            j = n if j < 0 else j
            out.append(("comment", text[i:j]))
            i = start = j
        elif text[i] == '"':
            out.append(("code", text[start:i]))
            j = i + 1
            while j < n and text[j] != '"':
                j += 2 if text[j] == "\\" else 1
            out.append(("string", text[i:j + 1]))
            i = start = j + 1
        elif line_comment == "//" and text.startswith("b'", i):
            i += 5 if text.startswith("b'\\", i) else 4
        else:
            i += 1
    out.append(("code", text[start:]))
    return out


def files(ending):
    for folder, folders, names in os.walk(os.path.join(ROOT, "crates")):
        folders[:] = sorted(f for f in folders if f != "out")
        for name in sorted(names):
            if name.endswith(ending):
                yield os.path.join(folder, name)


def read(path):
    with open(path, encoding="utf-8") as file:
        return file.read()


def code_of(text, line_comment="--"):
    return "".join(t if kind == "code" else ("\n" * t.count("\n")) for kind, t in pieces(text, line_comment))


def from_libraries(code, crates):
    """The names that a file has from modules that are not the repository's."""
    found = set()
    for m in re.finditer(r"use\s+([^\s{};]+?)\.\{([^}]*)\}", code):
        first = m[1].split(".")
        own = first[0] == "Rattle" and len(first) > 1 and first[1] in crates
        if not own:
            for item in m[2].split(","):
                found |= {part for part in item.split(" as ")[-1:] for part in [part.strip()]}
    return found


def is_function_proof(path):
    return os.path.basename(path) == "Proof.antt" or "/Proof/" in path


def gathers():
    crates = set(os.listdir(os.path.join(ROOT, "crates")))
    names, facts, fields, places = set(), set(), set(), collections.defaultdict(set)
    for path in files(".antt"):
        code = code_of(read(path))
        lines = code.split("\n")
        in_record = None
        for i, line in enumerate(lines):
            indent = len(line) - len(line.lstrip())
            if in_record is not None and line.strip() and indent <= in_record:
                in_record = None
            if re.match(r"\s*(pub\s+)?record\b", line) and line.rstrip().endswith("where"):
                in_record = indent
            m = DECLARED.match(line)
            if not m or m[1] in HEADS:
                continue
            is_function = is_function_proof(path)
            for name in [m[1], *m[2].split()]:
                if name in HEADS or not WORD.match(name):
                    continue
                if is_function and re.match(r"\s*tie\.", line.split(":", 1)[1]):
                    continue
                names.add(name)
                places[name].add(path)
                if in_record is not None and indent > in_record:
                    fields.add(name)
    return crates, names, facts, fields, places


def spelt(crates, names, facts):
    to = {}
    for name in sorted(names):
        new = camel(snake(name)) if name in facts else snake(name)
        if new != name:
            to[name] = new
    return to


def turned(code, to, keep, fields):
    """The code with each of the repository's names spelt anew."""
    out, last = [], 0
    for m in TOKEN.finditer(code):
        name = m[0]
        if name not in to or name in keep:
            continue
        if code[m.start() - 1:m.start()] == "." and m.start() > 1:
            path = re.search(r"([^\s(){}\[\];,\"`@|]*)\.$", code[:m.start()])
            root = path[1].split(".")[0] if path else ""
            if root in GENERATED and name not in fields:
                continue
        out += [code[last:m.start()], to[name]]
        last = m.end()
    return "".join(out) + code[last:]


def in_backquotes(text, to):
    return re.sub(r"`([^`\n]+)`", lambda m: "`" + TOKEN.sub(lambda t: to.get(t[0], t[0]), m[1]) + "`", text)


def rattle_ghost(text, to):
    """Of a file of src/: `ghost use` lines and clauses are spelt anew, and nothing else."""
    out, ghost = [], False
    parts = pieces(text, "//")
    whole = "".join(t if k == "code" else re.sub(r"[^\n]", " ", t) for k, t in parts)
    spans, i = [], 0
    for m in re.finditer(r"\bghost\s+use\b[^;]*;", whole):
        spans.append((m.start(), m.end()))
    for m in re.finditer(r"\b(?:requires|ensures)\*?(?:\s+\w+)?\s*\{|\bghost\s+\w+\s*:\s*\{", whole):
        depth, j = 1, m.end()
        while j < len(whole) and depth:
            depth += (whole[j] == "{") - (whole[j] == "}")
            j += 1
        spans.append((m.end(), j))
    inside = [False] * len(text)
    for a, b in spans:
        for k in range(a, b):
            inside[k] = True
    at = 0
    for kind, t in parts:
        if kind == "comment":
            out.append(in_backquotes(t, to))
        elif kind == "string":
            out.append(t)
        else:
            k, end = at, at + len(t)
            while k < end:
                j = k
                while j < end and inside[j] == inside[k]:
                    j += 1
                out.append(turned(text[k:j], to, set(), set()) if inside[k] else text[k:j])
                k = j
        at += len(t)
    return "".join(out)


def main():
    dry = "--dry" in sys.argv
    crates, names, facts, fields, places = gathers()
    to = spelt(crates, names, facts)
    # a lemma that would have its definition's name ends in `_lem`
    by_new = collections.defaultdict(set)
    for name in names:
        by_new[to.get(name, name)].add(name)
    for new, olds in by_new.items():
        dashed = [old for old in olds if "-" in old]
        if len(olds) > 1:
            for old in dashed[:1] if len(olds) > len(dashed) else dashed[1:]:
                to[old] = new + "_lem"
    bad = collections.defaultdict(set)
    texts = {path: read(path) for path in files(".antt")}
    for turn in range(2):
        bad.clear()
        for path, text in texts.items():
            code = code_of(text)
            keep = from_libraries(code, crates)
            here = {m[0] for m in TOKEN.finditer(code) if code[m.start() - 1:m.start()] != "." and code[m.end():m.end() + 1] != "."}
            by_new = collections.defaultdict(set)
            for token in here:
                by_new[to.get(token, token) if token not in keep else token].add(token)
            for new, olds in by_new.items():
                if len(olds) > 1:
                    for old in olds:
                        if old in to:
                            bad[old].add(f"{os.path.relpath(path, ROOT)}: {sorted(olds)} -> {new}")
        if turn == 0:
            for old in bad:
                to[old] = APART[old] if old in APART else to[old] + "_lem" if "-" in old else to[old] + "_of" if not to[old].endswith("_of") else to[old]
    for name in to:
        if to[name] in KEYWORDS:
            bad[name].add("a word of the language")
    for name, why in sorted(bad.items()):
        print("left:", name, "->", to[name], "|", sorted(why)[0], f"({len(why)})")
        del to[name]
    if dry:
        for name in sorted(to):
            if to[name].endswith(("_lem", "_of")) and to[name] != spelt(crates, {name}, facts).get(name):
                print("made apart:", name, to[name])
    print(f"{len(to)} names, {len([n for n in to if n in facts])} of them facts; {len(bad)} left")
    if dry:
        for name in sorted(to)[::1]:
            if name in facts:
                print("fact", name, to[name])
        return
    for path, text in texts.items():
        keep = from_libraries(code_of(text), crates)
        new = "".join(turned(t, to, keep, fields) if k == "code" else in_backquotes(t, to) if k == "comment" else t for k, t in pieces(text, "--"))
        if new != text:
            with open(path, "w", encoding="utf-8") as file:
                file.write(new)
    for path in files(".rt"):
        text = read(path)
        new = rattle_ghost(text, to)
        if new != text:
            with open(path, "w", encoding="utf-8") as file:
                file.write(new)
    with open(os.path.join(ROOT, "tools", "port", "names.txt"), "w", encoding="utf-8") as file:
        file.write("".join(f"{old} {new}\n" for old, new in sorted(to.items())))


if __name__ == "__main__":
    main()
