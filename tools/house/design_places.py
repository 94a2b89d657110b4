#!/usr/bin/env python3
"""The places of the eight points of docs/DESIGN-PASS.md in the sources of the crates: file, line and what is there.

    design_places.py [--at COMMIT] [--kept | --open] [--counts] [POINT..]

--at reads the crates as a commit has them; --counts prints the numbers alone; --kept lists the places that have a line
`// Kept:` beside them, right above or in the comment above their function or type, and --open those that have none. Points 1 to
4, 6 and 7 are read from the code, point 5 from the contracts, point 8 from the proofs. It goes by text: it names what a reader
should look at, and the page says which of it is none. What stands under `Beside` is no place: it shows what a place is used in.
"""
import argparse
import io
import re
import subprocess
import sys
import tarfile
import tempfile
from collections import defaultdict
from pathlib import Path

sys.path.insert(0, str(Path(__file__).resolve().parent))

from items import closing, sources  # noqa: E402 (the path is set here)

ROOT = Path(__file__).resolve().parents[2]

NUMBER = r"(?:u8|u16|u32|u64|usize)"
# What a number is called that stands for a case.
CASE = r"(?:kind|class|code|cause|why|outcome|ending|mode|tag|act|then)"
# What a variant is called that holds nothing, or says no.
REFUSES = re.compile(r"^(?:No|None|End$|Wrong|Short|Outside|Too|Fault|Refused|Stopped)")
CONSTANT = re.compile(r"^(?:pub )?const (\w+): (u8|u16|u32|u64|usize) = (\d+);", re.M)
WORDS = re.compile(r"[A-Za-z_]\w*|\d\w*|\S")
KEYWORDS = set("if else while for in loop match return let mut as true false self Self break continue".split())


def variants(enum):
    """Names, and what each holds."""
    return re.findall(r"(?:^|[{,]) *\n? *(\w+)(\([^)]*\)| \{[^}]*\})?(?=,|\s*\})", enum.body[:-1] + "}")


def shaped(enum):
    """An enum with a variant that holds nothing or says no, one that does not, and one that holds a value."""
    cases = variants(enum)
    no = [bool(REFUSES.match(name)) or "Refusal" in held for name, held in cases]
    return (any(no) or len(cases) == 2) and not all(no) and any(held for _, held in cases)


# Point 1.

def own_results(all_sources):
    """Own enums of the shape of Option or Result."""
    for source in all_sources:
        for item in source.items:
            if item.kind == "enum" and shaped(item):
                yield source, item.line, f"enum {item.name}: {', '.join(name for name, _ in variants(item))}"


def flags(all_sources):
    """A struct with a truth beside a value, a result that is a truth and a value, a parameter that says `none` by a number."""
    for source in all_sources:
        for item in source.items:
            if item.kind == "struct" and re.search(r": bool\b", item.body):
                yield source, item.line, f"struct {item.name} with a truth"
            if item.kind == "fn" and re.match(r"\(.*\bbool\b", item.result):
                yield source, item.line, f"{item.name} answers a truth and a value"
            if item.kind == "fn" and re.search(r"\b(?:none|absent|nothing): \w+", item.head):
                yield source, item.line, f"{item.name} has a parameter for none"
        for found in re.finditer(r"^(?:pub )?const (NO_\w+|NONE\w*|UNUSED): (\w+)", source.code, re.M):
            yield source, source.code.count("\n", 0, found.start()) + 1, f"the number {found[1]}"


def number_codes(all_sources):
    """Kinds, classes and causes as numbers: constants that count up, four and more; functions that answer one of several."""
    for source in all_sources:
        constants = [*CONSTANT.finditer(source.code)]
        steps = [int(b[3]) == int(a[3]) + 1 for a, b in zip(constants, constants[1:])]
        if sum(steps) >= 3:
            first = constants[steps.index(True)]
            yield source, source.code.count("\n", 0, first.start()) + 1, f"{sum(steps) + 1} numbers from {first[1]}"
        for item in source.functions:
            given = re.findall(r"(?:return|=>) ([A-Z][A-Z_]*|\d+)\s*[;,]", item.body)
            if re.fullmatch(NUMBER, item.result) and len(set(given)) >= 2:
                yield source, item.line, f"{item.name} answers one of {len(set(given))} numbers"


def code_parameters(all_sources):
    """Beside: functions that take a case as a number."""
    for source in all_sources:
        for item in source.functions:
            named = [name for name, kind in item.parameters() if re.fullmatch(CASE, name) and re.fullmatch(NUMBER, kind)]
            if named:
                yield source, item.line, f"{item.name} takes {', '.join(named)}"


# Point 2.

def normal(body, constants_only):
    """A body with a placeholder for each name and number; or for numbers and constants alone."""
    words = []
    for word in WORDS.findall(body):
        name = re.match(r"\w", word) and word not in KEYWORDS
        words.append("#" if name and (not constants_only or re.fullmatch(r"\d\w*|[A-Z][A-Z0-9_]+", word)) else word)
    return " ".join(words)


def grouped(all_sources, key):
    """The functions with the same key, where two and more have it."""
    groups = defaultdict(list)
    for source in all_sources:
        for item in source.functions:
            groups[key(item)].append((source, item))
    for known, group in groups.items():
        if known is not None and len(group) > 1:
            names = ", ".join(item.name for _, item in group)
            for source, item in group:
                yield source, item.line, f"{item.name} of {len(group)}: {names}"


def twins(all_sources):
    """Functions of three lines and more whose bodies are equal but for names and numbers."""
    yield from grouped(all_sources, lambda item: normal(item.body, False) if item.size() >= 3 else None)


def small_twins(all_sources):
    """Shorter ones of one crate, equal but for numbers and constants."""
    numbers = re.compile(r"\d|\b[A-Z]{2}")
    yield from grouped(all_sources, lambda item: (item.file.split("/")[1], normal(item.body, True))
                       if item.size() < 3 and numbers.search(item.body) else None)


def namesakes(all_sources):
    """Functions of one name, with the same types, in two files and more."""
    yield from grouped(all_sources, lambda item: (item.name, tuple(kind for _, kind in item.parameters()), item.result)
                       if item.name != "main" else None)


# Point 3.

def blocks(body, opening):
    """Each place where a block opens so, and what is in the block, with its brackets."""
    for found in re.finditer(opening, body):
        yield found, body[found.end() - 1:closing(body, found.end() - 1)]


def counted_loops(all_sources):
    """Loops over an index that is counted by hand."""
    for source in all_sources:
        for item in source.functions:
            for found, inside in blocks(item.body, r"\bwhile ([^{]*)\{"):
                names = map(re.escape, re.findall(r"[a-z_][\w.]*", found[1]))
                if any(re.search(rf"\b{name} (?:[+-]= 1|= {name} [+-] 1);", inside) for name in names):
                    yield source, item.at(found.start()), f"{item.name}: while {found[1].strip()}"


def other_loops(all_sources):
    """Beside: other loops with `while`."""
    counted = {(source.name, line) for source, line, _ in counted_loops(all_sources)}
    for source in all_sources:
        for item in source.functions:
            for found in re.finditer(r"\bwhile ([^{]*)\{", item.body):
                if (source.name, item.at(found.start())) not in counted:
                    yield source, item.at(found.start()), f"{item.name}: while {found[1].strip()}"


def bytes_by_hand(all_sources):
    """Numbers put together of bytes, or taken apart, by hand."""
    for source in all_sources:
        for item in source.functions:
            if re.search(r"\b256 \* |/ 256\b|% 256\b|\* 256\b", item.body) and re.search(r"\bas u|\bwide", item.body):
                yield source, item.line, f"{item.name} by powers of 256"


# Point 4.

def casts(all_sources):
    """Functions that are one conversion, and no more."""
    for source in all_sources:
        for item in source.functions:
            if re.fullmatch(rf"\{{\s*\(?[\w.]+\)? as {NUMBER}\s*\}}", item.body):
                yield source, item.line, f"{item.name} is a cast"


def copies(all_sources):
    """A struct put together of the fields of another, two of them and more by their own names; `x: x`."""
    for source in all_sources:
        for item in source.functions:
            for found, inside in blocks(item.body, r"\b([A-Z]\w*) \{"):
                same = re.findall(r"(?:^|[{,\n])\s*(\w+): (\w+)\.\1(?=,|\s*\})", inside)
                doubled = re.findall(r"(?:^|[{,\n])\s*(\w+): \1(?=,|\s*\})", inside)
                if len(same) >= 2 or doubled:
                    yield source, item.at(found.start()), f"{item.name}: {found[1]}, {len(same)} copied, {len(doubled)} doubled"


def by_hand(all_sources):
    """Equality, both, either, the smaller of two, copies: functions for what the language has. Enums told apart by number."""
    for source in all_sources:
        for item in source.functions:
            body = re.sub(r"\s+", " ", item.body)
            a, b = [name for name, _ in item.parameters()[:2]] if len(item.parameters()) == 2 else ("", "")
            if re.fullmatch(r"\{ (?:\w+ (?:&&|\|\|) \w+|if \w+ \{ \w+ \} else \{ (?:false|true) \}) \}", body):
                yield source, item.line, f"{item.name} is an operator"
            elif a and re.fullmatch(rf"\{{ if {a} <=? {b} \{{ (?:{a}|{b}) \}} else \{{ (?:{a}|{b}) \}} \}}", body):
                yield source, item.line, f"{item.name} is min or max"
            elif a and re.fullmatch(rf"\{{ {a}(?:\.\d)? == {b}(?:\.\d)? \}}", body):
                yield source, item.line, f"{item.name} is an equality"
            elif re.match(r"\{ match \w+ \{", body) and re.fullmatch(NUMBER + "|bool", item.result):
                arms = re.findall(r"\b[A-Z]\w*::(\w+)(?:\([^)]*\))? => (?:\d+|[A-Z_]+|true|false)\b", body)
                if len(arms) >= 2 and len(arms) >= body.count("=>") - 2:
                    yield source, item.line, f"{item.name} maps an enum to {item.result}"


def truths_by_branches(all_sources):
    """A truth by branches outside of loops, for and, or, not."""
    for source in all_sources:
        for item in source.functions:
            branches = len(re.findall(r"\{\s*(?:return )?(?:true|false);?\s*\}", item.body))
            if item.result == "bool" and branches and not re.search(r"\b(?:while|for|loop)\b", item.body):
                yield source, item.line, f"{item.name}: {branches} branches are true or false"


# Point 5.

def conjuncts(item):
    """The facts of what a function asks, with a placeholder for its parameters."""
    places = {name: "·" for name, _ in item.parameters()}
    for kind, text in item.clauses:
        if kind == "requires":
            for fact in re.split(r" × ", re.sub(r"\s+", " ", text)):
                fact = fact.strip().strip("()").strip()
                yield re.sub(r"[A-Za-z_]\w*", lambda word: places.get(word[0], word[0]), fact)


def shared_facts(all_sources):
    """A fact in what three functions or more ask."""
    holders = defaultdict(dict)
    for source in all_sources:
        for item in source.functions:
            for fact in conjuncts(item):
                holders[fact].setdefault((item.file, item.line), (source, item))
    for fact, found in sorted(holders.items(), key=lambda pair: -len(pair[1])):
        if len(found) >= 3:
            source, item = next(iter(found.values()))
            yield source, item.line, f"in {len(found)} functions: {fact}"


def companions(all_sources):
    """Three parameters or more, of the same names and types, in five functions or more; the largest such groups."""
    given = [(source, item, frozenset((n, k.replace("&mut ", "&")) for n, k in item.parameters()))
             for source in all_sources for item in source.functions]
    given = [one for one in given if len(one[2]) >= 3]
    groups = {a & b for _, _, a in given for _, _, b in given if len(a & b) >= 3}
    often = {group for group in groups if sum(group <= one for _, _, one in given) >= 5}
    for group in sorted(often, key=lambda group: (-len(group), sorted(group))):
        if not any(group < other for other in often):
            holders = [(source, item) for source, item, one in given if group <= one]
            names = ", ".join(f"{name}: {kind}" for name, kind in sorted(group))
            yield holders[0][0], holders[0][1].line, f"in {len(holders)} functions: {names}"


# Point 6.

def lengths_beside(all_sources):
    """A buffer with a length beside it as a parameter or field, and arrays of one length beside each other."""
    for source in all_sources:
        for item in source.items:
            pairs = item.parameters() if item.kind == "fn" else item.fields()
            tables = [(name, kind) for name, kind in pairs if re.match(r"(?:&mut |&)?\[", kind)]
            counts = [name for name, kind in pairs if re.fullmatch(r"count|len|size|used|n|k|length", name) and kind == "usize"]
            sizes = [re.search(r"; (\w+)\]", kind)[1] for _, kind in tables if ";" in kind]
            if tables and counts:
                yield source, item.line, f"{item.name}: {', '.join(n for n, _ in tables)} beside {', '.join(counts)}"
            if len(sizes) != len(set(sizes)):
                yield source, item.line, f"{item.name}: arrays of one length: {', '.join(n for n, k in tables if ';' in k)}"


# Point 7.

def switches(all_sources):
    """A match over numbers of three arms and more, a chain of tests of one name; a truth that says which step to run."""
    for source in all_sources:
        for item in source.functions:
            for found, inside in blocks(item.body, r"\bmatch ([^{]*)\{"):
                arms = re.findall(r"^\s*(?:\d+|(?:\w+::)*[A-Z][A-Z_]+)(?: \|[^=]*)? =>", inside, re.M)
                if len(arms) >= 3:
                    yield source, item.at(found.start()), f"{item.name}: match {found[1].strip()}, {len(arms)} numbers"
            tests = re.findall(r"\bif (\w+) == (?:\w+::)*[A-Z][A-Z_]+", item.body)
            for name in sorted({name for name in tests if tests.count(name) >= 3}):
                yield source, item.line, f"{item.name}: {tests.count(name)} tests of {name}"
            for name, kind in item.parameters():
                if kind == "bool" and re.search(rf"\bif !?{name} \{{", item.body):
                    yield source, item.line, f"{item.name}: {name} says which"
            if re.search(r"\bfn\(|\bdyn ", item.head + item.body):
                yield source, item.line, f"{item.name}: functions in a table"


def proofs(root):
    """Files, lines and answers of the proofs."""
    files = [path for path in Path(root).glob("crates/*/proofs/**/*.antt") if "out" not in path.parts]
    lines = {path: path.read_text(encoding="utf-8") for path in files}
    answers = {path: text for path, text in lines.items() if path.name == "Answers.antt"}
    invariants = [path for path in files if path.name == "Invariants.antt"]
    goals = sum(len(re.findall(r"^(?:pub )?\S+ : goal\.\S+", text, re.M)) for text in answers.values())
    own = [path for path in files if path.name not in ("Answers.antt", "Invariants.antt", "Proof.antt", "Lib.antt")]
    yield "lines of proofs/", sum(text.count("\n") for text in lines.values())
    yield "files Answers.antt", len(answers)
    yield "lines of files Answers.antt", sum(text.count("\n") for text in answers.values())
    yield "answers", goals
    yield "files Invariants.antt", len(invariants)
    yield "files of lemmas", len(own)
    yield "lines of files of lemmas", sum(lines[path].count("\n") for path in own)


POINTS = {
    1: (own_results, flags, number_codes, code_parameters),
    2: (twins, small_twins, namesakes),
    3: (counted_loops, other_loops, bytes_by_hand),
    4: (casts, copies, by_hand, truths_by_branches),
    5: (shared_facts, companions),
    6: (lengths_beside,),
    7: (switches,),
}


def places(root, point):
    """The places of a point: what is looked for, source, line and what is there."""
    read = sources(root)
    return [(rule.__doc__.split("\n")[0], *place) for rule in POINTS[point] for place in rule(read)]


def at_commit(commit):
    """A folder with the crates as a commit has them."""
    folder = tempfile.TemporaryDirectory()
    archive = subprocess.run(["git", "archive", commit, "crates"], cwd=ROOT, capture_output=True, check=True).stdout
    with tarfile.open(fileobj=io.BytesIO(archive)) as packed:
        packed.extractall(folder.name)
    return folder


def main():
    asked = argparse.ArgumentParser(description=__doc__, formatter_class=argparse.RawDescriptionHelpFormatter)
    asked.add_argument("--at")
    for option in ("--kept", "--open", "--counts"):
        asked.add_argument(option, action="store_true")
    asked.add_argument("points", nargs="*", type=int, metavar="POINT")
    said = asked.parse_args()
    folder = at_commit(said.at) if said.at else None
    root = folder.name if folder else ROOT
    for point in said.points or range(1, 9):
        if point == 8:
            print("8:", *(f"{name}: {number}" for name, number in proofs(root)), sep="\n  ")
            continue
        found = places(root, point)
        by_rule = defaultdict(list)
        for rule, source, line, what in found:
            if said.kept and not source.kept(line) or said.open and source.kept(line):
                continue
            by_rule[rule].append(f"{source.name}:{line}: {what}")
        print(f"{point}: {sum(len(listed) for rule, listed in by_rule.items() if not rule.startswith('Beside'))}")
        for rule, listed in by_rule.items():
            print(f"  {len(listed)}: {rule}", *([] if said.counts else listed), sep="\n    ")


if __name__ == "__main__":
    main()
