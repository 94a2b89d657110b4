#!/usr/bin/env python3
"""Definitions and laws of the crates that nothing reaches, a line each: file, line and name.

The roots are what stands for itself: the proof of each function, what contracts cite, what the documents name, what an edit
of must-fail/ changes, and the worked examples. A declaration is reached if it is a root, or if one that is reached uses it.
Names are compared as words, whatever they are bound to; so it may miss one, and never names one that is used.
"""
import re
import sys
from pathlib import Path

from imports import WORD, named, place, theory, without_comments, without_imports

ROOT = Path(__file__).resolve().parents[2]

# The pages that name laws and definitions, in code letters.
PAGES = ("README.md", "docs/CLAIMS.md", "docs/DECISIONS.md", "docs/FIGURES.md", "docs/CONTRIBUTING.md", "docs/CRATES.md", "docs/WORDS.md")

# Worked examples, by crate, all in proofs/: nothing uses their laws. Each shows by computation that a definition says what it
# should, or that the premises of a claim can be met; the first line of the file says which.
EXAMPLES = """
base_bytes: Records
calculus: Absent Examples Refused
calculus_needs: Examples Uncounted
calculus_noninterference: Example Rank
calculus_rules_needed: Refuted Rules
answers_as_numbers: Examples
calculus_safety: Example
calculus_stripped: Example
cards_examples: BindingsExample BranchExample FixedExample StrippedExample TakedownExample
demands_examples: CapacityExample Conformance DepthExample Example ForecastExample NewestFirstExample UnpaidExample
image: Lengths Refusals
image_needs: TwoFaults
image_trimmed: Example
image_written: Calls LoadExamples
report: Examples
verdict: Examples Refusals
vm_code: Cases
vm_machine: Conformance Quotas Stacks
vm_memory: Sizes
vm_super_spec: Numbers
"""

# Other declarations that nothing uses and that stay, by crate and module of proofs/: laws that a function's proof cited until the
# check found that proof by itself, and what proofs by hand over MIR shared. None of them is a claim (docs/PORT.md).
STAYING = """
calculus Signed: sum_below sum_inside sum_above difference_below difference_inside difference_above
console Counted: counted
laws Lending: Loan at_list LentAgain vals lends comes_back
laws Locals: after_all_lem nth_arm arm_of slot no has rooms frees_all
need_own Turns: nothing_taken unchanged mainline_charged others_charged
need_rows Children: skipped_row
need_sums Tables: rest_role
need_terms Lowest: tied free_kind
need_walk Walked: most_few few_children
numerals Digits: none_said some_said
read_records Descriptors: made
read_terms Elimination: long_lead one_before
read_terms TypeDomains: advice_domain object_domain second_domain no_domain is_plain_lem not_plain
read_terms TypeRecords: no_object past_methods the_method
vm_results Gathering: leaf_number
vm_super Laws: Tested leads_so pair_so triple_so quadruple_so after_alike goes_alike
watch Frame: frame_all
write_sections Numbered: numbered_none
"""


def staying():
    """The same: file and name."""
    for line in STAYING.split("\n"):
        place, _, names = line.partition(": ")
        for name in names.split():
            crate, module = place.split()
            yield f"crates/{crate}/proofs/{module}.antt", name


ALLOWED = set(staying())

MARKS = r"(?:(?:abbrev|unfoldable|pub|private) )*"
BLOCK = re.compile(rf"{MARKS}(?:data|record) ([^\s:(){{}}]+)")
SIGNATURE = re.compile(rf"{MARKS}((?:[^\s:(){{}}=]+ )+):(?: |$)")
SECTION = re.compile(r"(?:pub )?(?:module\b|mutual$)")

# What Rattle makes of a function for its proof: what `Answers.antt` answers, and of what `Invariants.antt` speaks.
GENERATED = (".Goals", ".Given")
PROOFS = ("/Answers.antt", "/Invariants.antt")


class Source:
    """A file: the words of each declaration with its line, the declaration that each constructor and field belongs to, the
    file and name that each imported name stands for, and the declarations that answer for a function."""

    def __init__(self, text):
        text = without_comments(text, ".antt")
        self.words, self.lines, self.owner, self.imports = {}, {}, {}, imported(text)
        goals = "|".join(re.escape(alias) for module, names, alias in theory(text) if not names and module.endswith(GENERATED))
        self.answers = set(re.findall(rf"^{MARKS}(\S+) : (?:{goals})\.\S+$", text, re.M)) if goals else set()
        blocks, current = set(), None
        sections = [(0, [])]  # the indent of each open section, and the words of its header
        header = None  # the indent and the words of a header that is not at its end
        for number, line in enumerate(without_imports(text).splitlines(), 1):
            line = line.rstrip()
            code = line.strip()
            indent = len(line) - len(code)
            if not code:
                continue
            if header and indent > header[0] and not header[2]:
                header = (header[0], header[1] + WORD.findall(code), code.endswith("where"))
                continue
            if header:
                sections.append((indent, header[1]))
                header, current = None, None
            while indent < sections[-1][0]:
                sections.pop()
                current = None
            if indent == sections[-1][0]:
                if SECTION.match(code):
                    header = (indent, WORD.findall(code), code.endswith(("where", "mutual")))
                    continue
                block, names = BLOCK.match(code), declared(code)
                if block or names:
                    current = block[1] if block else names[0]
                    blocks.update([current] if block else [])
                    for name in [current] if block else names:
                        self.lines.setdefault(name, number)
                        self.words.setdefault(name, set())
            elif current in blocks:
                self.owner.update(dict.fromkeys(declared(code), current))
            if current:
                self.words[current].update(WORD.findall(code), *(words for _, words in sections))


def declared(code):
    """The names that a line gives a type."""
    found = SIGNATURE.match(code)
    return found[1].split() if found and not code.startswith(("let ", "λ ", "→ ", "× ")) else []


def file_of(module):
    """The file of a module of the crates."""
    crate, part, words = place(module) or (None, None, None)
    return f"crates/{crate}/{part}/{'/'.join(words)}.antt" if crate else None


def imported(text):
    """What a file without comments imports: for each name here its file and name there, for another name of a module its file
    alone."""
    found = {}
    for module, names, alias in theory(text):
        if alias:
            found[alias] = (file_of(module), None)
        found.update((here, (file_of(module), name.split(".")[-1])) for name, here in names or ())
    return found


def signs(name):
    """The words by which a name is used: an operator by each of its signs."""
    return [name] + [sign for sign in name.split("◌") if sign] if "◌" in name else [name]


def uses(sources, file, words):
    """The declarations, as file and name, that some words of a file may stand for."""
    source, meant = sources[file], {}
    own = [(name, (file, name)) for name in source.lines] + [(name, (file, owner)) for name, owner in source.owner.items()]
    for name, target in [*own, *source.imports.items()]:
        for sign in signs(name):
            meant.setdefault(sign, set()).add(target)
    for word in words:
        parts = [part for part in word.split(".") if part] or [word]
        for i, part in enumerate(parts):
            for other, name in meant.get(part, ()):
                if name is None and i + 1 < len(parts):
                    name = parts[i + 1]
                if other in sources and name:
                    target = sources[other]
                    yield other, name if name in target.lines else target.owner.get(name)


def cited(root):
    """What contracts and attributes cite, as file and name."""
    for file in root.glob("crates/*/src/**/*.rt"):
        text = without_comments(file.read_text(encoding="utf-8"), file.suffix)
        yield from imported(text).values()
        for crate, part, words, name in named(text, file.relative_to(root).parts[1]):
            yield f"crates/{crate}/{part}/{'/'.join(words)}.antt", name


def edited(root):
    """The words of the laws that edits of must-fail/ replace, with the file in which they stand."""
    for edit in root.glob("crates/*/must-fail/*.edit"):
        file = None
        for line in edit.read_text(encoding="utf-8").splitlines():
            if line.startswith("file: "):
                file = f"crates/{edit.parts[-3]}/{line[6:]}"
            elif line.startswith("old: ") and file.endswith(".antt"):
                yield file, WORD.findall(line[5:])


def roots(root, sources):
    """What stands for itself, as file and name."""
    rows = [line.split(": ") for line in EXAMPLES.strip().splitlines()]
    examples = {f"crates/{crate}/proofs/{name}.antt" for crate, names in rows for name in names.split()}
    named = set()
    for page in PAGES:
        if (root / page).exists():
            named.update(re.findall(r"`([^`\s]+)`", (root / page).read_text(encoding="utf-8")))
    yield from cited(root)
    for file, words in edited(root):
        yield from uses(sources, file, words)
    for file, source in sources.items():
        for name in source.lines:
            proof = file.endswith(PROOFS) and name in source.answers or file.endswith("/Proof.antt") and name.endswith(("_spec", "-spec"))
            if proof or name in named or file in examples or (str(file), name) in ALLOWED:
                yield file, name


def all_sources(root):
    files = sorted(f for f in root.glob("crates/*/*/**/*.antt") if f.name != "Lib.antt" and "out" not in f.parts)
    return {str(f.relative_to(root)): Source(f.read_text(encoding="utf-8")) for f in files}


def unreached(root=ROOT):
    sources = all_sources(root)
    seen, todo = set(), list(roots(root, sources))
    while todo:
        file, name = todo.pop()
        if (file, name) in seen or file not in sources or name not in sources[file].lines:
            continue
        seen.add((file, name))
        todo += uses(sources, file, sources[file].words[name])
    return [f"{file}:{line}: {name}" for file, source in sources.items() for name, line in source.lines.items() if (file, name) not in seen]


if __name__ == "__main__":
    found = unreached()
    print("\n".join(found))
    sys.exit(1 if found else 0)
