"""The forms that document 01 names ("Use these forms in these places") stand in the sources where it names them.

docs/DECISIONS.md, "The forms that document 01 names", says where each stands. Every check here reads the sources as text and
lists what gives a form up; a check that finds nothing to look at fails too.
"""
import pathlib
import re
import sys
import unittest

sys.path.insert(0, str(pathlib.Path(__file__).resolve().parent))

import common  # noqa: E402 (the path is set here)

# The crates that read records: only there may a function take an image and an offset to read a field.
READERS = ("read_records", "read_terms", "read_leaves")

# What an offset into the image is called as a parameter.
OFFSETS = ("at", "from", "offset", "place", "o")

# Functions that take the image and an offset and read no field by them.
NO_FIELD_READ = {
    ("vm_labels", "labels_from"): "from is the number of a label",
    ("write_sections", "write_type"): "at is an offset of the output",
}

# Tables that domain, type or term numbers index.
TABLES = ("code", "dispatch", "terms", "types", "descriptors", "doms", "masks", "leaves", "places", "order", "marks", "depths", "offsets")

# Parameters that are one of the three numbers, by name.
NUMBERS = {
    "DomainNo": ("dom", "domain", "p"),
    "TypeNo": ("ty", "type_no"),
    "TermNo": ("term", "child", "parent", "body", "root"),
}

# Functions whose parameter of such a name is something else.
OTHER_MEANING = {
    ("need_terms", "is_permitted", "child"): "the number of the child's kind",
    ("vm_reductions", "bind_parts", "p"): "a piece",
    ("vm_stacks", "stack_pieces", "p"): "a piece",
    ("vm_memory", "put_piece", "p"): "a piece",
    ("vm_memory", "piece_first", "p"): "a piece",
    ("vm_memory", "piece_second", "p"): "a piece",
    ("vm_memory", "put_installed", "p"): "a piece",
    ("vm_words", "value", "body"): "what a value's word holds behind its tag",
}

# Where a table is indexed by something else than one of the three numbers.
OTHER_INDEX = {
    ("write_types", "enter_one", "order"): "the place behind those that are entered",
    ("check_layout", "put_type", "types"): "i is the number of the type t",
    ("check_layout", "put_type", "descriptors"): "i is the number of the type t",
    ("vm_passes", "build_code", "code"): "the word behind the terms'",
    ("vm_passes", "build_code", "dispatch"): "the number behind the terms'",
    ("vm_loop", "started", "dispatch"): "a program counter, which may be the place behind the terms",
    ("vm_words", "instruction", "code"): "a program counter, which may be the place behind the terms",
}


class Function:
    """One function of a source file: its crate, file, name, parameters by name, body, and how many lines it has in all."""

    def __init__(self, crate, file, name, parameters, body, lines):
        self.crate, self.file, self.name, self.parameters, self.body, self.lines = crate, file, name, parameters, body, lines

    def __str__(self):
        return f"{self.crate}/{self.file}: {self.name}"


def without_comments(text):
    return re.sub(r"//[^\n]*", "", text)


def closing(text, start, pair="{}"):
    """The index behind the bracket that closes the one at start."""
    depth = 0
    for i in range(start, len(text)):
        if text[i] == pair[0]:
            depth += 1
        elif text[i] == pair[1]:
            depth -= 1
            if depth == 0:
                return i + 1
    raise ValueError("no closing bracket")


def functions(root):
    """Every function with a body of the crates under a root."""
    found = []
    for path in sorted(pathlib.Path(root).glob("crates/*/src/**/*.rt")):
        crate = path.relative_to(root).parts[1]
        text = without_comments(path.read_text(encoding="utf-8"))
        for match in re.finditer(r"\bfn (\w+)(?:<[^>]*>)?\(", text):
            end = closing(text, match.end() - 1, "()")
            parameters = dict(re.findall(r"(\w+): ([^,()]+(?:\([^)]*\))?)", text[match.end():end - 1]))
            # Contracts stand in braces of their own, behind `requires` and `ensures`.
            at = end
            while True:
                brace = text.index("{", at)
                between = text[at:brace]
                close = closing(text, brace)
                if "requires" in between or "ensures" in between:
                    at = close
                    continue
                break
            lines = text[match.start():close].count("\n") + 1
            found.append(Function(crate, path.name, match[1], parameters, text[brace:close], lines))
    return found


def fields_read_outside_the_reader(root):
    """Functions that read a field of a record by the image and an offset."""
    faults = []
    for f in functions(root):
        if f.crate in READERS:
            continue
        takes_image = f.parameters.get("image", "").startswith("&")
        if takes_image and "fields" not in f.parameters and any(f.parameters.get(p) == "usize" for p in OFFSETS) and (f.crate, f.name) not in NO_FIELD_READ:
            faults.append(f"{f}: takes an image and an offset, and no part")
        if re.search(r"\b(field_at|type_of_term|number_at)\(|\bchild_at\(image\b", f.body) or re.search(r"\bword\(image\b", f.body):
            faults.append(f"{f}: reads a field by its offset")
        if re.search(r"\bimage\[(?!\.\.)", f.body) and not re.search(r"\bcopy\[i\] = image\[i\]", f.body):
            faults.append(f"{f}: indexes the image")
    return faults


def leaves_judged_in_a_parent(root):
    """Loops over the children of a term that judge a child on the spot, and do not recurse."""
    faults, loops = [], 0
    for f in functions(root):
        if f.crate != "check_typing":
            continue
        for match in re.finditer(r"\b(?:while|for)\b[^{]*\{", f.body):
            loop = f.body[match.start():closing(f.body, match.end() - 1)]
            if "child" not in loop:
                continue
            loops += 1
            if "check_term(" not in loop:
                faults.append(f"{f}: does not recurse over the children")
            if re.search(r"\b(is_leaf|check_leaf|check_rule)\(", loop):
                faults.append(f"{f}: judges a child in its parent's turn")
    return faults if loops else ["no loop over the children of a term"]


def walks_without_the_reader(root):
    """The loop over the records, if it does not keep the reader struct in a local."""
    for f in functions(root):
        if f.name == "scan_with":
            steps = (r"let mut walk = Walk::new\(image, 0\)", r"while let Some\(head\) = walk\s*\.next\(\)", r"= walk\.fields\(head\.len\)", r"walk = walk\.past\(head\.len\)")
            return [f"{f}: lacks {step}" for step in steps if not re.search(step, f.body)]
    return ["no function scan_with"]


def bare_numbers(root):
    """Parameters and indexes that are domain, type or term numbers, and are not one of the three structs."""
    faults = []
    for f in functions(root):
        if f.crate in ("base_bytes", "numerals", "console", "listing_lines", "listing"):
            continue
        for struct, names in NUMBERS.items():
            for name in names:
                if f.parameters.get(name, "") in ("u16", "u64", "usize") and (f.crate, f.name, name) not in OTHER_MEANING:
                    faults.append(f"{f}: {name}: {f.parameters[name]} in place of {struct}")
        for table, index in re.findall(r"\b(%s)\[([^\]]*)\]" % "|".join(TABLES), f.body):
            if not re.fullmatch(r"\w+\.0 as usize|usize::from\(\w+\.(?:0|number\(\))\)", index) and ".." not in index and (f.crate, f.name, table) not in OTHER_INDEX:
                faults.append(f"{f}: {table}[{index}]")
    return faults


def tables_of_any_number(root):
    """Public functions that take a table beside any of the three numbers: each table has functions that take its own number."""
    faults = []
    for path in sorted(pathlib.Path(root).glob("crates/*/src/**/*.rt")):
        text = without_comments(path.read_text(encoding="utf-8"))
        for match in re.finditer(r"\bpub (?:const )?fn (\w+)(?:<([^>]*)>)?\(", text):
            end = closing(text, match.end() - 1, "()")
            parameters = text[match.end():end - 1]
            bounds = (match[2] or "") + " " + text[end:text.index("{", end)]
            names = re.findall(r"\b(\w+): [^,>]*\bNumbered\b", bounds)
            numbered = "impl Numbered" in parameters or any(re.search(rf": {name}\b", parameters) for name in names)
            if numbered and re.search(r": &('\w+ )?(mut )?\[", parameters):
                faults.append(f"{path.relative_to(root).parts[1]}/{path.name}: {match[1]}: a table by a number of any section")
    return faults


def writers_of_the_report(root):
    """Functions of the results' crate that write leaves of the result besides the one that writes them from the slots."""
    writers = [f for f in functions(root) if f.crate in ("results", "vm_results") and f.file == "reports.rt" and re.search(r"\bput_lea(f|ves)\(", f.body)]
    faults = [f"{f}: writes one leaf by itself" for f in writers if re.search(r"\bput_leaf\(", f.body)]
    return faults if len(writers) == 1 else faults + [f"{len(writers)} functions write the result's leaves"]


CHECKS = (fields_read_outside_the_reader, leaves_judged_in_a_parent, walks_without_the_reader, bare_numbers, tables_of_any_number, writers_of_the_report)


class Forms(unittest.TestCase):
    def test_forms(self):
        for check in CHECKS:
            with self.subTest(check.__name__):
                self.assertEqual(check(common.ROOT), [], check.__doc__)


# For each check, a source that gives the form up: crate and file, the text, and what is found.
GIVEN_UP = {
    fields_read_outside_the_reader: ("vm_words/src/lib.rt", "fn f(image: &[u8], at: usize) -> u16 { word(image, at + 4) }", 2),
    leaves_judged_in_a_parent: ("check_typing/src/pass.rt", "fn f() { for j in 0..k { let e = child_of(j); check_leaf(e); } }", 2),
    walks_without_the_reader: ("check_layout/src/lib.rt", "fn scan_with(image: &[u8]) { let mut at = 0; }", 4),
    bare_numbers: ("vm_words/src/lib.rt", "fn f(term: u16, n: usize) -> u64 { code[n] }", 2),
    tables_of_any_number: ("read_records/src/numbers.rt", "pub fn f<N: Numbered>(offsets: &[u16], n: N) -> usize { g(offsets, n) } "
                           "pub fn h<'a, N>(t: &'a mut [u16], n: N) where N: Copy + Numbered { } pub fn k(t: &[u16], n: impl Numbered) { }", 3),
    writers_of_the_report: ("vm_results/src/reports.rt", "fn f(r: &mut [u8]) { put_leaf(r); } fn g() { put_leaves(r); }", 2),
}


class CanFail(unittest.TestCase):
    def test_each_check_finds_what_gives_its_form_up(self):
        self.assertEqual(set(GIVEN_UP), set(CHECKS))
        for check, (file, text, faults) in GIVEN_UP.items():
            with self.subTest(check.__name__):
                self.assertEqual(len(check(common.tree(self, {f"crates/{file}": text}))), faults)


if __name__ == "__main__":
    unittest.main()
