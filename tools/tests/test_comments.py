"""The comments of the crates: they name what is there, and a word of document 01's own has a comment that says so. The second
half of this file shows that each check can fail."""
import re
import unittest

import common

WORD = re.compile(r"[A-Za-z][\w-]*[\w₀-₉']")

# Names in comments of the crates that are no names of the code: of the paper, of other programs, of what is printed.
IN_COMMENTS = {"ASCII", "MIR", "PLACE", "antt", "rt"} | {"new_p", "new_q", "ref_p", "ref_q", "m_i", "e_i"}


# Where words of document 01's own are defined: a comment there says whose word it is. By crate, the file and its definitions.
OWN_WORDS = {
    "calculus/specs/State.antt": ("record Cell", "record Counts", "some_pieces :", "one_piece :"),
    "calculus/specs/Plain.antt": ("is_plain :",),
    "calculus/specs/Limits.antt": ("piece_limit :", "leaf_limit :"),
    "calculus/specs/Reduce.antt": ("pub piece :",),
    "calculus/specs/Blank.antt": ("pub body :",),
    "calculus_needs/specs/Needs.antt": ("a_piece_of :",),
    "calculus_noninterference/specs/Observe.antt": ("record Shown", "high_of :"),
    "calculus_rules_needed/specs/Need.antt": ("is_high :",),
    "image/specs/Program.antt": ("is_low :",),
    "image_needs/src/lib.rt": ("struct Needs",),
    "vm_machine/specs/Memory.antt": ("piece_first :",),
    "vm_pools/src/lib.rt": ("struct Pools",),
    "vm_registers/src/pieces.rt": ("// Pieces",),
}


def without_their_word(root):
    """Definitions of a word of document 01's own without a comment that says so, in the lines up to the next empty one."""
    missing = []
    for file, names in OWN_WORDS.items():
        parts = (root / "crates" / file).read_text(encoding="utf-8").split("\n\n")
        for name in names:
            if not any(name in part and "document 01's word" in part for part in parts):
                missing.append(f"{file}: {name}")
    return missing


def stale_comments(root):
    """Names in the comments of the crates that no code has: in code letters, a function's path, or spelled as names are."""
    code, comments = set(), []
    for file in sorted(f for f in root.glob("crates/**/*") if f.suffix in (".rt", ".antt") and "out" not in f.parts):
        for part in file.relative_to(root).parts:
            code.update((part, part.split(".")[0]))
        sign = "//" if file.suffix == ".rt" else "--"
        for line in file.read_text(encoding="utf-8").splitlines():
            before, found, comment = re.match(rf"(.*?)(?:(?:^|(?<=\s))({sign})(\s.*|$)|$)", line).groups()
            code.update(WORD.findall(before), (word.rstrip("'") for word in WORD.findall(before)))
            if found:
                comments.append((file.relative_to(root), comment))
    stale = []
    for file, comment in comments:
        names = set(word for quoted in re.findall(r"`([^`]+)`", comment) for word in WORD.findall(quoted))
        names.update(re.findall(r"\b(?:[a-z]+[A-Z]\w*|[A-Z][a-z]+[A-Z]\w*|[a-z]+_[a-z_]+|[A-Z][A-Z_]{2,})\b", comment))
        stale += [f"{file}: {name}" for name in sorted(names - code - IN_COMMENTS)]
        for path in re.findall(r"`([a-z_]+(?:::\w+)+)`", comment):
            crate, *modules, name = path.split("::")
            # A method of a type stands in the file of the type.
            modules = [module for module in modules if module[0].islower()]
            source = root / "crates" / crate / "src" / f"{'/'.join(modules) or 'lib'}.rt"
            if not source.is_file() or not re.search(rf"\bfn {name}\b", source.read_text(encoding="utf-8")):
                stale.append(f"{file}: {path}")
    return stale


class Comments(unittest.TestCase):
    def test_comments(self):
        self.assertEqual(stale_comments(common.ROOT), [])

    def test_words_of_document_01(self):
        self.assertEqual(without_their_word(common.ROOT), [])


class CanFail(unittest.TestCase):
    def test_comments(self):
        root = common.tree(self, {"crates/a/src/lib.rt": "// `f` calls `gone`, by HOME, of aName and a_name.\nfn f() {}\n",
                                  "crates/a/specs/A.antt": "-- `a::f` and `a::b::f`\nx = y\n"})
        found = [f"crates/a/src/lib.rt: {name}" for name in ("HOME", "aName", "a_name", "gone")]
        self.assertEqual(stale_comments(root), ["crates/a/specs/A.antt: a::b::f"] + found)

    def test_words_of_document_01(self):
        said = "-- document 01's word\n"
        texts = {f"crates/{file}": "\n\n".join(said + name for name in names) for file, names in OWN_WORDS.items()}
        root = common.tree(self, texts)
        self.assertEqual(without_their_word(root), [])
        plain = "-- plain\nis_plain :\n\n-- document 01's word\nother :\n"
        (root / "crates/calculus/specs/Plain.antt").write_text(plain, encoding="utf-8")
        self.assertEqual(without_their_word(root), ["calculus/specs/Plain.antt: is_plain :"])


if __name__ == "__main__":
    unittest.main()
