"""What keeps the house: nothing is imported and not used, every edit changes something that counts, functions are short and take
few parameters, numbers have names, the gate runs in one locale, and tools/test.sh runs all of it. Each check takes a root;
the second half of this file shows that each can fail."""
import os
import re
import shutil
import subprocess
import unittest

import common
import test_forms
from edits_reach import unreached_edits
from unreached import unreached
from unused_imports import all_unused

# A function has no more lines than this, its signature and contract included, but for those that are listed with their length
# and a reason. The list may only become shorter.
LONGEST = 40
LONG = {
    ("bukzarn", "bukzarn_run_frames"): (44, "the arguments of its three calls, a line each"),
    ("engine_frames", "run_each"): (41, "ten lent slices and numbers, a line each, as parameters and again in the call"),
    ("check_dispatch", "check_rule"): (42, "an arm for each kind"),
    ("check_layout", "enter"): (42, "twelve parameters, a line each; refusals 3 to 8 in their order, and a way out for each"),
    ("check_layout", "scan_with"): (42, "the loop over the records, which keeps the walk and the eight tables"),
    ("check_scopes", "child_setting"): (42, "an arm for each kind that has a child under other variables or at another domain"),
    ("check_typing", "check_subterms"): (50, "nine arguments of two calls, a line each"),
    ("vm_execute", "performed"): (41, "an arm for each act"),
    ("vm_dispatch", "first_of"): (147, "an arm for each class, so that one jump leads to what is to be done"),
    ("vm_dispatch", "other_first"): (150, "the same; apart, since the compiler takes an arm among more than 50 for a rare one"),
    ("vm_pass_up", "word_of"): (78, "an arm for each kind, whose name stands in it"),
    ("vm_passes", "surround_children"): (53, "an arm for each kind"),
}

# More parameters than this: each table that is lent is a slice of its own, since with the older kit a struct with slices in it took
# a proof by hand in each function (document 01 asks for one such struct, the reader). The number behind a name is how many there are. The list
# may only become shorter.
MOST_PARAMETERS = 6
MANY_PARAMETERS = """
bukzarn: bukzarn_run_frames 7
check_core: check_install 7, check_lower 7, check_new_cell 7, check_read 7, check_store 7
check_dispatch: check_rule 7
check_layout: enter 12, put_type 8, scan_records 7, scan_with 8
check_objects: check_method_call 7
check_scopes: child_setting 9
check_typing: check_here 9, check_subterms 9, check_term 9
engine_core: prepare 7, run_code 9
engine_frames: run_each 10
validator_core: check_laid_out 8
vm_actions: apply 7
vm_execute: performed 8
vm_loop: run_program 8, run_turns 7
vm_memory: put_advice 7
vm_pass_up: pass_up 7
vm_passes: build_code 8, pass_down 7, surround_children 7
write_fixed: write_checked 7
write_image: write_whole 7
write_program: write_term 7
write_sections: write_type 7
write_stripped: write_checked 9, write_copy 10
write_terms: enter_term 8
write_types: enter_type 7
"""

# No branch or loop stands inside more than two others.
DEEPEST = 3

# A number over this has a name, but in these functions. The length of an array is a literal in Rattle.
LARGEST_BARE = 8
NUMBERS_IN_PLACE = {
    "the bytes of a number: powers of 256": "listing_lines: long; vm_pass_up: number_word",
    "the bits of a word: powers of 2, by the widths that stand beside": "read_records: child_count entry_count field_classes;"
        " check_typing: verdict_of; check_repeats: bit_of mix place_of word_of",
    "a table: a number for each case": "answers_as_numbers: put_numbers; vm_decode: unary_move;"
        " vm_dispatch: first_of follow other_first store_start; vm_super: called_on read_then stored tested",
    "decimal digits": "listing_lines: put_decimal; numerals: with_byte",
    "the ten bytes of the record that it writes": "report: put_head; vm_results: put_answer",
}


def listed(text, separator):
    """The functions of a list: crate, colon, names."""
    found = set()
    for part in filter(None, (part.strip() for part in text.split(separator))):
        crate, _, names = part.partition(":")
        found |= {(crate.strip(), name) for name in names.split()}
    return found


def long_functions(root):
    return {(f.crate, f.name): f.lines for f in test_forms.functions(root) if f.lines > LONGEST}


def many_parameters(root):
    return {(f.crate, f.name): len(f.parameters) for f in test_forms.functions(root) if len(f.parameters) > MOST_PARAMETERS}


def allowed_parameters():
    lines = (line.partition(":") for line in MANY_PARAMETERS.split("\n") if line)
    return {(crate, name.split()[0]): int(name.split()[1]) for crate, _, names in lines for name in names.split(",")}


def depth(body):
    """How many branches and loops stand inside each other."""
    inside, deepest, last = [], 0, 0
    for brace in re.finditer(r"[{}]", body):
        if brace[0] == "{":
            head = re.split(r"[;{}]|=>", body[last:brace.start()])[-1]
            inside.append(bool(re.search(r"\b(if|match|while|loop|for)\b|\belse\s*$", head)))
            deepest = max(deepest, sum(inside))
        elif inside:
            inside.pop()
        last = brace.end()
    return deepest


def too_deep(root):
    return {(f.crate, f.name) for f in test_forms.functions(root) if depth(f.body) > DEEPEST}


def numbers_without_names(root):
    """The functions with a literal over the largest, array lengths and text apart."""
    found = set()
    for f in test_forms.functions(root):
        body = re.sub(r'b"(?:\\.|[^"])*"' + r"|b'.'|;\s*\d+\]", "", f.body)
        literals = re.findall(r"(?<![\w.])(\d+)(?:u8|u16|u32|u64|usize)?\b(?!\.)", body)
        if any(int(literal) > LARGEST_BARE for literal in literals):
            found.add((f.crate, f.name))
    return found


NEEDLESS_ANSWER = re.compile(r"^(?:pub )?(\S+) : \w+\.\S+\n\1(?: [^\s=]+)+ =\s+search rules$", re.M)


def needless_answers(root):
    """Goals that are answered though the search closes them, with the files that answer them, unless another answer cites them."""
    found = []
    for path in sorted((root / "crates").glob("*/proofs/**/Answers.antt")):
        text = path.read_text(encoding="utf-8")
        for match in NEEDLESS_ANSWER.finditer(text):
            name = re.escape(match[1])
            if len(re.findall(rf"(?<![\w·'.-]){name}(?![\w'-])", text)) <= 2:
                found.append(f"{path.relative_to(root).as_posix()}: {match[1]}")
    return found


class House(unittest.TestCase):
    def test_imports(self):
        self.assertEqual(all_unused(), [])

    def test_unreached(self):
        """Every definition and law is used, or stands for itself."""
        self.assertEqual(unreached(), [])

    def test_answers(self):
        """A goal that the search closes has no answer."""
        self.assertEqual(needless_answers(common.ROOT), [])

    def test_edits(self):
        self.assertEqual(unreached_edits(), [])

    def shrinks(self, found, allowed):
        """What is found is listed with no less, and what is listed is found."""
        self.assertEqual(sorted(found), sorted(allowed))
        self.assertEqual({name: number for name, number in found.items() if number > allowed[name]}, {})

    def test_lengths(self):
        self.shrinks(long_functions(common.ROOT), {name: lines for name, (lines, _) in LONG.items()})

    def test_parameters(self):
        self.shrinks(many_parameters(common.ROOT), allowed_parameters())

    def test_depths(self):
        self.assertEqual(too_deep(common.ROOT), set())

    def test_names_of_numbers(self):
        allowed = set().union(*(listed(names, ";") for names in NUMBERS_IN_PLACE.values()))
        self.assertEqual(sorted(numbers_without_names(common.ROOT)), sorted(allowed))

    def test_the_gate(self):
        """The gate is rt's own over the whole checkout, in one locale; it copies, removes and leaves out nothing before."""
        gate = (common.ROOT / ".ci" / "run").read_text(encoding="utf-8")
        before, _, _ = gate.partition('\nrt ci | tee "$said"\n')
        self.assertNotEqual(before, gate)
        lines = [line for line in before.splitlines() if not line.startswith("#")]
        self.assertEqual(lines, ["export LC_ALL=C", 'cd "$(dirname "$0")/.." || exit 2', "said=$(mktemp) || exit 2",
                                 """trap 'rm -f "$said"' EXIT"""])

    def test_one_layout(self):
        """One rustfmt.toml and one .editorconfig, in the repository's root; no script in tools/ but those of the list."""
        for name in ("rustfmt.toml", ".editorconfig"):
            command = ["git", "ls-files", "-co", "--exclude-standard", f"*{name}"]
            files = subprocess.run(command, cwd=common.ROOT, capture_output=True, text=True, check=True)
            self.assertEqual(files.stdout.split(), [name])
        scripts = {file.name for file in (common.ROOT / "tools").iterdir() if file.is_file()}
        self.assertEqual(scripts, {"watchtool.py", "cross.sh", "test.sh", "fuzz.py"})

    def test_all_rust_is_looked_at(self):
        """tools/test.sh lays out and looks through every crate of Rust, and calls rt's layout and the gate."""
        script = (common.ROOT / "tools/test.sh").read_text(encoding="utf-8")
        command = ["git", "ls-files", "-co", "--exclude-standard", "*Cargo.toml"]
        files = subprocess.run(command, cwd=common.ROOT, capture_output=True, text=True, check=True)
        folders = {name.rpartition("/")[0] for name in files.stdout.split() if not name.startswith("bench/plain/")}
        self.assertEqual(set(re.search(r'^rust="([^"]*)"$', script, re.M)[1].split()), folders)
        for call in ("laid_out_in_rattle .", ".ci/run", "tools/house/unreached.py"):
            self.assertIn(call, script)


class CanFail(unittest.TestCase):
    """Each check finds a fault where there is one."""

    def source(self, text):
        return common.tree(self, {"crates/a/src/lib.rt": text})

    def test_imports(self):
        root = self.source("use b::unused;\nuse b::{\n    one,\n    used,\n};\nfn f() { used() }\n")
        self.assertEqual(all_unused(root), ["crates/a/src/lib.rt: unused", "crates/a/src/lib.rt: one"])
        root = common.tree(self, {"crates/a/proofs/A.antt": "use b.C.{◌+◌, ◌-◌, D.none, some, x as y}\n-- some\none : 1 + none\n"})
        self.assertEqual(all_unused(root), [f"crates/a/proofs/A.antt: {name}" for name in ("◌-◌", "some", "x as y")])

    def test_unreached(self):
        """Of a crate with a claim, what it uses by name or by a sign is reached, and what only an unreached law uses is not."""
        root = common.tree(self, {
            "README.md": "The claim is `main_law`.\n",
            "crates/one/proofs/Small.antt": """◌⊕◌ : ℕ → ℕ
◌⊕◌ n = n

pub helper : ℕ → ℕ
helper n = n

pub spare : ℕ → ℕ
spare n = n
""",
            "crates/one/proofs/Theorem.antt": """use Rattle.one.proofs.Small.{◌⊕◌, helper, spare}

module _ (n : ℕ) where
  -- main_law uses no spare one
  pub main_law : ℕ
  main_law = ⊕ (helper n)

  unused : ℕ
  unused = spare n
""",
            "crates/one/proofs/f/Answers.antt": """use Rattle.one.proofs.Answered.{law}
use Rattle.one.proofs.f.Goals as goal

pub returns : goal.returns
returns c = law

pub left : ℕ
left = law
""",
            "crates/one/proofs/Answered.antt": """pub law : ℕ
law = 0

pub named : ℕ
named = 0
""",
            "crates/one/src/lib.rt": "#[tactic(auto, using(crate::proofs::Answered::named, std::proofs::Nat::less))]\nfn f() {}\n",
        })
        self.assertEqual(unreached(root), ["crates/one/proofs/Small.antt:7: spare", "crates/one/proofs/Theorem.antt:8: unused",
                                           "crates/one/proofs/f/Answers.antt:7: left"])

    def test_answers(self):
        root = common.tree(self, {"crates/one/proofs/f/Answers.antt": """use Rattle.one.proofs.f.Goals as goal

pub same-length : goal.same-length
same-length c = search rules

pub cited : goal.cited
cited c = search rules

pub returns : goal.returns
returns c = (cited c, c.g.ensures)
"""})
        self.assertEqual(needless_answers(root), ["crates/one/proofs/f/Answers.antt: same-length"])

    def test_edits(self):
        root = common.tree(self, {
            "crates.txt": "theory:\nlibrary: theory\nother:\n",
            "docs/CLAIMS.md": "| `law` (crates/theory/proofs/Claim.antt) |\n",
            "crates/theory/specs/Used.antt": "-- cited by a contract\n",
            "crates/theory/specs/Claimed.antt": "-- used by a claim\n",
            "crates/theory/specs/Alone.antt": "-- used by nothing\n",
            "crates/theory/proofs/Claim.antt": "use Rattle.theory.specs.Claimed.{x}\n",
            "crates/library/src/lib.rt": "use crate::{\n    more::h,\n};\n#[unsafe(no_mangle)]\nfn f() { parts::g() }\n"
                                         "ghost use Rattle.other.specs.Far.{y};\n",
            "crates/library/src/parts.rt": "#[tactic(auto, using(theory::proofs::Named::law))]\nfn g() {}\n",
            "crates/theory/proofs/Named.antt": "use Rattle.theory.specs.Named.{x}\n",
            "crates/theory/specs/Named.antt": "-- used by a law that an attribute names\n",
            "crates/library/src/more.rt": "fn h() {}\n",
            "crates/library/src/none.rt": "fn k() {}\n",
            "crates/library/proofs/parts/g/Answers.antt": "use Rattle.theory.specs.Used.{x}\n",
            "crates/other/specs/Far.antt": "-- in a crate that the library does not stand on\n",
            **{f"crates/theory/must-fail/{name.lower()}.edit": f"file: specs/{name}.antt\nold: a\nnew: b\n"
               for name in ("Used", "Claimed", "Named", "Alone")},
            "crates/other/must-fail/far.edit": "file: specs/Far.antt\nold: a\nnew: b\n",
            **{f"crates/library/must-fail/{name}.edit": f"file: src/{name}.rt\nold: a\nnew: b\n" for name in ("parts", "more", "none")},
        })
        self.assertEqual(unreached_edits(root), ["library/none: src/none.rt", "other/far: specs/Far.antt", "theory/alone: specs/Alone.antt"])

    def test_lengths(self):
        self.assertEqual(long_functions(self.source("fn f() {\n" + "g();\n" * (LONGEST - 2) + "}\n")), {})
        self.assertEqual(long_functions(self.source("fn f() {\n" + "g();\n" * (LONGEST - 1) + "}\n")), {("a", "f"): LONGEST + 1})
        longer = {("a", "f"): LONGEST + 2}
        with self.assertRaises(AssertionError):
            House().shrinks(longer, {("a", "f"): LONGEST + 1})
        with self.assertRaises(AssertionError):
            House().shrinks({}, longer)

    def test_parameters(self):
        given = ", ".join(f"x{i}: u8" for i in range(MOST_PARAMETERS + 1))
        self.assertEqual(many_parameters(self.source(f"fn f({given}) {{}}\n")), {("a", "f"): MOST_PARAMETERS + 1})

    def test_depths(self):
        nested = "if a { while b { match c { 0 => { x } _ => { if d { y } } } } }"
        self.assertEqual(too_deep(self.source(f"fn f() {{ {nested} }}\n")), {("a", "f")})
        self.assertEqual(too_deep(self.source("fn f() { if a { while b { if c { y } else { z } } } }\n")), set())

    def test_names_of_numbers(self):
        self.assertEqual(numbers_without_names(self.source("fn f() { let t = [0u8; 16384]; g(8, T64, x.10) }\n")), set())
        self.assertEqual(numbers_without_names(self.source("fn f() { g(16384u32) }\n")), {("a", "f")})

    def test_layout_of_rattle(self):
        if not shutil.which("rt"):
            self.skipTest("rt is not installed")
        for text, status in (("pub fn f() -> u8 {\n    1\n}\n", 0), ("pub fn f() -> u8 { 1\n}\n", 1)):
            root = common.tree(self, {"crates.txt": "a:\n", "crates/a/src/lib.rt": text})
            command = ["bash", "-c", f"source {common.ROOT}/tools/test.sh; laid_out_in_rattle {root}"]
            said = subprocess.run(command, capture_output=True, text=True, check=False)
            self.assertEqual(said.returncode != 0, status != 0, said.stdout + said.stderr)

    def test_the_gate(self):
        """The gate fails where rt ci does, and where an edit is bad; its last line has the numbers."""
        done = "; done in this run: 2 of the 2 proofs (of crates and of their tests)"
        for said, ends, status, last in (
                ("rt: ok; handles allowed: none; must-fail edits: 2 refused" + done, 0, 0, "4 passed, 0 failed"),
                ("rt: ok; handles allowed: none" + done, 0, 0, "4 passed, 0 failed"),
                ("rt: FAILED: a", 1, 1, "4 passed, 0 failed"),
                ("rt: ok; handles allowed: none; must-fail edits: 2 refused, 1 of them only by a limit, 3 bad" + done, 0, 1, "4 passed, 3 failed"),
                ("rt: ok; handles allowed: none; must-fail edits: 0 refused, 12 bad" + done, 0, 1, "4 passed, 12 failed")):
            rt = f"#!/bin/sh\n[ \"$*\" = ci ] && [ -f crates.txt ] || exit 9\necho '{said}'\necho '4 passed, 0 failed'\nexit {ends}\n"
            root = common.tree(self, {"crates.txt": "a:\n", "bin/rt": rt})
            (root / ".ci").mkdir()
            shutil.copy(common.ROOT / ".ci/run", root / ".ci/run")
            (root / "bin/rt").chmod(0o755)
            path = f"{root}/bin:{os.environ['PATH']}"
            ran = subprocess.run([root / ".ci/run"], cwd="/", env={**os.environ, "PATH": path}, capture_output=True, text=True, check=False)
            self.assertEqual((ran.returncode, ran.stdout.splitlines()[-1]), (status, last), said + ran.stderr)

    def test_warnings_of_rust(self):
        if not shutil.which("cargo-clippy"):
            self.skipTest("clippy is not installed")
        package = '[package]\nname = "a"\nversion = "0.1.0"\nedition = "2021"\n'
        command = ["cargo", "clippy", "--offline", "--quiet", "--", "-D", "warnings"]
        for body, fails in (("x", False), ("return x;", True)):
            root = common.tree(self, {"Cargo.toml": package, "src/lib.rs": f"pub fn f(x: u8) -> u8 {{\n    {body}\n}}\n"})
            said = subprocess.run(command, cwd=root, capture_output=True, text=True, check=False)
            self.assertEqual(said.returncode != 0, fails, said.stderr)

    def test_the_script(self):
        """A part that fails is shown, and makes the script's status 1; an option that is not there is refused."""
        script = common.ROOT / "tools/test.sh"
        for part, status, said in (("true", 0, "ok      part\n"), ("false", 1, "FAILED  part\n")):
            command = ["bash", "-c", f"source {script}; try part {part}; exit $failed"]
            ran = subprocess.run(command, capture_output=True, text=True, check=False)
            self.assertEqual((ran.returncode, ran.stdout), (status, said))
        ran = subprocess.run([script, "--some"], capture_output=True, text=True, check=False)
        self.assertEqual(ran.returncode, 2)
        self.assertIn("tools/test.sh [--all]", ran.stderr)


if __name__ == "__main__":
    unittest.main()
