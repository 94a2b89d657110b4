"""What the documents list of the repository is what stands there. The second half of this file shows that each check can fail."""
import functools
import re
import shutil
import subprocess
import unittest

import common
import gate_order
from believed import believed

# The pages whose names are compared with the tree. Notes in docs/changes say what was so on their day, and are left alone.
PAGES = ("README.md", "docs/CLAIMS.md", "docs/CONTRIBUTING.md", "docs/CRATES.md", "docs/DECISIONS.md", "docs/FIGURES.md",
         "docs/FORMAT.md", "docs/LANGUAGE.md", "docs/PERFORMANCE.md", "docs/PYTHON.md", "docs/RESEARCHERS.md", "docs/STATIONS.md",
         "docs/WORDS.md", "examples/README.md", "python/README.md")

# Words of the kit, of other programs, of examples and of the names before, which no file of the repository has.
WORDS_FROM_ELSEWHERE = set("""RT_JOBS ac allow-holes brief doc forecast_numbers generate_load incremental ipairs lem lemma ozone
rattle rn rnw run_watched solution trace-mem validate_number validate_place write_fixed_form write_stripped_form x0003 NAME
PATH discover parallel tidy year IMAGE""".split())

# Paths of the kit, and patterns.
PATHS_FROM_ELSEWHERE = {"crates/NAME", "crates/NAME/must-fail", "crates/CRATE/must-fail/LABEL.edit"}

# Folders whose files have the names before the port.
FORMER = ("tools/port/", "prepared/")

WORD = re.compile(r"[A-Za-z][\w-]*[\w₀-₉']")

def pages():
    """The pages with their texts."""
    files = [common.ROOT / page for page in PAGES]
    return [(file, file.read_text(encoding="utf-8")) for file in files if file.exists()]


def absent_names(text, universe):
    """What a page names in code letters and no file has: crates, files, functions, definitions, laws, options."""
    text = re.sub(r"^(?: {4}|```).*$", "", text, flags=re.M)
    return [name for name in re.findall(r"`([^`\n]+)`", text) for word in WORD.findall(name) if word not in universe]


def is_built(path, root):
    """Whether a path is where rt leaves a program, crates/NAME/out/NAME, or a library; or that folder."""
    found = re.fullmatch(r"crates/(\w+)/out(?:/(?:(\1)|lib\1\.a))?", path)
    return bool(found) and (root / "crates" / found[1] / "src" / ("main.rt" if found[2] else "lib.rt")).is_file()


def absent_files(text, root, folder):
    """Paths, and files named behind their crate, that are not there."""
    absent = []
    for path in re.findall(r"\b((?:crates|tools|docs|examples|bench|bindings|cli|include|python)/[\w./+-]*\w)", text):
        there = is_built(path, root) or any((place / path).exists() or list(place.glob(path + "*")) for place in (root, folder))
        if not there and path not in PATHS_FROM_ELSEWHERE:
            absent.append(path)
    for path in re.findall(r"(?<![\w/])([a-z]\w+/(?:src|specs|proofs)/[\w/+]+\.(?:rt|antt))", text):
        if not (root / "crates" / path).exists():
            absent.append(path)
    for crate, file in re.findall(r"\b([a-z][a-z_]+), ((?:src|specs|proofs)/[\w/+]+(?:\.rt|\.antt)?)", text):
        if crate != "rt" and not (root / "crates" / crate / file).exists():
            absent.append(f"{crate}, {file}")
    return absent


def absent_crates(text, universe):
    """Words that look like the name of an inner crate, and are neither one nor a function nor a module."""
    return [word for word in re.findall(r"\b(?:calculus|check|image|need|read|vm|write)_[a-z_]+\b", text) if word not in universe]


def absent_edits(text, root):
    """Edits that a page names as CRATE/LABEL and that are not there."""
    named = re.findall(r"`([a-z]\w*/\w+)`", text)
    return [name for name in named if not (root / "crates" / f"{name.replace('/', '/must-fail/')}.edit").is_file()]


def misplaced_edits(root):
    """Edits of must-fail/ whose old text does not stand once in its file."""
    found = []
    for edit in sorted(root.glob("crates/*/must-fail/*.edit")):
        file = None
        for line in edit.read_text(encoding="utf-8").splitlines():
            if line.startswith("file: "):
                file = edit.parents[1] / line[6:]
            elif line.startswith("old: ") and file.read_text(encoding="utf-8").count(line[5:]) != 1:
                found.append(edit.name)
    return found


def wrong_counts(text, counts):
    """Counts of today that are not so; a sentence with a date says what was so then."""
    sentences = re.split(r"(?<=[.;:])\s|\n", text)
    return [f"{number} {what}" for sentence in sentences if not re.search(r"\b20\d\d-\d\d-\d\d\b", sentence)
            for number, what in re.findall(rf"\b(\d+) ({'|'.join(counts)})\b", sentence) if int(number) != counts[what]]


def listed_crates():
    return gate_order.crates((common.ROOT / "crates.txt").read_text(encoding="utf-8"))


@functools.cache
def words_of_the_tree():
    """Every word of the sources, and the names of all files and folders, but for the documents and what has the names before."""
    words = set()
    command = ["git", "ls-files", "-co", "--exclude-standard"]
    listed = subprocess.run(command, cwd=common.ROOT, capture_output=True, text=True, check=True).stdout
    for name in listed.splitlines():
        path = common.ROOT / name
        if name.endswith(".md") or name.startswith(FORMER) or not path.is_file():
            continue
        for part in path.relative_to(common.ROOT).parts:
            words.update((part, part.split(".")[0]))
        try:
            found = WORD.findall(path.read_text(encoding="utf-8"))
            words.update(found, (word.rstrip("'") for word in found))
        except UnicodeDecodeError:
            pass
    return words


class Documents(unittest.TestCase):
    def test_what_must_be_believed(self):
        """docs/CLAIMS.md lists the definitions that the statements use, crate by crate: all of them, and no others."""
        text = (common.ROOT / "docs" / "CLAIMS.md").read_text(encoding="utf-8")
        table = text.split("<!-- believed -->")[1]
        listed = set()
        for crate, files in re.findall(r"^\| (\w+) \| (.*) \|$", table.split("|---|---|")[1], re.M):
            for name in files.split(", "):
                part, _, module = name.rpartition("/")
                listed.add(f"crates/{crate}/src" if name == "src" else f"crates/{crate}/{part or 'specs'}/{module}.antt")
        self.assertEqual(sorted(listed), believed())

    def test_the_kit(self):
        """README.md names the kit that proves the crates, where it is installed."""
        if not shutil.which("rt"):
            self.skipTest("rt is not installed")
        said = subprocess.run(["rt", "version"], capture_output=True, text=True, check=True).stdout.strip()
        self.assertIn(f"proved with {said}, as `rt version`", (common.ROOT / "README.md").read_text(encoding="utf-8"))

    def test_the_map_of_crates(self):
        """docs/CRATES.md has a row for every crate, and for no other."""
        page = (common.ROOT / "docs" / "CRATES.md").read_text(encoding="utf-8")
        rows = re.findall(r"^\| ([\w, ]+) \|", page, re.M)
        named = {name for row in rows for name in row.split(", ")} - {"crate"}
        self.assertEqual(named, set(listed_crates()))

    def test_links(self):
        """What a page links to is there."""
        for page in (common.ROOT / "README.md", *common.ROOT.glob("docs/*.md"), *common.ROOT.glob("examples/*.md")):
            for link in re.findall(r"\]\(([^)#:]+)\)", page.read_text(encoding="utf-8")):
                self.assertTrue((page.parent / link).exists(), f"{page.name}: {link}")

    def test_loops_of_receivers(self):
        """The loops that docs/STATIONS.md shows stand in the receivers."""
        page = (common.ROOT / "docs" / "STATIONS.md").read_text(encoding="utf-8")
        shown = re.findall(r"\]\(\.\./([^)]*receiver[^)]*)\)[^\n]*This is its loop:\n\n((?:    [^\n]*\n)+)", page)
        self.assertEqual(len(shown), 2)
        for file, loop in shown:
            code = "\n".join(line.strip() for line in (common.ROOT / file).read_text(encoding="utf-8").splitlines())
            self.assertIn("\n".join(line.strip() for line in loop.splitlines()), code, file)

    def everywhere(self, check):
        """What a check finds in each page."""
        self.assertEqual([f"{page.name}: {name}" for page, text in pages() for name in check(page, text)], [])

    def test_edits_that_are_named(self):
        """Every edit that a page names as CRATE/LABEL is there."""
        self.assertTrue(re.findall(r"`(\w+)/(\w+)`", (common.ROOT / "docs/CLAIMS.md").read_text(encoding="utf-8")))
        self.everywhere(lambda page, text: absent_edits(text, common.ROOT) if page.name in ("CLAIMS.md", "DECISIONS.md") else [])

    def test_edits_name_text_that_is_there(self):
        self.assertEqual(misplaced_edits(common.ROOT), [])

    def test_names(self):
        universe = words_of_the_tree() | WORDS_FROM_ELSEWHERE
        self.everywhere(lambda page, text: absent_names(text, universe))

    def test_files(self):
        self.everywhere(lambda page, text: absent_files(text, common.ROOT, page.parent))

    def test_crates(self):
        universe = words_of_the_tree() | WORDS_FROM_ELSEWHERE
        self.everywhere(lambda page, text: absent_crates(text, universe))

    def test_counts(self):
        """Counts that the pages give of today's tree are right."""
        crates = listed_crates()
        edits = list(common.ROOT.glob("crates/*/must-fail/*.edit"))
        self.everywhere(lambda page, text: wrong_counts(text, {"crates": len(crates), "edits": len(edits)}))


class CanFail(unittest.TestCase):
    """Each check finds a fault where there is one."""

    def test_names(self):
        self.assertEqual(absent_names("`there` and `gone`\n    `in code`\n", {"there"}), ["gone"])
        self.assertEqual(absent_crates("vm_loop, vm_gone and read_it", {"vm_loop"}), ["vm_gone", "read_it"])

    def test_files(self):
        root = common.tree(self, {"docs/here.md": "", "crates/some/specs/Here.antt": "", "crates/some/src/main.rt": ""})
        text = ("docs/here.md, docs/gone.md; some/specs/Here.antt, some/specs/Gone.antt; crate some, specs/No.antt; "
                "crates/some/out/some, crates/some/out/other, crates/some/out/libsome.a")
        absent = absent_files(text, root, root / "docs")
        self.assertEqual(absent, ["docs/gone.md", "crates/some/out/other", "crates/some/out/libsome.a", "some/specs/Gone.antt",
                                  "some, specs/No.antt"])

    def test_edits(self):
        edit = "file: src/lib.rt\nold: x + 1\nnew: x\n"
        root = common.tree(self, {"crates/a/must-fail/one.edit": edit, "crates/a/src/lib.rt": "x + 1; x + 1"})
        self.assertEqual(absent_edits("`a/one`, `a/two`, `b/one`", root), ["a/two", "b/one"])
        self.assertEqual(misplaced_edits(root), ["one.edit"])

    def test_counts(self):
        text = "99 crates and 5 edits; on 2026-11-17 there were 90 crates"
        self.assertEqual(wrong_counts(text, {"crates": 99, "edits": 6}), ["5 edits"])


if __name__ == "__main__":
    unittest.main()
