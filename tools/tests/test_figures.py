"""docs/FIGURES.md: every name that it gives stands in the file that its row, its table or its paragraph names."""
import re
import unittest

import common

PAGE = common.ROOT / "docs/FIGURES.md"
LINK = re.compile(r"\]\(\.\./([^)]+)\)")
NAME = re.compile(r"[A-Za-z][\w-]*[\w₀-₉']|[A-Za-z]")


def misplaced(text, root):
    """The names that stand in none of the files that go with them: those linked in their own line, those in the head of their
    table, and those of the last paragraph before it that links to any."""
    found, files, head = [], [], []
    for number, line in enumerate(text.splitlines(), 1):
        if line.startswith("#"):
            files, head = [], []
            continue
        links = LINK.findall(line)
        if not line.startswith("|"):
            head = []
            files = links or files
        elif not head and links and "`" not in line:
            head = links
        words = set()
        for file in links + head + files:
            words.update(NAME.findall((root / file).read_text(encoding="utf-8")))
        for name in re.findall(r"`([^`]+)`", line):
            found += [f"{number}: {word} of `{name}`" for word in NAME.findall(name) if word not in words]
    return found


class Figures(unittest.TestCase):
    def test_names_stand_where_the_page_says(self):
        text = PAGE.read_text(encoding="utf-8")
        self.assertGreater(len(re.findall(r"`[^`]+`", text)), 300)
        self.assertEqual(misplaced(text, common.ROOT), [])

    def test_every_rule_is_named(self):
        """Each rule of figures 2 and 3, each reduction and each field of `Acceptable` stands in some row."""
        text = PAGE.read_text(encoding="utf-8")
        for file, rule in (("calculus/specs/Typing.antt", r"^ +([vt]_\w+|is_\w+|no_\w+|a_\w+|p_\w+|has_\w+) :"),
                           ("calculus/specs/Reduce.antt", r"^abbrev pub (reduce\w+) :"),
                           ("verdict/specs/Acceptable.antt", r"^  pub ([a-z_]+) : (?!Layout)")):
            names = set(re.findall(rule, (common.ROOT / "crates" / file).read_text(encoding="utf-8"), re.M))
            self.assertGreater(len(names), 8, file)
            self.assertEqual(sorted(name for name in names - {"image"} if f"`{name}`" not in text), [], file)


class CanFail(unittest.TestCase):
    def test_a_name_in_another_file(self):
        root = common.tree(self, {"crates/a.antt": "here\n", "crates/b.antt": "there\n"})
        rows = ("[a](../crates/a.antt).", "", "| the paper | name |", "|---|---|", "| x | `here` |", "| y | `there` |",
                "| z | `there` ([b](../crates/b.antt)) |")
        page = "\n".join(rows)
        self.assertEqual(misplaced(page, root), ["6: there of `there`"])


if __name__ == "__main__":
    unittest.main()
