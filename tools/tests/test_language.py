"""docs/LANGUAGE.md: its texts are assembled, its tables list every kind, and each construct of a table gives its kind."""
import re
import unittest

import common
from bukzarn.lang import hints, kinds
from bukzarn.lang.assembler import assemble
from bukzarn.lang.gate import verdict
from bukzarn.lang.layout import laid_out
from bukzarn.lang.lexer import KEYWORDS

PAGE = (common.ROOT / "docs/LANGUAGE.md").read_text(encoding="utf-8")

# Names that the tables use: domains p and q, types a and b, an object type t with methods m and n, a field, a variable x.
HEAD = ("domain p\ndomain q <= p\ntype a = number\ntype b = truth\ntype t = object { m at p : number; n at p : number }\n"
        "frame { name at 0 }\nlet x = 5 in ")
PAIRS = "(function (x : (number, number)) { 0 })"
OBJECT = "(object t as x { m { 1 } n { 2 } })"
LABEL, CUT, CELL = "(new label number)", "(pointcut {} of number)", "(new cell 1)"

# What stands for the capital letters of a construct, where it is not 1, 2 and 3.
PARTS = {
    "A; B": {"A": "()"},
    "if A then B else C": {"A": "true"},
    "let (x, y) = A in B": {"A": "(1, 2)"},
    "let (x, (y, z)) = A in B": {"A": "(1, (2, 3))"},
    "A(B)": {"A": "(function (x : number) { x })"},
    "A(B, C)": {"A": PAIRS},
    "A((B, C))": {"A": PAIRS},
    "mark A with B": {"A": LABEL},
    "pointcut {A, B} at p": {"A": LABEL, "B": LABEL},
    "advice on A as x at p { B }": {"A": CUT, "B": "()"},
    "install A": {"A": f"advice on {CUT} as x {{ () }}"},
    "read A": {"A": CELL},
    "A := B": {"A": CELL},
    "lower to p { A }": {"A": "()"},
    "A.m": {"A": OBJECT},
    "A.0": {"A": OBJECT},
    "keep A with B { C }": {"A": LABEL},
    "match A with [P as x, any, rest as y] then B else C": {"A": "stack", "P": CUT},
    "(var 2 : t)": {"t": "number", "2": "0"},
    "A and B": {"A": "true", "B": "false"},
    "A or B": {"A": "true", "B": "false"},
    "not A": {"A": "true"},
    "abort t": {"t": "number"},
    "(A : t)": {"t": "number"},
}


def rows(section):
    """The rows of the tables of a section: the texts of the first column, and the second column."""
    part = PAGE.split(f"## {section}\n")[1].split("\n## ")[0]
    return [(re.findall("`([^`]*)`", first), second)
            for first, second in re.findall(r"^\| (`.*?`[^|]*) \| (.*?) \|", part, re.M)]


def numbers(said):
    return [int(n) for n in re.findall(r"\b\d\d\b", said.split(":")[0])]


def filled(construct):
    """A construct with terms in place of its capital letters."""
    parts = {"A": "1", "B": "2", "C": "3", **PARTS.get(construct, {})}
    return re.sub("|".join(rf"\b{re.escape(name)}\b" for name in parts), lambda found: parts[found.group()], construct)


class Page(unittest.TestCase):
    def test_the_texts_are_accepted_or_read(self):
        """All but the text of records, which has stray bytes, are accepted."""
        texts = PAGE.split("```")[1::2]
        self.assertEqual(len(texts), 6)
        for text in texts:
            refused = verdict(assemble(text).image)
            self.assertEqual(refused and refused.number, 2 if text.strip().startswith("records") else None, text[:80])

    def test_the_last_text_has_everything_once(self):
        tables = laid_out(assemble(PAGE.split("```")[-2]).image)
        self.assertEqual({record.kind for part in tables.sections for record in part}, set(kinds.KINDS))

    def test_the_tables_list_every_kind(self):
        listed = {n for section in ("Types", "Terms") for _, said in rows(section) for n in numbers(said)}
        self.assertEqual(listed | {kinds.DOMAIN}, set(kinds.KINDS))

    def test_each_type_gives_its_kind(self):
        for texts, said in rows("Types"):
            self.assertEqual(len(texts), len(numbers(said)))
            for text, number in zip(texts, numbers(said)):
                tables = laid_out(assemble(HEAD.replace("let", f"type mine = {text}\nlet", 1) + "()").image)
                self.assertIn(number, [t.kind for t in tables.types], text)

    def test_each_term_gives_its_kind(self):
        """Accepted, or refused with 16 alone, since a program may not give every value."""
        for texts, said in rows("Terms"):
            for text in texts:
                with self.subTest(text):
                    image = assemble(HEAD + "{ " + filled(text) + " }").image
                    refused = verdict(image)
                    self.assertIn(refused and refused.number, (None, 16), refused and refused.words)
                    found = {record.kind for record in laid_out(image).terms}
                    self.assertLessEqual(set(numbers(said)), found)

    def test_what_other_languages_have(self):
        """The messages say the same as the page."""
        found = rows("If you come from another language")
        self.assertEqual(len(found), 8)
        for (sign,), cell in found:
            self.assertIn(f"write {cell.strip('`')}", hints.INSTEAD[sign.replace("\\", "")])

    def test_shorter_ways_stand_for_what_the_page_says(self):
        """Each operator gives the image of the form beside it."""
        shown = 0
        for texts, said in rows("Terms"):
            form = re.match(r"`([^`]+)`(:|$)", said)
            if len(texts) == 1 and form and re.match(r"A [<>=!]+ B|A and B|A or B|not A|-A", texts[0]):
                parts = {"A": "true", "B": "false"} if re.search(r"and|or|not", texts[0]) else {"A": "frame[1]", "B": "frame[2]"}
                made = [re.sub(r"\b[AB]\b", lambda found: parts[found.group()], text) for text in (texts[0], form[1])]
                self.assertEqual(*(assemble(HEAD + text).image for text in made), texts[0])
                shown += 1
        self.assertEqual(shown, 8)

    def test_the_words_of_the_language_are_listed(self):
        listed = PAGE.split("words of the language:\n\n")[1].split("\n\n")[0]
        self.assertEqual(re.findall("`([a-z]+)`", listed), sorted(KEYWORDS))

    def test_the_words_of_the_language_are_used_on_the_page(self):
        shown = " ".join(re.findall("`([^`]*)`", PAGE) + PAGE.split("```")[1::2])
        self.assertEqual({word for word in KEYWORDS if not re.search(rf"\b{word}\b", shown)}, set())


if __name__ == "__main__":
    unittest.main()
