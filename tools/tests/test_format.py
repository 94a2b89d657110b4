"""docs/FORMAT.md against the definitions in specs/, the tool's table of kinds and the assembler."""
import re
import unittest

import common
from test_numbers import cases, constants
from bukzarn.lang import kinds, outcomes, report
from bukzarn.lang.assembler import assemble
from bukzarn.lang.gate import verdict
from bukzarn.lang.layout import laid_out
from bukzarn.lang.records import lengths

PAGE = (common.ROOT / "docs/FORMAT.md").read_text(encoding="utf-8")
HEAD, LONG = 4, 4

# What the fields of specs/Kinds.antt are called here, and the letters of the tool's table that stand for the same.
FIELDS = {"a_type": "type", "a_domain": "domain", "a_child": "term", "a_term": "term", "an_op": "op", "a_truth": "truth",
          "an_entry": "entry", "free": "any"}
LETTERS = {"a": ["type"], "t": ["type"], "p": ["domain"], "e": ["term"], "o": ["op"], "v": ["truth"], "c": ["truth"],
           "x": ["entry"], "m": ["any"], "k": ["any"], "i": ["any"], "n": ["any", "any"]}


def shown(part):
    """The bytes of a table of offsets, which count them."""
    data = b""
    for offset, row in re.findall(r"^\| (\d+) \| `([0-9a-f ]+)` \|", part, re.M):
        if int(offset) != len(data):
            raise AssertionError(f"offset {offset} after {len(data)} bytes")
        data += bytes.fromhex(row)
    return data


def section(name):
    return PAGE.split(f"## {name}\n")[1].split("\n## ")[0]


def offsets(letters, start=HEAD):
    """The byte at which each field begins, from the second on of a term's, since the first is its type."""
    found = []
    for letter in letters:
        found.append(start)
        start += LONG if letter == "n" else 2
    return found[1:] if letters[:1] == "t" else found


def fields_of(part):
    """The fields of a list in specs/Kinds.antt."""
    return [FIELDS[word] for word in re.findall(r"a_type|a_domain|a_child|a_term|an_op|a_truth|an_entry|free", part)]


def defined():
    """Of each kind in specs/Kinds.antt: its first fields, its group with the least and the most, and its last fields."""
    source = (common.ROOT / "crates/image/specs/Kinds.antt").read_text(encoding="utf-8")
    limits, found = constants("image", "Limits.antt"), {}
    for number, fields in re.findall(r"^(?:domain_row|\w+_row\w* \w+\.\w+) = row (\d+) (.*)$", source, re.M):
        found[int(number)] = (fields_of(fields), [], 0, 0, [])
    rows = re.findall(r"number = (\d+); first = (.*?); group = (.*?); least = (\d+); most = (\w+); last = (.*?) }", source)
    for number, first, group, least, most, last in rows:
        most = limits[most] if most in limits else int(most)
        found[int(number)] = (fields_of(first), fields_of(group), int(least), most, fields_of(last))
    return found


def told(letters):
    return [name for letter in letters for name in LETTERS[letter]]


class Format(unittest.TestCase):
    def test_the_tools_table_of_kinds_is_the_definitions(self):
        self.assertEqual(set(defined()), set(kinds.KINDS))
        for kind, (first, group, least, most, last) in defined().items():
            own = kinds.GROUPS.get(kind, ("", 0, 0, ""))
            self.assertEqual((told(kinds.KINDS[kind][1]) + told(own[3]), told(own[0]), own[1:3]),
                             (first + last, group, (least, most)), kinds.name(kind))

    def test_every_kind_with_its_length_and_fields(self):
        rows = re.findall(r"^\| (\d+) ([a-z ]+?)( \*)? \| ([\d, .]+) \|(.*)\|$", section("The image"), re.M)
        self.assertEqual([int(row[0]) for row in rows], sorted(kinds.KINDS))
        for number, name, star, said, fields in rows:
            kind = int(number)
            wanted = lengths(kind)
            self.assertEqual((name.replace(" ", "-"), bool(star)), (kinds.name(kind), kind in kinds.GROUPS))
            self.assertEqual([int(n) for n in re.findall(r"\d+", said)], wanted[:2] + wanted[-1:] if star else wanted, name)
            starts = [int(n) for n in re.findall(r"(?:^|; ) ?(\d+): ", fields)]
            self.assertEqual(starts, offsets(kinds.KINDS[kind][1]), name)
            self.assertEqual(", 4 bytes" in fields and not star, "n" in kinds.fields(kind), name)

    def test_the_limits_of_the_sections(self):
        rows = re.findall(r"^\| (\w+) \| 1 \| ([\d,]+) \|$", PAGE, re.M)
        self.assertEqual([int(most.replace(",", "")) for _, most in rows],
                         [kinds.DOMAIN_LIMIT, kinds.TYPE_LIMIT, kinds.TERM_LIMIT])

    def test_a_longer_record(self):
        """The page's record with bytes to skip is accepted in place of the short one."""
        record = re.search(r"`([0-9a-f ]+)` is the type number with two bytes to skip", PAGE).group(1)
        image = bytes.fromhex("060001000100" + record + "0a002200000005000000")
        self.assertIsNone(verdict(image))

    def test_records_of_log_and_report(self):
        """Their kinds are those of the definitions, and the tool reads them so."""
        rows = re.findall(r"^\| (\d+) ([a-z ]+) \| (\d+)[^|]*\|", section("The log") + section("The report"), re.M)
        listed = {name: (int(kind), int(length)) for kind, name, length in rows}
        written = constants("report", "Written.antt")
        leaves = cases("calculus", "Report.antt", "leaf_kind", "Leaf")
        self.assertEqual({name: kind for name, (kind, _) in listed.items()},
                         {"printed": constants("base_bytes", "Records.antt")["log_kind"], "report": written["report_kind"],
                          "plain cell": written["plain_cell_kind"], "other cell": written["other_cell_kind"],
                          **{name.lower(): kind for name, kind in leaves.items()}})
        self.assertEqual({kind: length for kind, length in listed.values() if kind in report.LEAVES}, report.LEAVES)
        self.assertEqual([listed[name] for name in ("printed", "report")], [(report.LOG, report.LOG_LENGTH), (report.REPORT, 10)])
        self.assertEqual([listed[f"{name} cell"][0] for name in ("plain", "other")], [report.CELL, report.OTHER])

    def test_the_outcomes(self):
        rows = re.findall(r"^\| (\d+) \| ([a-z-]+) \|", section("The report"), re.M)
        self.assertEqual(rows, [(str(n), word) for n, word in enumerate(outcomes.WORDS)])

    def test_the_image_that_is_taken_apart(self):
        text = PAGE.split("```")[1]
        image, rest = PAGE.split("## One image taken apart")[1].split("it leaves in the log")
        made = assemble(text).image
        self.assertEqual(shown(image), made)
        self.assertIn(f"an image of {len(made)} bytes", PAGE)
        self.assertEqual([len(part) for part in (laid_out(made).domains, laid_out(made).types, laid_out(made).terms)], [2, 2, 6])
        log, left = (shown(part) for part in rest.split("and in the report"))
        self.assertEqual(report.listing(report.read_run(left, log)), "log 1 7\ndone 4\nvalue 5\n")
        self.assertIn(f"The call answers {len(left) + (len(log) << 16)}, which is {len(left)} bytes of report and {len(log)} "
                      f"times 2^16", rest)

    def test_the_answer_of_a_call(self):
        """The header takes it apart at the same bits."""
        header = (common.ROOT / "include/bukzarn.h").read_text(encoding="utf-8")
        for function, part in (("report_bytes", "answer & 0xFFFFu"), ("log_bytes", "answer >> 16"), ("place", "answer >> 24"),
                               ("refusal_number", "(answer >> 16) & 0xFFu"), ("image_bytes", "answer & 0xFFFFu")):
            self.assertIn(part, header.split(f"bukzarn_{function}(uint64_t answer)")[1].split("}")[0])
        self.assertEqual(re.findall(r"^\| (\d+) to (\d+) \|", section("The answer of a call"), re.M),
                         [("0", "15"), ("16", "23"), ("24", "63")])


if __name__ == "__main__":
    unittest.main()
