"""Reports and logs: the bytes of every stored listing, written here by document 01, are listed as the engine does."""
import struct
import unittest

import common
from bukzarn.lang import outcomes, report


def leaf(word):
    if word == "unit":
        return struct.pack("<HH", 4, 65)
    if word in ("true", "false"):
        return struct.pack("<HHH", 6, 66, word == "true")
    return struct.pack("<HHi", 8, 67, int(word))


def as_bytes(listing):
    """The report and the log that a listing stands for."""
    made, log = b"", b""
    for line in listing.splitlines():
        word, *rest = line.split()
        if word == "log" and len(rest) == 2:
            log += struct.pack("<HHHi", 10, 64, int(rest[0]), int(rest[1]))
        elif word == "value":
            made += b"".join(map(leaf, rest))
        elif word == "cell":
            leaves = b"" if rest[1] == "other" else b"".join(map(leaf, rest[1:]))
            made += struct.pack("<HHH", 6 + len(leaves), 69 if rest[1] == "other" else 68, int(rest[0])) + leaves
        else:
            made += struct.pack("<HHHI", 10, 70, outcomes.WORDS.index(word), int(rest[0]))
    return made, log


class Report(unittest.TestCase):
    def test_stored_listings(self):
        found = set()
        for file, listing in common.stored_listings():
            if not listing.startswith("refused"):
                run = report.read_run(*as_bytes(listing))
                found.add(run.outcome)
                self.assertEqual(report.listing(run), listing, file.name)
        self.assertEqual(found, set(range(13)))

    def test_the_largest_report(self):
        listing = dict(common.stored_listings())[common.STORED / "data/report-17994.img"]
        self.assertEqual(len(as_bytes(listing)[0]), 17_994)

    def test_in_words(self):
        run = report.read_run(*as_bytes("log 1 7\ndone 1\nvalue 5 true\ncell 0 other\ncell 1 -3\n"))
        self.assertEqual(report.in_words(run, ["decoder", "watch"]),
                         "watch printed 7.\nThe run is done after 1 step.\nThe result is 5, true.\n"
                         "Cell 0 of decoder holds a value that is not plain.\nCell 1 of watch holds -3.\n")

    def test_every_outcome_is_told(self):
        self.assertEqual(len(outcomes.WORDS), 13)
        for n, word in enumerate(outcomes.WORDS):
            self.assertEqual("other domains" in outcomes.sentence(n, 2), word.startswith("other-"), word)
            self.assertEqual((outcomes.number(word), outcomes.number(str(n))), (n, n))
            self.assertTrue(outcomes.explain(n).startswith(f"outcome {n}, {word}: "))
            self.assertIn("\nWhat to do: ", outcomes.explain(n))
        self.assertEqual(outcomes.table().count("\n"), 26)
        for word in ("13", "-1", "Done", ""):
            with self.assertRaises(ValueError):
                outcomes.number(word)

    def test_the_reports_of_a_recording(self):
        listings = ["done 1\nvalue 5\ncell 0 1\n", "aborted 7\n", "spent 3\ncell 0 other\n"]
        runs = report.read_runs(b"".join(as_bytes(listing)[0] for listing in listings))
        self.assertEqual([report.listing(run) for run in runs], listings)

    def test_damage(self):
        whole, log = as_bytes("log 1 7\ndone 1\nvalue 5\ncell 0 1\n")
        for made, printed in ((b"", b""), (whole[:-1], b""), (whole, log[:-1]), (log, b""), (whole + b"\0", b""),
                              (b"\x0a\0\x46\0\x0d\0\0\0\0\0", b""), (whole + whole, log),
                              (whole[:18] + bytes.fromhex("0a004500000004004100"), b"")):
            with self.assertRaises(report.Damaged):
                report.read_run(made, printed)


if __name__ == "__main__":
    unittest.main()
