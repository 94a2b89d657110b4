"""The command line, and the pictures."""
import contextlib
import io
import re
import subprocess
import sys
import tempfile
import unittest
from pathlib import Path

import common
from bukzarn import watchtool
from bukzarn.lang import refusals
from bukzarn.lang.layout import laid_out
from bukzarn.lang.picture import picture

EXAMPLES = common.ROOT / "examples"


def run(*words):
    """What a command writes to standard output and to standard error."""
    out, err = io.TextIOWrapper(io.BytesIO(), "utf-8"), io.StringIO()
    with contextlib.redirect_stdout(out), contextlib.redirect_stderr(err):
        watchtool.main([str(w) for w in words])
    out.flush()
    return out.buffer.getvalue(), err.getvalue()


def status(*words, **more):
    """The exit status of a command of its own, its output and what it tells."""
    command = [sys.executable, common.ROOT / "tools/watchtool.py", *words]
    ended = subprocess.run(command, capture_output=True, text=True, check=False, **more)
    return ended.returncode, ended.stdout, ended.stderr


class Tool(unittest.TestCase):
    def test_asm_and_disasm(self):
        with tempfile.TemporaryDirectory() as folder:
            image, text = Path(folder, "a.img"), Path(folder, "a.proc")
            run("asm", EXAMPLES / "sonde.proc", EXAMPLES / "count.watch", "-o", image)
            self.assertEqual(image.read_bytes(), (EXAMPLES / "count.img").read_bytes())
            run("disasm", image, "-o", text)
            self.assertEqual(run("asm", text), (image.read_bytes(), ""))
            self.assertEqual(run("disasm", "--program", image)[0], text.read_bytes())

    def test_asm_tells_of_a_refusal(self):
        texts = EXAMPLES / "sonde.proc", EXAMPLES / "alter.watch"
        image, told = run("asm", "--keep", *texts)
        self.assertEqual(image, (EXAMPLES / "alter.img").read_bytes())
        self.assertEqual(status("asm", *texts)[:2], (1, ""))
        self.assertIn("alter.watch, line 4, column 5:\n    correction := 100\n", told)

    def test_explain(self):
        texts = EXAMPLES / "sonde.proc", EXAMPLES / "alter.watch"
        with_text = run("explain", *texts, "--refused", "15", "450")[0].decode()
        self.assertEqual(with_text, run("explain", *texts)[0].decode())
        self.assertIn("decoder, and must be at or below the current domain, watch", with_text)
        from_image = run("explain", EXAMPLES / "alter.img", "--refused", "15", "450")[0].decode()
        self.assertIn("The record is term 31, store (kind 51).\nIt comes from the text that disasm gives", from_image)
        self.assertEqual(run("explain", EXAMPLES / "plain.img")[0], b"The image is accepted.\n")

    def test_explain_without_an_image(self):
        for number in refusals.REFUSALS:
            said = run("explain", "--refused", number, 7)[0].decode()
            self.assertTrue(said.startswith(f"refused {number} 7: "), said)
            self.assertIn("\nTo mend it: ", said)
        last = max(refusals.REFUSALS)
        code, _, told = status("explain", "--refused", str(last + 1), "1")
        self.assertEqual((code, told.splitlines()[-1]),
                         (2, f"watchtool.py: error: there is no refusal {last + 1}: they are 1 to {last}"))
        self.assertTrue(run("explain", "--outcome", "other-cells")[0].startswith(b"outcome 11, other-cells: "))
        self.assertEqual(run("explain", "--outcome", "11"), run("explain", "--outcome", "other-cells"))
        self.assertEqual(status("explain")[0], 2)
        self.assertIn("'13' is no outcome: they are 0 to 12, or done, spent", status("explain", "--outcome", "13")[2])

    def test_check(self):
        self.assertEqual(status("check", EXAMPLES / "plain.img")[:2], (0, "accepted\n"))
        code, said, _ = status("check", EXAMPLES / "sonde.proc", EXAMPLES / "alter.watch")
        self.assertEqual((code, said.split(":")[0]), (1, "refused 15 at byte 450"))

    def test_refusals(self):
        self.assertEqual(run("refusals")[0].decode().count("\n"), 2 * len(refusals.REFUSALS))

    def test_report(self):
        with tempfile.TemporaryDirectory() as folder:
            report, log = Path(folder, "report"), Path(folder, "log")
            report.write_bytes(bytes.fromhex("0a0046000200" "07000000"))
            log.write_bytes(bytes.fromhex("0a0040000100" "ffffffff"))
            self.assertEqual(run("report", report, log)[0], b"log 1 -1\naborted 7\n")
            self.assertEqual(run("report", report, "--words")[0], b"The run was aborted after 7 steps.\n")
            report.write_bytes(2 * report.read_bytes())
            self.assertEqual(run("report", report)[0], b"frame 0\naborted 7\nframe 1\naborted 7\n")

    def test_errors(self):
        for words in (("asm", "no such file"), ("picture", common.STORED / "data/076-refused-2.img"),
                      ("report", EXAMPLES / "plain.txt"), ("asm", EXAMPLES / "count.watch"),
                      ("disasm", "--program", common.STORED / "data/052-refused-11.img")):
            with self.assertRaises(SystemExit) as caught:
                run(*words)
            self.assertTrue(str(caught.exception).startswith("watchtool: "), words)

    def test_files_in_the_wrong_place(self):
        for words, told in ((("disasm", "sonde.proc"), "sonde.proc is a text: disasm takes an image"),
                            (("asm", "sonde.proc", "plain.img"), "plain.img is an image: a watch is a text"),
                            (("asm", "plain.img", "count.watch"), "plain.img is an image, and takes no watches"),
                            (("asm", "count.watch"), "count.watch is a watch: the procedure on which it hangs comes first"),
                            (("asm", "sonde.proc", "flight.proc"), "those of its procedure hold, which is the first text"),
                            (("asm", "first.proc", "count.watch"), "has no place for watches: write 'watches at DOMAIN;'"),
                            (("asm", "newer.rec", "count.watch"), "a text of records takes no watches"),
                            (("plot", "plain.txt"), "plain.txt is not a table of frames, domains and numbers"),
                            (("report", "plain.img"), "byte 0: the report has no record of length 10 and kind 70 here"),
                            (("check", "none.proc"), "watchtool: none.proc: No such file or directory"),
                            (("asm", "sonde.proc", "-o", "no/such/file"), "watchtool: no/such/file: No such file")):
            code, _, said = status(*words, cwd=EXAMPLES)
            self.assertEqual(code, 1, words)
            self.assertIn(told, said)

    def test_a_picture_has_every_domain_and_term(self):
        made = run("picture", EXAMPLES / "sonde.proc", EXAMPLES / "count.watch")[0].decode()
        self.assertIn('d1 [shape=ellipse, fillcolor=lightyellow, label="watch"]', made)
        self.assertIn("d0 -> d1 [dir=back]", made)
        self.assertIn("lower to watch", made)
        terms = len(laid_out((EXAMPLES / "count.img").read_bytes()).terms)
        self.assertEqual(len(re.findall(r"^    e\d+ \[", made, re.M)), terms)
        self.assertEqual(len(re.findall(r"^    e\d+ -> e\d+", made, re.M)), terms - 1)

    def test_a_picture_says_the_pattern_of_a_match(self):
        made = run("picture", EXAMPLES / "flight.proc", EXAMPLES / "descent.watch")[0].decode()
        self.assertIn(': match [pointcut, rest]\\nunit"', made)

    def test_a_picture_says_what_is_taken_down(self):
        made = run("picture", EXAMPLES / "sonde.proc", EXAMPLES / "three.watch")[0].decode()
        self.assertIn(': takedown of watch\\nunit"', made)

    def test_pictures_of_stored_images(self):
        for file, listing in common.stored_listings():
            if not listing.startswith("refused") or int(listing.split()[1]) > 9:
                self.assertTrue(picture(file.read_bytes()).startswith("digraph image {"), file.name)


if __name__ == "__main__":
    unittest.main()
