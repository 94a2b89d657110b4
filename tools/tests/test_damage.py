"""Damaged texts and bytes: the tool says what is wrong, and never fails in another way."""
import random
import unittest

import common
import make_examples
from bukzarn.lang import recordform, refusals, report
from bukzarn.lang.assembler import assemble
from bukzarn.lang.disassembler import disassemble
from bukzarn.lang.gate import verdict
from bukzarn.lang.lexer import SourceError, tokens

FOLDER = common.ROOT / "examples"
ROUNDS = 400


class Damage(unittest.TestCase):
    def test_texts(self):
        """Words left out, doubled, or put in from elsewhere: an image, or an error with a place."""
        rng, read = random.Random(3), 0
        texts = [(FOLDER / f).read_text() for _, files in make_examples.examples(FOLDER) for f in files[:1]]
        texts += [disassemble((FOLDER / f"{name}.img").read_bytes()) for name, _ in make_examples.examples(FOLDER)]
        texts.append(disassemble(bytes(range(200))))
        for _ in range(ROUNDS):
            text = rng.choice(texts)
            words = text.split(" ")
            other = [t.text for t in tokens(text, "")[:-1]] if not recordform.is_records(text) else words
            for _ in range(rng.randint(1, 2)):
                n = rng.randrange(len(words))
                words[n:n + rng.randint(0, 1)] = rng.choice([[], [rng.choice(other)], [words[n], words[n]]])
            try:
                made = assemble(" ".join(words)).image
            except SourceError as error:
                self.assertRegex(str(error), "^text, line [0-9]+, column [0-9]+: .")
                continue
            read += 1
            verdict(made)
            self.assertEqual(assemble(disassemble(made)).image, made)
        self.assertGreater(read, 0)

    def test_reports(self):
        rng, read = random.Random(4), 0
        whole = bytes.fromhex("0a0046000000" "07000000" "080043000500" "0000" "0a00440001000400" "4100" "060045000000")
        self.assertEqual(report.listing(report.read_run(whole)), "done 7\nvalue 5\ncell 1 unit\ncell 0 other\n")
        for _ in range(ROUNDS):
            made = bytearray(whole)
            made[rng.randrange(len(made))] = rng.randrange(256)
            try:
                report.listing(report.read_run(bytes(made[:rng.randrange(len(made)) or len(made)])))
                read += 1
            except report.Damaged:
                pass
        self.assertGreater(read, 0)

    def test_refusals_that_are_not_the_images(self):
        rng = random.Random(5)
        for name, _ in make_examples.examples(FOLDER):
            image = (FOLDER / f"{name}.img").read_bytes()
            for _ in range(20):
                said = refusals.explain(image, rng.randint(1, 18), rng.randrange(len(image) + 2))
                self.assertIn("To mend it: ", said)
        after_zeros = bytes(8) + bytes.fromhex("060001000100")
        self.assertIn("The record is domain 0", refusals.explain(after_zeros, 10, 8))


if __name__ == "__main__":
    unittest.main()
