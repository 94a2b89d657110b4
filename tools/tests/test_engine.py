"""The built programs beside the tool and the examples, where they are built (rt run)."""
import subprocess
import unittest

import common
import make_examples
import random_images
from bukzarn.lang.assembler import assemble
from bukzarn.lang.disassembler import program, tree
from bukzarn.lang.gate import verdict
from bukzarn.lang.layout import laid_out

WATCH, NEED, FIXED, STRIP = map(common.program, ("watch", "need", "fixed", "strip"))


def listing(image, program=WATCH):
    return subprocess.run([program], input=image, capture_output=True, check=True).stdout.decode()


@unittest.skipUnless(WATCH.exists(), "watch is not built")
class Engine(unittest.TestCase):
    def test_examples(self):
        for name, _ in make_examples.examples(common.ROOT / "examples"):
            image = (common.ROOT / "examples" / f"{name}.img").read_bytes()
            self.assertEqual(listing(image), (common.ROOT / "examples" / f"{name}.txt").read_text(), name)

    def test_random_images(self):
        """The same verdict; and the program in the assembler's order runs like the image."""
        for n, image in enumerate(random_images.images(8, 400)):
            said, refused = listing(image), verdict(image)
            if refused:
                self.assertEqual(said, f"refused {refused.number} {refused.place}\n", n)
            else:
                self.assertEqual(said, listing(assemble(program(image)).image), n)


@unittest.skipUnless(NEED.exists(), "need is not built")
class Need(unittest.TestCase):
    def test_examples(self):
        for name in make_examples.WITH_NEEDS:
            image = (common.ROOT / "examples" / f"{name}.img").read_bytes()
            self.assertEqual(listing(image, NEED), (common.ROOT / "examples" / f"{name}.need").read_text(), name)


def said_by(image):
    """An image's domains and its program, with types in full."""
    tables = laid_out(image)
    return tables.masks, repr(tree(tables))


@unittest.skipUnless(FIXED.exists(), "fixed is not built")
class Fixed(unittest.TestCase):
    def form(self, image):
        return subprocess.run([FIXED], input=image, capture_output=True, check=True).stdout

    def test_a_newer_writers_image_has_the_same_form(self):
        image = (common.ROOT / "examples" / "newer.img").read_bytes()
        self.assertEqual(self.form(image), self.form((common.ROOT / "examples" / "first.img").read_bytes()))

    def test_random_images(self):
        """The form says the same program, and writing it again changes nothing; a refused image has none."""
        for n, image in enumerate(random_images.images(9, 200)):
            form = self.form(image)
            if verdict(image):
                self.assertEqual(form, b"", n)
            else:
                self.assertEqual(said_by(form), said_by(image), n)
                self.assertEqual(self.form(form), form, n)


@unittest.skipUnless(STRIP.exists(), "strip is not built")
class Strip(unittest.TestCase):
    def test_examples(self):
        """Without its watches the procedure with watches is the procedure."""
        plain = (common.ROOT / "examples" / "plain.img").read_bytes()
        for name in ("count", "trace", "watched", "corrected", "three", "plausible", "greedy"):
            image = (common.ROOT / "examples" / f"{name}.img").read_bytes()
            made = subprocess.run([STRIP, "1"], input=image, capture_output=True, check=True).stdout
            self.assertEqual(made, plain, name)


if __name__ == "__main__":
    unittest.main()
