"""Images to text and back, byte for byte."""
import random
import unittest

import common
import random_images
from bukzarn.lang import kinds, recordform
from bukzarn.lang.assembler import assemble
from bukzarn.lang.disassembler import disassemble, program
from bukzarn.lang.gate import verdict
from bukzarn.lang.layout import Refused

RANDOM = 600


class RoundTrip(unittest.TestCase):
    def back(self, image, what):
        """The text of an image gives its bytes, and it is the text of what it gives."""
        text = disassemble(image)
        made = assemble(text).image
        self.assertEqual(made, image, what)
        self.assertEqual(disassemble(made), text, what)
        return text

    def test_stored_images(self):
        files = common.stored_images()
        self.assertGreater(len(files), 100)
        for file in files:
            self.back(file.read_bytes(), file.name)

    def test_random_images(self):
        trees = 0
        for n, image in enumerate(random_images.images(5, RANDOM)):
            trees += not recordform.is_records(self.back(image, n))
        self.assertGreater(trees, RANDOM // 4)

    def test_longer_records(self):
        """Skipped bytes stand in the text, and neither the verdict nor the program knows of them."""
        rng = random.Random(9)
        for n, image in enumerate(random_images.images(9, RANDOM // 4)):
            if not verdict(image):
                longer = random_images.lengthened(image, rng)
                self.assertEqual("skipped" in self.back(longer, n), longer != image)
                self.assertIsNone(verdict(longer) if len(longer) <= kinds.IMAGE_LIMIT else None)
                if len(longer) <= kinds.IMAGE_LIMIT:
                    self.assertEqual(program(longer), program(image), n)

    def test_any_bytes(self):
        for data in (b"", b"\x00", b"\x05", b"\xff" * 40, bytes(range(256)), bytes(20_000)):
            self.back(data, data[:8])

    def test_sound_images_in_the_assemblers_order_are_trees(self):
        for image in list(random_images.images(6, RANDOM // 4))[::4]:
            if not verdict(image):
                self.assertFalse(recordform.is_records(disassemble(image)))

    def test_program_keeps_the_verdict(self):
        """The text of a program in another order of its records is accepted like the image."""
        for image in random_images.images(7, RANDOM // 4):
            if not verdict(image):
                self.assertIsNone(verdict(assemble(program(image)).image))

    def test_program_of_what_is_no_tree(self):
        with self.assertRaises(Refused):
            program(b"")


if __name__ == "__main__":
    unittest.main()
