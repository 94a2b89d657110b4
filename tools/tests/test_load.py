"""Generated images: document 02, card 12."""
import subprocess
import unittest

import common
from test_tool import EXAMPLES, run
from bukzarn.lang import generated, kinds
from bukzarn.lang.gate import verdict
from bukzarn.lang.records import record

LOAD = common.program("load")
HEAD = record(kinds.DOMAIN, 1) + record(kinds.UNIT_T) + record(kinds.NUMBER_T)
SEEDS = (0, 1, 7, 12_345, 155_840_010, 1_178_196_580, 4_294_967_295)


class Load(unittest.TestCase):
    def test_first_draw(self):
        """Seed 7 at depth 1: 1664525 * 7 + 1013904223 is 1025555898, and that divided by 2^24 is 61."""
        self.assertEqual(run("load", 7, 1)[0], HEAD + record(kinds.NUMBER, 1, 61, 0))

    def test_the_stored_image(self):
        """The program's stored output is the image of its stored arguments."""
        folder = common.ROOT / "crates/load"
        self.assertEqual(run("load", *(folder / "args").read_text().split())[0], (folder / "stdout").read_bytes())

    def test_the_example(self):
        self.assertEqual(run("load", 155_840_010, 5)[0], (EXAMPLES / "load.img").read_bytes())

    def test_every_load_is_accepted(self):
        for depth in range(1, generated.DEPTH_LIMIT + 1):
            for seed in SEEDS:
                image = generated.image(seed, depth)
                self.assertIsNone(verdict(image, None))
                self.assertLessEqual(len(image), 6_146)

    def test_refusals(self):
        for depth in (0, 10):
            with self.assertRaises(SystemExit) as caught:
                run("load", 7, depth)
            self.assertIn("refused 21 0", str(caught.exception))
        for words in ((7,), (7, "x"), (2 ** 32, 1)):
            with self.assertRaises(SystemExit):
                run("load", *words)

    @unittest.skipUnless(LOAD.exists(), "build it with rt run in crates/load")
    def test_the_program(self):
        for depth in range(1, generated.DEPTH_LIMIT + 1):
            for seed in SEEDS:
                said = subprocess.run([LOAD, str(seed), str(depth)], capture_output=True, check=True)
                self.assertEqual((said.stdout, said.stderr), (generated.image(seed, depth), b""))
        said = subprocess.run([LOAD, "7", "10"], capture_output=True, check=True)
        self.assertEqual((said.stdout, said.stderr), (b"", b"refused 21 0\n"))


if __name__ == "__main__":
    unittest.main()
