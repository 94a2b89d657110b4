"""What a flight will need, as the tool tells it."""
import ctypes
import unittest
from unittest import mock

import common
import make_examples
from test_tool import run
from bukzarn import Image, NoLibrary, Refused, _library
from bukzarn.lang import needs

FOLDER = common.ROOT / "examples"


def stored(name):
    return (FOLDER / f"{name}.need").read_text()


class Needs(unittest.TestCase):
    def tool(self, *words):
        return run("need", *words)[0].decode()

    @common.with_library
    def test_too_few_places(self):
        """The library refuses places that are fewer than the numbers, and writes none; a refusal of the image comes first."""
        image = (FOLDER / "limits.img").read_bytes()
        for count, number in ((11, 0), (10, 25), (0, 25)):
            places = (ctypes.c_uint32 * 11)(*[7] * 11)
            self.assertEqual(_library.library.need(image, len(image), places, count), number << 16)
            self.assertEqual(list(places) == [7] * 11, number != 0)
        self.assertEqual(_library.library.need(b"", 0, (ctypes.c_uint32 * 1)(), 1), 9 << 16)

    @common.with_library
    def test_the_library_says_what_the_program_says(self):
        """Of each example whose listing of the program `need` is stored."""
        for name in make_examples.WITH_NEEDS:
            image = Image.read(FOLDER / f"{name}.img")
            try:
                said = "".join(f"{word} {number}\n" for word, number in image.need().numbers().items())
            except Refused as refused:
                said = f"refused {refused.number} {refused.place}\n"
            self.assertEqual(said, stored(name), name)

    @common.with_library
    def test_every_number_has_a_bar(self):
        said = self.tool(FOLDER / "ground.proc", FOLDER / "limits.watch").splitlines()
        self.assertEqual([line.split()[0] for line in said[:-1]], list(needs.limits()))
        self.assertEqual(said[0], "steps                 88 of   100,000  #...................")
        self.assertEqual(said[6], "other-cells            0 of       128  ....................")
        self.assertEqual(said[-1], "All are within their limits: every run is done or aborted, whatever the frame.")

    @common.with_library
    def test_a_call_with_too_little(self):
        said = self.tool(FOLDER / "limits.img", "--budget", 87, "--log", 59)
        self.assertIn("steps                 88 of        87  ####################  over\n", said)
        self.assertTrue(said.endswith("Over the limit: steps, log. A run may end there.\n"))
        enough = self.tool(FOLDER / "limits.img", "--budget", 88, "--log", 60)
        self.assertNotIn("over", enough)

    def test_bars(self):
        for number, limit, filled in ((0, 64, 0), (1, 64, 1), (32, 64, 10), (64, 64, 20), (65, 64, 20), (1, 0, 20), (0, 0, 0)):
            self.assertEqual(needs.bar(number, limit).count("#"), filled)

    @common.with_library
    def test_an_image_outside_the_class_is_explained(self):
        with self.assertRaises(SystemExit) as caught:
            self.tool(FOLDER / "sonde.proc")
        said = str(caught.exception)
        self.assertIn("apply (kind 42)", said)
        self.assertIn("sonde.proc, line 20, column 17:", said)
        self.assertIn("bind with 'let (x, y) = (A, B) in'", said)

    def test_runs_need_no_more(self):
        for name in ("ground", "limits"):
            lines = (FOLDER / f"{name}.txt").read_text().splitlines()
            numbers = needs.read(stored(name))
            steps = next(int(line.split()[1]) for line in lines if line.startswith("done "))
            self.assertLessEqual(steps, numbers["steps"])
            self.assertLessEqual(sum(line.startswith("log ") for line in lines), numbers["log"])

    def test_a_library_that_is_not_there(self):
        with mock.patch.object(_library, "library_path", side_effect=NoLibrary("it is not there: make it")):
            with mock.patch.dict(_library.library.functions, clear=True), self.assertRaises(SystemExit) as caught:
                run("need", FOLDER / "ground.img")
        self.assertEqual(str(caught.exception), "watchtool: it is not there: make it")


if __name__ == "__main__":
    unittest.main()
