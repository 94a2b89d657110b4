"""The bench's measurements beside those of its own images: they answer in their format, and with what is so."""
import re
import shutil
import subprocess
import tempfile
import unittest
from pathlib import Path

import common
from bukzarn import Image

FUNCTIONS = ("check", "run, before its steps", "run, its steps", "run, the whole call", "need", "fixed",
             "strip, domain 0 kept", "strip, all kept", "load")
ROW = re.compile(r"\| (?P<function>[^|]+) \| (?P<fixed>\d+|-) \| (?P<price>[\d.]+) (?P<unit>ns a byte|ns a step|ms a call) "
                 r"\| (?P<instructions>\d+|-) \| (?P<image>[^|]+) \| (?P<bytes>\d+) \| (?P<steps>\d+|-) \|")
BAR = re.compile(r"The bar for the check is 6 ns a byte: (an|no) image was found above it\. \d+ images of \d+ families were tried\.")


@common.with_archive
class Worst(unittest.TestCase):
    @classmethod
    def setUpClass(cls):
        folder = tempfile.TemporaryDirectory()
        cls.addClassCleanup(folder.cleanup)
        cls.folder = Path(folder.name)
        cls.said = common.bench("--worst", "--quick", "--dump", cls.folder)
        cls.rows = [match for line in cls.said.splitlines() if (match := ROW.fullmatch(line))]

    def test_each_function_has_a_row(self):
        self.assertEqual([row["function"] for row in self.rows], list(FUNCTIONS), self.said)
        for row in self.rows:
            self.assertGreater(float(row["price"]), 0, row[0])
            self.assertEqual(row["fixed"] == "-", row["unit"] != "ns a byte", row[0])
            self.assertEqual(row["steps"] == "-", row["unit"] == "ns a byte", row[0])

    def test_the_bar_of_the_check(self):
        verdicts = BAR.findall(self.said)
        self.assertEqual(len(verdicts), 1, self.said)
        self.assertEqual(verdicts[0] == "an", float(self.rows[0]["price"]) > 6)

    def test_far_variables_are_dear(self):
        """The second table: the more bindings between a variable and its use, the dearer the step."""
        prices = [(int(hops), float(price)) for hops, price in re.findall(r"^\| (\d+) \| ([\d.]+) \|$", self.said, re.MULTILINE)]
        self.assertEqual(len(prices), 6, self.said)
        self.assertEqual(prices, sorted(prices))
        self.assertGreater(prices[-1][1], 10 * prices[0][1])

    def test_the_images_are_written(self):
        """A file for each row but that of load, as long as the row says."""
        for row in self.rows[:-1]:
            self.assertEqual(len(self.image(row).data), int(row["bytes"]), row[0])

    @common.with_library
    def test_the_images_run_as_long_as_it_says(self):
        frame = bytes(i * 83 % 241 for i in range(240))
        for row in self.rows:
            if row["steps"] != "-":
                self.assertEqual(self.image(row).run(frame, budget=2**32 - 1).steps, int(row["steps"]), row[0])

    def image(self, row):
        """The image of a row, from its file."""
        return Image.read(self.folder / (re.sub(",? ", "-", row["function"]) + ".img"))


def cells(text):
    """The cells of each line of the tables in a text, their heads and rules included."""
    lines = [line for line in text.splitlines() if line.startswith("|")]
    return [[cell.strip() for cell in line.strip("|").split("|")] for line in lines]


@common.with_archive
class Procedures(unittest.TestCase):
    NAMES = ("the ascent", "the ascent, three watches", "six levels, two watches", "CRC-16 of a frame",
             "two sondes as objects", "a watch that matches the stack")

    @classmethod
    def setUpClass(cls):
        cls.said = common.bench("--procedures", "--quick")

    def test_each_procedure_has_a_row(self):
        rows = [row for row in cells(self.said) if len(row) == 11][2:]
        self.assertEqual(tuple(row[0] for row in rows), self.NAMES, self.said)
        for name, *numbers in rows:
            if numbers[5] == "-":
                self.assertIn("valgrind is not installed", self.said)
            self.assertTrue(all(float(number) > 0 for number in numbers if number != "-"), name)
            alone, recorded = float(numbers[7]), float(numbers[8])
            self.assertLess(recorded, alone, name)

    def test_a_clearing_at_each_frame_beside_the_bars(self):
        rows = [row for row in cells(self.said) if len(row) == 5][2:]
        self.assertEqual([row[0] for row in rows], ["the ascent, three watches", "the ascent"])
        for _, recorded, cleared, ratio, bar in rows:
            self.assertLess(int(recorded), int(cleared))
            self.assertAlmostEqual(float(ratio), int(recorded) / int(cleared), delta=0.01)
            self.assertRegex(bar, r"^0\.(74|68): (not )?kept$")

    def test_the_recordings_of_stations(self):
        rows = [row for row in cells(self.said) if len(row) == 3][2:]
        self.assertEqual([row[0] for row in rows],
                         [*self.NAMES[:2], "240 bytes decoded", "largest accepted", "16,384 bytes, refused"])
        for _, alone, recorded in rows:
            self.assertLess(float(recorded.removesuffix(" µs")), float(alone.removesuffix(" µs")))


@common.with_archive
class Languages(unittest.TestCase):
    COMMANDS = {"Lua 5.4": "lua5.4", "LuaJIT, interpreter": "luajit", "LuaJIT, compiler": "luajit", "Python": "python3",
                "gforth": "gforth-fast", "Guile": "guile", "node": "node", "wasm2c with fuel": "wasm2c", "C": "gcc"}

    @classmethod
    def setUpClass(cls):
        cls.said = common.bench("--languages", "--quick")
        cls.rows = [row for row in cells(cls.said) if len(row) == 6][2:]

    def test_what_is_installed_has_a_row(self):
        names = {row[0] for row in self.rows}
        for name, command in self.COMMANDS.items():
            self.assertEqual(name in names, bool(shutil.which(command)), self.said)
        self.assertTrue(all(float(number) > 0 for row in self.rows for number in row[3:]), self.said)

    def test_limits_and_harm(self):
        """The engine keeps its budget and refuses the watch that does harm; no other row has both."""
        (name, limit, harm, *_), *others = self.rows
        self.assertEqual((name, limit, harm), ("verified engine", "kept", "refused"))
        for name, limit, harm, *_ in others:
            self.assertEqual(harm, "yes", name)
            if name in ("Lua 5.4", "LuaJIT, interpreter", "wasm2c with fuel"):
                self.assertIn(limit, ("none", "kept"), name)
        self.assertFalse([row for row in self.rows if row[:2] == ["LuaJIT, compiler", "kept"]])

    def test_what_is_not_installed_is_left_out(self):
        """With a path on which nothing stands, the engine alone has a row, and a line names what is missing."""
        with tempfile.TemporaryDirectory() as empty:
            program = common.ROOT / "bench/target/release/bench"
            said = subprocess.run([program, "--languages", "--quick"], env={"PATH": empty}, capture_output=True, text=True,
                                  check=True).stdout
        self.assertEqual([row[0] for row in cells(said) if len(row) == 6][2:], ["verified engine"])
        self.assertIn("Not installed, and so left out: lua5.4, luajit, python3, gforth-fast, guile, node, wasm2c, gcc.", said)


if __name__ == "__main__":
    unittest.main()
