"""The examples and the cases: images from their texts, the program that runs them, and watches that leave the decoder
alone."""
import unittest
from pathlib import Path

import common
import make_examples
import make_stored
from bukzarn.lang import refusals
from bukzarn.lang.assembler import assemble
from bukzarn.lang.disassembler import disassemble, program, tree
from bukzarn.lang.layout import laid_out
from bukzarn.lang.terms import child_domains

FOLDER = common.ROOT / "examples"
WITH_WATCHES = ("count", "trace", "watched", "corrected", "three", "plausible", "greedy")


def high_log(name):
    """The log lines of domain 0 in an example's listing."""
    return [line for line in (FOLDER / f"{name}.txt").read_text().splitlines() if line.startswith("log 0 ")]


def stored(name):
    """The image of an example."""
    return (FOLDER / f"{name}.img").read_bytes()


def blanked(image):
    """The program of an image with its low bodies left out: kinds, types and fields as nested tuples."""
    def blank(e, here):
        if here != 0:
            return "low"
        inner = [blank(c, p) for c, p in zip(e.children, child_domains(e, len(e.children), here))]
        fields = [f for f in e.fields if isinstance(f, int)]
        return (e.kind, e.type, fields, inner)
    return blank(tree(laid_out(image)), 0)


class Examples(unittest.TestCase):
    def test_images_are_what_the_texts_give(self):
        for name, files in make_examples.examples(FOLDER):
            made = make_examples.assembled(files, FOLDER).image
            self.assertEqual((FOLDER / f"{name}.img").read_bytes(), made, name)

    def test_the_gate_expects_the_listings(self):
        expected = dict(common.stored_listings())
        for name, _ in make_examples.examples(FOLDER):
            self.assertEqual(expected[common.STORED / "data" / f"{name}.img"], (FOLDER / f"{name}.txt").read_text(), name)

    def test_a_newer_writers_image_runs_like_the_old_one(self):
        image = (FOLDER / "newer.img").read_bytes()
        self.assertEqual(program(image), program((FOLDER / "first.img").read_bytes()))
        self.assertEqual((FOLDER / "newer.txt").read_text(), (FOLDER / "first.txt").read_text())
        self.assertIn("skipped", disassemble(image))

    def test_watches_differ_only_in_low_bodies(self):
        for name in WITH_WATCHES:
            self.assertEqual(blanked(stored(name)), blanked(stored("plain")), name)
        self.assertEqual(blanked(stored("descent")), blanked(stored("flight")))

    def test_low_methods_are_low_bodies(self):
        """The procedure for two types of sonde is the same whatever their methods of the domain watch do, and not the same
        with another method of the decoder's."""
        text = (FOLDER / "sondes.proc").read_text()
        for old, new, same in (("count := read count + 1; print read count", "abort unit", True),
                               ("correction  { 0 }", "correction  { 1 }", False)):
            self.assertEqual(text.count(old), 1)
            changed = assemble(text.replace(old, new)).image
            self.assertNotEqual(changed, stored("sondes"))
            self.assertEqual(blanked(changed) == blanked(stored("sondes")), same)

    def test_both_types_of_sonde_are_decoded(self):
        """Six levels each, a pressure and a temperature of each level; the two agree within ten hectopascals and four
        degrees."""
        printed = [int(line.split()[2]) for line in high_log("sondes")]
        first, second = printed[:12], printed[12:]
        self.assertEqual(len(second), 12)
        for p, q in zip(first[::2], second[::2]):
            self.assertLess(abs(p - q), 100)
        for p, q in zip(first[1::2], second[1::2]):
            self.assertLess(abs(p - q), 40)

    def test_the_decoders_log_is_the_same_with_watches(self):
        plain = high_log("plain")
        self.assertEqual(len(plain), 18)
        for name in ("count", "trace", "watched", "corrected", "three"):
            self.assertEqual(high_log(name), plain, name)
        for name, levels in (("plausible", 5), ("greedy", 2)):
            self.assertEqual(high_log(name), plain[:3 * levels], name)

    def test_the_pressure_watch_fires_under_the_descent_alone(self):
        """Once for each of the five levels behind the six of the ascent: its pressure less the last one of the ascent."""
        self.assertEqual(high_log("descent"), high_log("flight"))
        lines = [line.split()[1:] for line in (FOLDER / "descent.txt").read_text().splitlines() if line.startswith("log")]
        domains, numbers = [p for p, _ in lines], [int(n) for _, n in lines]
        self.assertEqual(domains, ["0"] * 6 + ["0", "1"] * 5)
        self.assertEqual(numbers[7::2], [p - numbers[5] for p in numbers[6::2]])

    def test_the_newest_watch_runs_first(self):
        """P6 prints 7 ahead of 3; at each level the corrected trace, ten times the degrees, stands ahead of the faulty
        one, eight times the degrees."""
        self.assertEqual(high_log("first"), ["log 0 7", "log 0 3"])
        lines = (FOLDER / "corrected.txt").read_text().splitlines()
        degrees = [int(line.split()[2]) for line in high_log("corrected")[1::3]]
        printed = [int(line.split()[2]) for line in lines if line.startswith("log 1 ")]
        self.assertEqual(printed, [factor * t for t in degrees for factor in (10, 8)])

    def test_a_watch_that_takes_itself_down(self):
        """It prints the pressure of the first three levels, and nothing after that."""
        lines = [line.split()[1:] for line in (FOLDER / "three.txt").read_text().splitlines() if line.startswith("log")]
        self.assertEqual([p for p, _ in lines], ["0", "0", "0", "1"] * 3 + ["0"] * 9)
        self.assertEqual([n for p, n in lines if p == "1"], [n for _, n in lines[0:12:4]])

    def test_a_greedy_watch_uses_up_its_own_half(self):
        """It ends the run with the outcome of the other domains' bindings, and the decoder had room left."""
        listing = (FOLDER / "greedy.txt").read_text()
        self.assertIn("\nother-bindings ", listing)
        self.assertIn("\nlog 1 751\n", listing)

    def test_refused_watches_are_explained(self):
        """The README has what the tool says of them, with the number and the place of the listing."""
        readme = (FOLDER / "README.md").read_text()
        for name, files in make_examples.examples(FOLDER):
            listing = (FOLDER / f"{name}.txt").read_text()
            if listing.startswith("refused"):
                made = make_examples.assembled(files, FOLDER)
                _, number, place = listing.split()
                said = refusals.explain(made.image, int(number), int(place), made.places, made.domains)
                for line in said.splitlines():
                    self.assertIn(line.strip(), readme)

    def test_every_text_is_used(self):
        used = {f for _, files in make_examples.examples(FOLDER) for f in files}
        self.assertEqual(used, {p.name for p in FOLDER.iterdir() if p.suffix in (".proc", ".watch", ".rec")})


class Stored(unittest.TestCase):
    def test_the_images_are_what_the_scripts_make(self):
        for name, image, _ in make_stored.made(FOLDER):
            self.assertEqual((common.STORED / "data" / f"{name}.img").read_bytes(), image, name)

    def test_every_image_is_run(self):
        args = make_stored.arguments(common.STORED, FOLDER)
        self.assertEqual((common.STORED / "args").read_text().split(), args)
        self.assertEqual({p.name for p in (common.STORED / "data").iterdir()}, set(args[1::2]))

    def test_the_validator_says_what_the_engine_says(self):
        for entry in (common.STORED / "stdout").read_text().split("100000 ")[1:]:
            name, verdict, first = entry.splitlines()[:3]
            self.assertEqual(verdict, first if first.startswith("refused") else "accepted", name)


class Files(unittest.TestCase):
    def test_no_file_is_long(self):
        for file in (*Path(common.ROOT / "tools").rglob("*.py"), *Path(common.ROOT / "python").rglob("*.py")):
            self.assertLessEqual(len(file.read_text().splitlines()), 400, file)


if __name__ == "__main__":
    unittest.main()
