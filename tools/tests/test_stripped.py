"""A program with and without its watches, as the tool compares them."""
import unittest
from dataclasses import replace
from unittest import mock

import common
from test_tool import run
from bukzarn import Image
from bukzarn.lang import stripped
from bukzarn.lang.assembler import assemble

FOLDER = common.ROOT / "examples"
PLAIN = (FOLDER / "plain.img").read_bytes()
DOMAINS = "domain decoder domain watch <= decoder "


class Stripped(unittest.TestCase):
    def tool(self, *words):
        return run(*words)[0]

    @common.with_library
    def test_the_watches_are_gone(self):
        texts = FOLDER / "sonde.proc", FOLDER / "count.watch", FOLDER / "trace.watch"
        self.assertEqual(self.tool("strip", *texts, "--keep", "decoder"), PLAIN)
        self.assertEqual(self.tool("strip", FOLDER / "watched.img", "--keep", "0"), PLAIN)

    @common.with_library
    def test_runs_with_and_without_watches_agree(self):
        for name in ("count", "trace", "watched", "corrected"):
            said = self.tool("rerun", FOLDER / f"{name}.img").decode()
            self.assertIn("high log records     18 and 18\n", said)
            self.assertTrue(said.endswith("They agree in result, high cells and high log.\n"), name)
            self.assertNotIn("Nothing is claimed", said)

    @common.with_library
    def test_what_nothing_is_claimed_of(self):
        """Whether they agree is no claim then."""
        for name, why in (("greedy", "the run with the watches is not done. Here they differ in"),
                          ("three", "a low body contains a takedown. Here they are alike")):
            said = self.tool("rerun", FOLDER / f"{name}.img").decode()
            self.assertIn(f"Nothing is claimed of the two: {why}", said)
            self.assertNotIn("They agree", said)

    def over(self, full, bare, takedown=False):
        """What is said of the runs of two images over a recording, and whether it holds."""
        seen = [[stripped.read(listing, 1) for listing in listings] for listings in (full, bare)]
        return stripped.compare_frames(zip(*seen), takedown)

    def test_a_recording_frame_by_frame(self):
        run = "log 0 5\nlog 1 NUMBER\nOUTCOME 9\nvalue 1\ncell 0 2\ncell 1 NUMBER\ncell 0 other\n"
        done, low = run.replace("OUTCOME", "done").replace("NUMBER", "6"), run.replace("OUTCOME", "done").replace("NUMBER", "7")
        aborted, high = run.replace("OUTCOME", "aborted").replace("NUMBER", "6"), done.replace("log 0 5", "log 0 4")
        self.assertEqual(self.over([done, done], [low, done]), (
            "frames               2\ndone                 2 with the watches, 2 without them\nhigh log records     2 and 2\n"
            "The 2 frames that are done with the watches agree in result, high cells and high log.\n", True))
        said, holds = self.over([done, aborted, aborted], [low, aborted, done])
        self.assertTrue(holds and said.endswith("Nothing is claimed of the other 2: the run with the watches is not done; 1 of "
                                                "them differ: frame 2.\n"), said)
        said, holds = self.over([done, done, done], [done, high, high])
        self.assertTrue(not holds and said.endswith("2 of the 3 frames that are done with the watches differ: frames 1, 2.\n"), said)
        said, holds = self.over([done, done], [done, high], True)
        self.assertTrue(holds and "agree" not in said, said)
        self.assertTrue(said.endswith("Nothing is claimed of all 2: a low body contains a takedown; 1 of them differ: frame 1.\n"), said)

    @common.with_library
    def test_the_ascent_with_and_without_watches(self):
        ascent = FOLDER / "ascent"
        said = run("rerun", ascent / "watched.img", "--frames", ascent / "ascent.frames", "--length", "12")[0].decode()
        self.assertIn("The 559 frames that are done with the watches agree in result, high cells and high log.\n"
                      "Nothing is claimed of the other 41: ", said)
        for words in (("--frames", ascent / "ascent.frames"), ("--length", "12")):
            with self.assertRaises(SystemExit) as caught:
                run("rerun", ascent / "watched.img", *words)
            self.assertEqual(caught.exception.code, 2)
        with self.assertRaises(SystemExit) as caught:
            run("rerun", ascent / "watched.img", "--frames", ascent / "none", "--length", "12")
        self.assertIn("none: No such file", str(caught.exception))
        with self.assertRaises(SystemExit) as caught:
            run("rerun", ascent / "watched.img", "--frames", ascent / "ascent.frames", "--length", "7")
        self.assertIn("the last frame has 4 of 7 bytes", str(caught.exception))

    @common.with_library
    def test_runs_that_differ(self):
        """A run without watches that printed another number is told, and ends the tool."""
        honest = Image.run

        def wrong(image):
            made = honest(image)
            return replace(made, log=made.log[1:]) if image.data == PLAIN else made
        with mock.patch.object(Image, "run", wrong), self.assertRaises(SystemExit) as caught:
            run("rerun", FOLDER / "watched.img")
        self.assertIn("differ where they may not", str(caught.exception))

    def test_differences(self):
        listing = "log 0 5\nlog 1 6\ndone 9\nvalue 1\ncell 0 2\ncell 1 3\ncell 0 other\n"
        full = stripped.read(listing, 1)
        self.assertEqual(full, stripped.Seen("done", 9, "1", ["cell 0 2"], ["log 0 5"]))
        self.assertEqual(stripped.differences(full, stripped.read("log 0 5\ndone 8\nvalue 1\ncell 0 2\n", 1)), [])
        for changed, words in (("log 0 4\ndone 9\nvalue 1\ncell 0 2\n", "the high log"),
                               ("log 0 5\ndone 9\nvalue 0\ncell 0 2\n", "the result"),
                               ("log 0 5\ndone 9\nvalue 1\ncell 0 1\n", "the plain high cells"),
                               ("log 0 5\ndone 10\nvalue 1\ncell 0 2\n", "the steps, which are more")):
            self.assertEqual(stripped.differences(full, stripped.read(changed, 1)), [words])

    def test_the_outcome_log_is_no_printed_number(self):
        self.assertEqual(stripped.read("log 0 5\nlog 3\n", 1), stripped.Seen("log", 3, "", [], ["log 0 5"]))

    def test_domains_by_name_and_by_number(self):
        names = ["decoder", "watch"]
        for keep, made in (("decoder", 1), ("0", 1), ("decoder,watch", 3), ("1,0", 3), ("watch", 2)):
            self.assertEqual(stripped.mask(keep, names), made)
        with self.assertRaises(stripped.NoDomain):
            stripped.mask("decoder,guard", names)

    def test_takedowns_in_low_bodies(self):
        for text, low in (("lower to watch { takedown of watch }; ()", True), ("takedown of watch; ()", False),
                          ("lower to watch { (); if true then () else takedown of watch }; ()", True)):
            self.assertEqual(stripped.low_takedown(assemble(DOMAINS + text).image, 1), low, text)

    @common.with_library
    def test_a_set_that_is_not_high(self):
        with self.assertRaises(SystemExit) as caught:
            self.tool("strip", FOLDER / "sonde.proc", "--keep", "watch")
        self.assertIn("refused 23 0: ", str(caught.exception))
        self.assertIn("\nHere: decoder is left out, which is domain 0.\n", str(caught.exception))

    def test_why_a_set_is_not_high(self):
        image = assemble("domain a domain b <= a domain c <= b ()").image
        for high, words in ((1, ""), (3, ""), (7, ""), (2, "a is left out, which is domain 0"),
                            (5, "c is kept, but b is above it and left out"),
                            (9, "the image has no domain 3: they are 0 to 2")):
            self.assertEqual(stripped.fault(image, high, ["a", "b", "c"]), words)


if __name__ == "__main__":
    unittest.main()
