"""The recording of examples/ascent: what the engine made of it is what its bytes say; tables and pictures of it."""
import re
import tempfile
import unittest
import xml.dom.minidom
from argparse import ArgumentTypeError
from pathlib import Path

import common
import make_recording
from bukzarn import watchtool
from bukzarn.lang import sounding
from bukzarn.lang.profile import COLOURS, HEIGHT, LEFT, PANEL, TOP, profile

FOLDER = common.ROOT / "examples/ascent"
WATCHES = ("cloud", "cold", "battery")


def received():
    """The frames that came whole: their number, pressure, temperature, humidity and battery."""
    data, length = (FOLDER / "ascent.frames").read_bytes(), make_recording.LENGTH
    for n in range(len(data) // length):
        f = data[n * length:(n + 1) * length]
        if f[0] == make_recording.SYNC and sum(f[:9]) == int.from_bytes(f[9:11], "big"):
            yield (n, int.from_bytes(f[3:5], "big"), int.from_bytes(f[5:7], "big", signed=True), f[7], f[8])


def printed(p, t, h, battery):
    """What the three watches print at a level."""
    return ([h] if h > 95 else []) + ([t] if t < -620 else []) + ([battery] if p < 1000 and battery < 51 else [])


def stored(name):
    return sounding.read(FOLDER / f"{name}.csv", sounding.COLUMNS)


class Recording(unittest.TestCase):
    def test_the_script_makes_it(self):
        self.assertEqual(make_recording.recording(), (FOLDER / "ascent.frames").read_bytes())

    def test_the_images_are_what_the_texts_give(self):
        texts = [str(FOLDER / "ascent.proc")]
        self.assertEqual(watchtool.load(texts).image, (FOLDER / "plain.img").read_bytes())
        texts += [str(FOLDER / f"{name}.watch") for name in WATCHES]
        self.assertEqual(watchtool.load(texts).image, (FOLDER / "watched.img").read_bytes())

    def test_it_has_gaps_and_damage(self):
        lost = sum(length for _, length in make_recording.GAPS)
        whole = len(list(received()))
        self.assertTrue(5 <= make_recording.FRAMES - lost - whole <= 20, whole)

    def test_the_tables_are_what_the_bytes_say(self):
        plain, watched = ["frame,domain,number"], ["frame,domain,number"]
        for n, p, t, h, battery in received():
            plain += [f"{n},0,{v}" for v in (p, t, h)]
            watched += [f"{n},0,{v}" for v in (p, t, h)] + [f"{n},1,{v}" for v in printed(p, t, h, battery)]
        self.assertEqual((FOLDER / "plain.csv").read_text().splitlines(), plain)
        for got, want in zip((FOLDER / "watched.csv").read_text().splitlines(), watched):
            self.assertEqual(got.split(",")[:2], want.split(",")[:2])
        self.assertEqual(sorted((FOLDER / "watched.csv").read_text().splitlines()), sorted(watched))


class Pictures(unittest.TestCase):
    def test_the_picture_is_made_of_the_tables(self):
        made = profile([stored("plain"), stored("watched")], "A made ascent")
        self.assertEqual(made, (FOLDER / "profile.svg").read_text(encoding="utf-8"))

    def drawn(self, *soundings):
        """The marks, the polylines and the texts of a picture, without those of the legend."""
        whole = xml.dom.minidom.parseString(profile(list(soundings), "A title"))
        legend = next(g for g in whole.getElementsByTagName("g") if g.getAttribute("id") == "legend")
        return [[e for e in whole.getElementsByTagName(tag) if e.parentNode is not legend]
                for tag in ("path", "polyline", "text")]

    def test_marks_and_curves(self):
        marks, curves, _ = self.drawn(stored("watched"))
        levels = [level for level in stored("watched").levels if level.marks]
        self.assertEqual(len(marks), 2 * len(levels))
        gaps = 1 + len(make_recording.GAPS)
        self.assertEqual(len(curves), 3 * gaps)  # temperature, dew point, humidity
        for line in curves:
            for x, y in re.findall(r"([\d.]+),([\d.]+)", line.getAttribute("points")):
                self.assertTrue(TOP <= float(y) <= TOP + HEIGHT and 0 <= float(x) <= 800, (x, y))

    def test_a_mark_stands_on_its_curve_at_its_level(self):
        """Of the first level with a mark, in the first panel: its place is a point of the curve."""
        marks, curves, _ = self.drawn(stored("watched"))
        place = re.fullmatch(r"translate\((.*) (.*)\)", marks[0].getAttribute("transform")).groups()
        self.assertIn(",".join(place), " ".join(c.getAttribute("points") for c in curves).split())
        self.assertEqual(marks[0].getElementsByTagName("title")[0].firstChild.data, "frame 58: domain 1 printed 97")

    def test_domains_have_shapes_of_their_own(self):
        level = sounding.Level(0, [1000.0, 5.0, 50], [(1, 7), (2, 8), (1, 9)])
        marks, _, _ = self.drawn(sounding.Sounding("one", sounding.COLUMNS, [level]))
        self.assertEqual(len({m.getAttribute("d") for m in marks}), 2)
        self.assertEqual([m.getElementsByTagName("title")[0].firstChild.data for m in marks[:2]],
                         ["frame 0: domain 1 printed 7, 9", "frame 0: domain 2 printed 8"])

    def test_runs_can_be_told_apart_in_grey(self):
        """By their width and dashes alone."""
        _, curves, _ = self.drawn(*[stored("plain")] * 4)
        for dew in (False, True):
            styles = {(c.getAttribute("stroke-width"), c.getAttribute("stroke-dasharray")) for c in curves
                      if (c.getAttribute("stroke") in COLOURS[sounding.DEW_POINT]) == dew}
            self.assertEqual(len(styles), 4)

    def test_texts_do_not_overlap(self):
        """Beside the pressure axis and below each panel."""
        _, _, texts = self.drawn(stored("plain"), stored("watched"))
        rows = [(float(t.getAttribute("x")), float(t.getAttribute("y")), len(t.firstChild.data)) for t in texts]
        beside = sorted(y for x, y, _ in rows if 50 < x < LEFT)
        self.assertGreaterEqual(len(beside), 10)
        self.assertTrue(all(b - a >= 12 for a, b in zip(beside, beside[1:])), beside)
        below = sorted((x, n) for x, y, n in rows if TOP + HEIGHT < y < TOP + HEIGHT + 30)
        self.assertGreaterEqual(len(below), 10)
        self.assertTrue(all(b - a >= 4 * (m + n) for (a, m), (b, n) in zip(below, below[1:])), below)

    def test_long_names_are_cut(self):
        """In a picture of one panel too, whose texts have room for 90 letters."""
        columns = sounding.columns("pressure/10,wind")
        one = sounding.Sounding("n" * 200, columns, [sounding.Level(0, [1000.0, 5.0])])
        drawn = xml.dom.minidom.parseString(profile([one], "t" * 200))
        self.assertGreaterEqual(int(drawn.documentElement.getAttribute("width")), 750)
        self.assertTrue(all(len(t.firstChild.data) <= 90 for t in drawn.getElementsByTagName("text")))

    def test_the_axes_have_units(self):
        _, _, texts = self.drawn(stored("plain"))
        said = [t.firstChild.data for t in texts]
        for words in ("A title", "pressure (hPa)", "temperature (°C)", "humidity (%)", "1000", "850", "100", "-60"):
            self.assertIn(words, said)

    def test_the_legend_names_runs_and_watches(self):
        made = profile([stored("plain"), stored("watched")]).split('<g id="legend">')[1]
        self.assertEqual(re.findall("<text.*?>(.*)</text>", made),
                         ["plain: 559 levels", "watched: 559 levels", "dew point, from temperature and humidity",
                          "a watch of domain 1 printed: 114 levels"])

    def test_pressure_goes_down_the_page(self):
        line = re.search(r'polyline points="(\S+).* (\S+)" fill', profile([stored("plain")]))
        first, last = (float(point.split(",")[1]) for point in line.groups())
        self.assertGreater(first, last)

    def test_a_level_that_stands_alone(self):
        one = sounding.Sounding("one", sounding.COLUMNS, [sounding.Level(0, [1000.0, 5.0, 50])])
        _, curves, _ = self.drawn(one)
        points = curves[0].getAttribute("points").split()
        self.assertEqual((len(points), len(set(points))), (2, 1))

    def test_every_domain_has_a_sign(self):
        """Each of its own, none on another at one level, and a line of the legend for each."""
        level = sounding.Level(0, [1000.0, 5.0, 50], [(domain, 7) for domain in range(1, 16)])
        one = sounding.Sounding("one", sounding.COLUMNS, [level])
        marks, _, _ = self.drawn(one)
        self.assertEqual(len({m.getAttribute("d") for m in marks[:15]}), 15)
        self.assertEqual(len({m.getAttribute("transform") for m in marks[:15]}), 15)
        self.assertEqual(profile([one]).count("a watch of domain "), 15)

    def test_a_constant_has_air_around_it(self):
        one = sounding.Sounding("one", sounding.columns("pressure,wind"), [sounding.Level(n, [1000.0 - n, 5.0]) for n in range(9)])
        _, curves, _ = self.drawn(one)
        places = {float(point.split(",")[0]) for point in curves[0].getAttribute("points").split()}
        self.assertEqual(places, {LEFT + PANEL / 2})

    def test_no_band_without_a_title(self):
        heights = [int(xml.dom.minidom.parseString(profile([stored("plain")], title)).documentElement.getAttribute("height"))
                   for title in ("", "A title")]
        self.assertEqual(heights[1] - heights[0], 34)
        self.assertIn(f'viewBox="0 34 ', profile([stored("plain")]))

    def test_dew_points(self):
        """Against the psychrometric tables: 20 degrees and 50 per cent are 9.3, saturated air has its own."""
        for temperature, humidity, dew in ((20, 50, 9.3), (0, 100, 0), (-30, 100, -30), (30, 80, 26.2), (-60, 10, -77)):
            self.assertAlmostEqual(sounding.dew_point(temperature, humidity), dew, delta=0.6)
        for temperature, humidity in ((20, 0), (20, -5), (-300, 50), (20, 10_000), (5_000, 50)):
            self.assertIsNone(sounding.dew_point(temperature, humidity))
        odd = sounding.Sounding("odd", sounding.COLUMNS, [sounding.Level(0, [1000.0, 5.0, 0])])
        self.assertNotIn("dew point", profile([odd]))

    def test_foreign_signs(self):
        """What no XML may have is written out, in titles, in names of files and of columns."""
        level = sounding.Level(0, [1000.0, 5.0])
        one = sounding.Sounding("\x1b]0;x\x07\udcff", sounding.columns("pressure,\x9bwind\u202e"), [level])
        made = profile([one], "<b>\x00 & \udcfe")
        self.assertTrue(made.encode("utf-8").isascii() or "°" in made)
        xml.dom.minidom.parseString(made.encode("utf-8"))
        for said in ("\\x1b]0;x\\x07\\xff", "\\x9bwind\\u202e", "&lt;b&gt;\\x00 &amp; \\xfe"):
            self.assertIn(said, made)

    def test_tables_of_one_name_are_told_apart(self):
        args = watchtool.Commands().parser.parse_args(["plot", str(FOLDER / "plain.csv"), str(FOLDER / "../ascent/plain.csv")])
        self.assertEqual([s.name for s in watchtool.soundings(args)], args.tables)


class Tables(unittest.TestCase):
    def read(self, text, cut=False):
        with tempfile.TemporaryDirectory() as folder:
            file = Path(folder, "t.csv")
            file.write_bytes(text if isinstance(text, bytes) else text.encode())
            return sounding.read(str(file), sounding.COLUMNS, cut)

    def test_both_forms_are_read(self):
        for text in ("frame,domain,number\n0,0,9990\n0,0,-15\n0,0,50\n0,1,7\n",
                     "   frame domain      number\n 0 0 9990\n 0 0 -15\n 0 0 50\n 0 1 7\n"):
            made = self.read(text)
            self.assertEqual(made.levels, [sounding.Level(0, [999.0, -1.5, 50.0], [(1, 7)])])
            self.assertEqual(made.text(), "frame  pressure  temperature  humidity  watches\n"
                                          "    0     999.0         -1.5        50  1:7\n")

    def test_levels_that_are_not_finished(self):
        """They are refused, or left out on demand."""
        text = "frame,domain,number\n0,0,9990\n0,0,-15\n1,1,8\n1,0,1\n1,0,2\n1,0,3\n1,0,4\n"
        self.assertEqual(self.read(text, True).levels, [sounding.Level(1, [0.1, 0.2, 3.0], [(1, 8)])])
        for lines, words in ((3, "frame 0 has 2 numbers of the decoder, which do not divide into 3 columns (pressure, "
                                 "temperature, humidity)"), (None, "frame 0 has 2 numbers")):
            with self.assertRaises(sounding.Unreadable) as caught:
                self.read("\n".join(text.split("\n")[:lines]))
            self.assertIn(words, str(caught.exception))
        with self.assertRaises(sounding.Unreadable) as caught:
            self.read("frame,domain,number\n" + text.split("-15\n")[1])
        self.assertIn("frame 1 has 4 numbers of the decoder", str(caught.exception))

    def test_what_is_no_table(self):
        head = "frame,domain,number\n"
        for text in ("", "a\n", head, head + "1,2\n", head + "1,2,x\n", head + "1,2," + "9" * 5000, head + "0,0,--1\n",
                     head + "0,16,1\n", head + "-1,0,1\n", head + "0,0,²\n", head + "0,0,2147483648\n0,0,1\n0,0,1\n",
                     head + "0,0,1\n0,0,-2147483649\n0,0,1\n", b"\xff\xfe"):
            with self.subTest(text[:30]), self.assertRaises(sounding.Unreadable):
                self.read(text)

    def test_a_table_that_is_too_long(self):
        with self.assertRaises(sounding.Unreadable) as caught:
            self.read("frame,domain,number\n" + "0,0,1\n" * 700_000)
        self.assertIn("has more than 4,000,000 bytes", str(caught.exception))

    def test_columns(self):
        self.assertEqual(sounding.columns("pressure/100,wind"), [sounding.Column("pressure", 100), sounding.Column("wind")])
        for words in ("", "wind", "pressure/0", "pressure/x", "pressure,,wind", "pressure/" + "9" * 5000):
            with self.subTest(words[:30]), self.assertRaises(ArgumentTypeError):
                sounding.columns(words)


if __name__ == "__main__":
    unittest.main()
