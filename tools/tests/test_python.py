"""The package for Python: numbers, runs, tables, and its installation without a network."""
import io
import os
import re
import shutil
import subprocess
import sys
import tempfile
import threading
import unittest
from pathlib import Path
from unittest import mock

import common
import bukzarn
from bukzarn import Image, Outcome, Recording, Refusal, Refused, SourceError, _library, build
from bukzarn.lang import outcomes, refusals, report

EXAMPLES = common.ROOT / "examples"
ASCENT = EXAMPLES / "ascent"
FRAMES = (ASCENT / "ascent.frames").read_bytes()
WATCHES = [ASCENT / f"{name}.watch" for name in ("cloud", "cold", "battery")]


def header(prefix=""):
    found = re.findall(rf"BUKZARN_{prefix}(\w+) = (\d+)", (common.ROOT / "include/bukzarn.h").read_text(encoding="utf-8"))
    return {name: int(number) for name, number in found}


class Numbers(unittest.TestCase):
    """test_numbers.py compares the header with the definitions; these are compared with the header."""

    def test_outcomes_and_refusals(self):
        for enum in (Outcome, Refusal):
            self.assertEqual({one.name: one.value for one in enum},
                             {name: n for name, n in header().items() if name in enum.__members__})
        self.assertEqual([one.word for one in Outcome], list(outcomes.WORDS))
        self.assertEqual([int(one) for one in Refusal], sorted(refusals.REFUSALS))
        for one in [*Outcome, *Refusal]:
            self.assertTrue(one.words and one.mend)

    def test_lengths(self):
        named = {name: getattr(_library, name) for name in ("IMAGE_LIMIT", "WORK_LENGTH", "REPORT_LENGTH", "LOAD_LENGTH")}
        self.assertEqual(named, {name: n for name, n in header().items() if name in named})

    def test_needs(self):
        places = re.findall(r"BUKZARN_NEED_(\w+)", (common.ROOT / "include/bukzarn.h").read_text(encoding="utf-8"))
        self.assertEqual([place.lower() for place in places], list(bukzarn.Needs._fields))
        self.assertEqual(len(places), _library.NEEDS)

    def test_declarations(self):
        """Each function of the header is declared with as many arguments, of the same widths."""
        text = (common.ROOT / "include/bukzarn.h").read_text(encoding="utf-8")
        found = re.findall(r"^(?:uint64_t|void) bukzarn_(\w+)\(([^;]*?)\);", text, re.M)
        self.assertEqual({name for name, _ in found}, set(_library.ARGUMENTS))
        kinds = {"size_t": _library.LENGTH, "uint32_t": _library.ctypes.c_uint32, "uint16_t": _library.ctypes.c_uint16}
        for name, arguments in found:
            declared = []
            for word in arguments.split(","):
                is_read, is_pointer = "const" in word, "*" in word
                declared.append((_library.BYTES if is_read else _library.OUTPUT) if is_pointer else kinds[word.split()[0]])
            self.assertEqual(tuple(declared), _library.ARGUMENTS[name], name)


@common.with_library
class Runs(unittest.TestCase):
    def test_every_stored_image(self):
        """The listing of each, as the gate has it; and what the careful reader of reports reads is the same."""
        budgets = (common.STORED / "args").read_text().split()[::2]
        for budget, (file, listing) in zip(budgets, common.stored_listings(), strict=True):
            image = Image.read(file)
            try:
                run = image.run(budget=int(budget))
                self.assertEqual(report.listing(report.read_run(run.report_bytes, run.log_bytes)), listing, file.name)
                self.assertIsNone(image.verdict())
                said = run.listing()
            except Refused as refused:
                self.assertEqual(str(image.verdict()), str(refused))
                said = f"refused {refused.number} {refused.place}\n"
            self.assertEqual(said, listing, file.name)

    def test_a_recording(self):
        image = Image.read(ASCENT / "ascent.proc", *WATCHES)
        self.assertEqual(image, Image.read(ASCENT / "watched.img"))
        recording = image.run_frames(FRAMES, 12)
        self.assertEqual(recording.csv(), (ASCENT / "watched.csv").read_text())
        self.assertEqual(recording.outcomes(), {Outcome.DONE: 559, Outcome.ABORTED: 41})
        self.assertEqual(repr(recording), "<Recording of 600 frames: 559 done, 41 aborted>")
        singly = [image.run(FRAMES[at:at + 12]) for at in range(0, len(FRAMES), 12)]
        self.assertEqual(list(recording), singly)
        for one, other in zip(recording, singly):
            self.assertEqual((one.log_bytes, one.report_bytes), (other.log_bytes, other.report_bytes))
        self.assertEqual(len(recording[:10]), 10)
        self.assertIsInstance(recording[:10], Recording)

    def test_frames_of_different_lengths(self):
        image = Image.from_text("domain decoder frame[0] + frame[2]")
        runs = image.run_frames([b"\1\2\3", memoryview(b"\4\5\6"), b"\7", bytearray(b"")])
        self.assertEqual([run.result for run in runs], [(4,), (10,), (6,), (-2,)])
        self.assertEqual(len(image.run_frames([])), 0)
        self.assertEqual(len(image.run_frames(b"", 12)), 0)

    def test_long_logs_are_run_in_smaller_batches(self):
        image = Image.read(ASCENT / "watched.img")
        long = image.run_frames(FRAMES[:1200], 12, log_length=9_000_000)
        self.assertEqual(long.csv(), image.run_frames(FRAMES[:1200], 12).csv())
        self.assertEqual(image.run_frames(FRAMES[:24], 12, log_length=0).outcomes(), {Outcome.LOG: 2})

    def test_results_are_plain(self):
        run = Image.from_text("domain a domain b <= a let c = new cell (1, true) in let d = new cell 5 at b in "
                            "print 7; lower to b { print -8 }; (2, (false, ()))").run()
        self.assertEqual((run.outcome, run.result, run.log), (Outcome.DONE, (2, False, None), ((0, 7), (1, -8))))
        self.assertEqual(run.cells, ((0, (1, True)), (1, (5,))))
        self.assertEqual((run.numbers(), run.numbers(1)), ([7], [-8]))

    def test_a_refusal_has_its_line(self):
        image = Image.read(EXAMPLES / "sonde.proc", EXAMPLES / "alter.watch")
        with self.assertRaises(Refused) as caught:
            image.run()
        self.assertEqual((caught.exception.refusal, caught.exception.place), (Refusal.DOMAIN_RULE, 450))
        self.assertIn("alter.watch, line 4, column 5:", str(caught.exception))
        with self.assertRaises(Refused):
            image.run_frames(FRAMES, 12)

    def test_images_that_are_written(self):
        first, newer = Image.read(EXAMPLES / "first.img"), Image.read(EXAMPLES / "newer.img")
        self.assertEqual((newer.fixed_form(), newer.name()), (first, "a85c1f5eccb73306"))
        watched, plain = Image.read(EXAMPLES / "watched.img"), Image.read(EXAMPLES / "plain.img")
        self.assertEqual(watched.stripped_form(), plain)
        self.assertEqual(Image.read(EXAMPLES / "sonde.proc", EXAMPLES / "count.watch").stripped_form(["decoder"]), plain)
        self.assertEqual(Image.from_seed(155840010, 5), Image.read(EXAMPLES / "load.img"))
        for seed, depth, refusal in ((1, 0, Refusal.WRONG_DEPTH), (1, 10, Refusal.WRONG_DEPTH)):
            with self.assertRaises(Refused) as caught:
                Image.from_seed(seed, depth)
            self.assertEqual(caught.exception.refusal, refusal)
        with self.assertRaises(Refused) as caught:
            watched.stripped_form([1])
        self.assertEqual(caught.exception.refusal, Refusal.WRONG_SET)

    def test_what_the_library_could_not_be_given(self):
        image = Image.read(EXAMPLES / "plain.img")
        for call in (lambda: image.run(budget=-1), lambda: image.run(budget=1 << 32), lambda: image.run(log_length=-1),
                     lambda: image.run_frames(FRAMES, 13), lambda: image.run_frames(FRAMES), lambda: image.run_frames(FRAMES, 0),
                     lambda: image.stripped_form([16]), lambda: image.stripped_form([-1]), lambda: Image.from_seed(-1, 3),
                     lambda: Image.read(EXAMPLES / "plain.img", EXAMPLES / "count.watch")):
            self.assertRaises(ValueError, call)
        self.assertRaises(SourceError, Image.from_text, "domain a print")
        for columns in ("wind", "pressure/0", "", "pressure,,"):
            self.assertRaises(ValueError, image.run_frames(FRAMES, 12).sounding, columns)
        self.assertEqual(Image(b"").verdict().refusal, Refusal.EMPTY_SECTION)
        self.assertEqual(Image(bytes(20_000)).verdict().refusal, Refusal.IMAGE_TOO_LONG)

    def test_threads_do_not_share_memory(self):
        """Calls of several threads at once, on one image, with logs of different lengths."""
        image, expected = Image.read(ASCENT / "watched.img"), (ASCENT / "watched.csv").read_text()
        wrong = []

        def work(log):
            for _ in range(5):
                if image.run_frames(FRAMES, 12, log_length=log).csv() != expected:
                    wrong.append(log)
        threads = [threading.Thread(target=work, args=(log,)) for log in (100, 200, 16_384, 16_384)]
        for thread in threads:
            thread.start()
        for thread in threads:
            thread.join()
        self.assertEqual(wrong, [])


@common.with_library
class Tables(unittest.TestCase):
    def setUp(self):
        self.recording = Image.read(ASCENT / "watched.img").run_frames(FRAMES, 12)

    def test_levels(self):
        made = self.recording.sounding()
        self.assertEqual((len(made.levels), made.levels[0].values), (559, [1008.6, 14.0, 72.0]))

    def test_a_picture(self):
        bare = Image.read(ASCENT / "watched.img").stripped_form().run_frames(FRAMES, 12)
        picture = self.recording.svg(title="Ascent", beside=bare)
        self.assertTrue(picture.startswith("<svg "))
        self.assertIn("with the watches", picture)

    def test_tables_of_pandas(self):
        try:
            import pandas
        except ImportError:
            with self.assertRaisesRegex(bukzarn.MissingPackage, "pandas is not installed"):
                self.recording.table()
            self.skipTest("pandas is not installed")
        table = self.recording.table()
        self.assertEqual(table.to_csv(index=False), (ASCENT / "watched.csv").read_text())
        levels = self.recording.table(bukzarn.COLUMNS)
        self.assertEqual(list(levels.columns), ["frame", "pressure", "temperature", "humidity", "watches"])
        self.assertEqual((len(levels), levels.temperature.min()), (559, -64.2))
        self.assertIsInstance(levels, pandas.DataFrame)
        self.assertEqual(self.recording.frame_table().outcome.value_counts().to_dict(), {"done": 559, "aborted": 41})

    def test_figures_of_matplotlib(self):
        try:
            import matplotlib  # noqa: F401 (whether it is there)
        except ImportError:
            with self.assertRaisesRegex(bukzarn.MissingPackage, "matplotlib is not installed"):
                self.recording.figure()
            self.skipTest("matplotlib is not installed")
        made = io.BytesIO()
        self.recording.figure(title="Ascent").savefig(made, format="png")
        self.assertTrue(made.getvalue().startswith(b"\x89PNG"))


class Library(unittest.TestCase):
    def test_where_it_is_looked_for(self):
        with tempfile.TemporaryDirectory() as folder, mock.patch.object(build, "PACKAGE", Path(folder, "python/bukzarn")):
            with mock.patch.dict(os.environ, {"BUKZARN_LIBRARY": ""}):
                with self.assertRaisesRegex(bukzarn.NoLibrary, "is not there: make it with"):
                    _library.library_path()
                archive, made = Path(folder, "crates/bukzarn/out", build.ARCHIVE), build.PACKAGE / build.SHARED
                for file in (made, archive):
                    file.parent.mkdir(parents=True)
                    file.write_bytes(b"")
                os.utime(made, (1, 1))
                with self.assertRaisesRegex(bukzarn.NoLibrary, "is older than"):
                    _library.library_path()
                os.utime(archive, (0, 0))
                self.assertEqual(_library.library_path(), made)
            with mock.patch.dict(os.environ, {"BUKZARN_LIBRARY": folder}):
                self.assertEqual(_library.library_path(), made)
                Path(folder, build.SHARED).write_bytes(b"")
                self.assertEqual(_library.library_path(), Path(folder, build.SHARED))

    def test_a_file_that_is_no_library(self):
        with tempfile.NamedTemporaryFile(suffix=".so") as file, self.assertRaisesRegex(bukzarn.NoLibrary, "is not the engine"):
            _library.load_library(Path(file.name))

    def test_no_archive_and_no_compiler(self):
        for words, told in ((["no such archive"], "is not there: make it with '(cd crates/bukzarn && rt lib)'"),):
            with self.assertRaises(SystemExit) as caught:
                build.main(words)
            self.assertIn(told, str(caught.exception))
        with mock.patch.dict(os.environ, {"CC": "no-such-compiler"}), self.assertRaises(SystemExit) as caught:
            build.main([__file__])
        self.assertIn("no-such-compiler is not there", str(caught.exception))


class Types(unittest.TestCase):
    def test_the_hints_fit(self):
        """By mypy, where it is installed; the assembler has no hints."""
        if not shutil.which("mypy"):
            self.skipTest("mypy is not installed")
        folder = common.ROOT / "python"
        files = [file for file in sorted(folder.glob("bukzarn/**/*.py"))
                 if "/lang/" not in str(file) and file.name not in ("watchtool.py", "texts.py")]
        with tempfile.TemporaryDirectory() as cache:
            words = ["mypy", "--follow-imports=silent", "--ignore-missing-imports", f"--cache-dir={cache}", *files]
            said = subprocess.run(words, cwd=folder, capture_output=True, text=True, check=False)
        self.assertEqual(said.returncode, 0, said.stdout)


@common.with_library
class Installed(unittest.TestCase):
    """pip, without a network, into an environment of its own, from a copy of the folder."""

    def setUp(self):
        folder = tempfile.TemporaryDirectory()
        self.addCleanup(folder.cleanup)
        self.folder = Path(folder.name)
        made = subprocess.run([sys.executable, "-m", "venv", self.folder / "venv"], capture_output=True, text=True, check=False)
        if made.returncode:
            self.skipTest("this Python makes no environments (venv)")
        subprocess.run(["cp", "-r", common.ROOT / "python", self.folder / "python"], check=True)
        (self.folder / "python/bukzarn" / build.SHARED).write_bytes(_library.library_path().read_bytes())

    def run_in(self, *words):
        """A command of the environment, away from the repository."""
        clean = {name: value for name, value in os.environ.items() if not name.startswith(("PYTHON", "BUKZARN"))}
        said = subprocess.run([self.folder / "venv/bin" / words[0], *words[1:]], cwd=self.folder, env=clean, capture_output=True,
                              text=True, check=False)
        self.assertEqual(said.returncode, 0, said.stderr)
        return said.stdout

    def test_pip(self):
        image, procedure, watch = (str(EXAMPLES / name) for name in ("watched.img", "sonde.proc", "count.watch"))
        ask = f"import bukzarn; print(bukzarn.__file__); print(bukzarn.Image.read({image!r}).run().listing())"
        for words, place in ((["--no-build-isolation", "./python"], "venv/lib"), (["./python"], "venv/lib"),
                             (["-e", "./python"], "python/")):
            self.run_in("pip", "install", "--no-index", "--force-reinstall", *words)
            said = self.run_in("python", "-c", ask)
            self.assertIn(str(self.folder / place), said)
            self.assertIn((EXAMPLES / "watched.txt").read_text(), said)
            self.assertEqual(self.run_in("watchtool", "check", procedure, watch), "accepted\n")
        self.assertIn(f"Version: {bukzarn.__version__}\n", self.run_in("pip", "show", "bukzarn"))

    def test_a_source_archive(self):
        """It has every file of the package but the library."""
        ask = "import backend, tarfile; print(*tarfile.open(backend.build_sdist('.')).getnames())"
        names = subprocess.run([sys.executable, "-c", ask], cwd=self.folder / "python", capture_output=True, text=True,
                               check=True).stdout.split()
        self.assertIn("bukzarn-1.0/bukzarn/bench/page.js", names)
        self.assertFalse([name for name in names if name.endswith((".so", ".pyc"))])


if __name__ == "__main__":
    unittest.main()
