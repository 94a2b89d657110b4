"""The decoder of examples/python, and what docs/PYTHON.md and README.md show of Python, run as they stand."""
import doctest
import os
import re
import shlex
import subprocess
import sys
import tempfile
import unittest
from pathlib import Path

import common

ASCENT = common.ROOT / "examples/ascent"
FRAMES = (ASCENT / "ascent.frames").read_bytes()
DECODER = common.ROOT / "examples/python/decoder.py"


def decoder(*words, **more):
    return subprocess.run([sys.executable, DECODER, *map(str, words)], capture_output=True, check=False, **more)


@common.with_library
class Decoder(unittest.TestCase):
    def test_a_pipe(self):
        said = decoder(ASCENT / "watched.img", 12, input=FRAMES)
        self.assertEqual((said.stdout, said.returncode), ((ASCENT / "watched.csv").read_bytes(), 4))
        self.assertEqual(said.stderr.count(b": The run was aborted\n"), 41)
        self.assertEqual(decoder(ASCENT / "watched.img", 12, input=FRAMES[:120]).returncode, 0)

    def test_a_pipe_that_pauses(self):
        """What is decoded is there before the next frame comes, also if a frame comes in parts."""
        words = [sys.executable, DECODER, ASCENT / "plain.img", "12"]
        with subprocess.Popen(words, stdin=subprocess.PIPE, stdout=subprocess.PIPE, bufsize=0) as process:
            self.assertEqual(process.stdout.readline(), b"frame,domain,number\n")
            for number in range(2):
                frame = FRAMES[12 * number:12 * number + 12]
                process.stdin.write(frame[:5])
                process.stdin.write(frame[5:])
                lines = [process.stdout.readline() for _ in range(3)]
                self.assertTrue(all(line.startswith(b"%d,0," % number) for line in lines), lines)
            process.stdin.close()
            self.assertEqual(process.wait(), 0)

    def test_a_recording(self):
        with tempfile.TemporaryDirectory() as folder:
            picture = Path(folder, "a.svg")
            said = decoder(ASCENT / "watched.img", 12, "--recording", ASCENT / "ascent.frames", "--svg", picture)
            self.assertTrue(picture.read_text(encoding="utf-8").startswith("<svg "))
        self.assertEqual(said.returncode, 4)
        self.assertEqual(len(said.stdout.splitlines()), 560)
        self.assertIn(b"559 done, 41 aborted", said.stderr)

    def test_what_is_wrong_is_told(self):
        for words, given, told in (((common.ROOT / "examples/alter.img", 12), FRAMES, b"decoder: refused 15 at byte 450"),
                                   ((ASCENT / "plain.img", 12), FRAMES[:30], b"the last frame has 6 of 12 bytes"),
                                   ((ASCENT / "plain.img", 7, "--recording", ASCENT / "ascent.frames"), b"", b"no multiple of 7"),
                                   (("no-such.img", 12), b"", b"No such file"),
                                   ((ASCENT / "plain.img", 0), b"", b"at least one byte")):
            said = decoder(*words, input=given)
            self.assertIn(told, said.stderr)
            self.assertNotIn(b"Traceback", said.stderr)
            self.assertIn(said.returncode, (1, 2))


@common.with_library
class Documents(unittest.TestCase):
    def test_what_the_page_on_python_shows(self):
        """Every example of docs/PYTHON.md, in the repository's root; those of pandas where it is installed."""
        try:
            import pandas  # noqa: F401 (whether it is there)
            lacking = r"(?!)"
        except ImportError:
            lacking = r"\btable\b"
        page = (common.ROOT / "docs/PYTHON.md").read_text(encoding="utf-8")
        test = doctest.DocTestParser().get_doctest(page, {}, "PYTHON.md", "docs/PYTHON.md", 0)
        self.assertGreater(len(test.examples), 20)
        test.examples = [example for example in test.examples if not re.search(lacking, example.source)]
        before = os.getcwd()
        os.chdir(common.ROOT)
        try:
            told = []
            result = doctest.DocTestRunner(verbose=False).run(test, out=told.append)
        finally:
            os.chdir(before)
        self.assertEqual(result.failed, 0, "".join(told))

    def test_commands_of_the_decoder(self):
        """The commands of README and the page on Python that decode do so."""
        found = 0
        for name in ("README.md", "docs/PYTHON.md"):
            page = (common.ROOT / name).read_text(encoding="utf-8")
            for line in re.findall(r"^    (python3 examples/python/decoder\.py .*)$", page, re.M):
                with tempfile.TemporaryDirectory() as folder:
                    command = line.replace("python3 ", f"{shlex.quote(sys.executable)} ", 1).replace("target/", f"{folder}/")
                    said = subprocess.run(["bash", "-c", command], cwd=common.ROOT, capture_output=True, check=False)
                self.assertEqual(said.returncode, 4, said.stderr)
                found += 1
        self.assertEqual(found, 3)


if __name__ == "__main__":
    unittest.main()
