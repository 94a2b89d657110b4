"""Nothing is lost, nobody is fooled: what the tool reads stays as it is, what it writes is whole, and what others wrote does
nothing to a terminal. Each call is a process of its own."""
import os
import stat
import subprocess
import sys
import tempfile
import unittest
from pathlib import Path

import common

TOOL = common.ROOT / "tools/watchtool.py"
EXAMPLES = common.ROOT / "examples"


class Outputs(unittest.TestCase):
    def setUp(self):
        folder = tempfile.TemporaryDirectory()
        self.addCleanup(folder.cleanup)
        self.folder = Path(folder.name)
        for file in ("sonde.proc", "count.watch", "plain.img", "ascent/plain.csv"):
            (self.folder / Path(file).name).write_bytes((EXAMPLES / file).read_bytes())

    def tool(self, *words, **more):
        """The exit status, the output and the words of a call, without a traceback."""
        ended = subprocess.run([sys.executable, TOOL, *words], cwd=self.folder, capture_output=True, check=False, timeout=60,
                               **more)
        self.assertNotIn(b"Traceback", ended.stderr)
        self.assertNotIn(b"Exception ignored", ended.stderr)
        return ended.returncode, ended.stdout, ended.stderr

    def shell(self, line):
        """The same of a shell's line, in which $T is the tool."""
        ended = subprocess.run(["bash", "-c", line], cwd=self.folder, capture_output=True, check=False, timeout=60,
                               env={**os.environ, "T": f"{sys.executable} {TOOL}"})
        self.assertNotIn(b"Traceback", ended.stderr, line)
        self.assertNotIn(b"Exception ignored", ended.stderr, line)
        return ended.returncode, ended.stdout, ended.stderr

    def test_no_input_is_written_over(self):
        os.link(self.folder / "sonde.proc", self.folder / "hard.proc")
        (self.folder / "soft").symlink_to("plain.img")
        texts = {file: file.read_bytes() for file in self.folder.iterdir()}
        for words in (("asm", "sonde.proc", "-o", "sonde.proc"), ("asm", "sonde.proc", "-o", "./hard.proc"),
                      ("asm", "sonde.proc", "count.watch", "-o", "count.watch"), ("asm", "hard.proc", "-o", "sonde.proc"),
                      ("disasm", "plain.img", "-o", "plain.img"), ("disasm", "plain.img", "-o", "soft"),
                      ("picture", "plain.img", "-o", "plain.img"), ("strip", "plain.img", "-o", "plain.img"),
                      ("table", "plain.csv", "-o", "plain.csv"), ("plot", "plain.csv", "-o", "../" + self.folder.name + "/plain.csv"),
                      ("report", "plain.csv", "plain.img", "-o", "plain.img"),
                      ("rerun", "plain.img", "--frames", "plain.csv", "--length", "9", "-o", "plain.csv")):
            status, _, told = self.tool(*words)
            self.assertEqual(status, 2, words)
            self.assertIn(b"is read: name another file with -o", told)
        self.assertEqual({file: file.read_bytes() for file in self.folder.iterdir()}, texts)

    def test_a_file_is_whole_or_as_it_was(self):
        out = self.folder / "out"
        out.write_text("old")
        out.chmod(0o640)
        for words in (("asm", "none.proc"), ("asm", "count.watch"), ("plot", "sonde.proc")):
            self.assertEqual(self.tool(*words, "-o", "out")[0], 1)
            self.assertEqual(out.read_text(), "old")
        (self.folder / "link").symlink_to("out")
        self.assertEqual(self.tool("disasm", "plain.img", "-o", "link")[0], 0)
        self.assertTrue((self.folder / "link").is_symlink() and out.read_text().startswith("domain"))
        self.assertEqual(stat.S_IMODE(out.stat().st_mode), 0o640)
        self.assertEqual(self.tool("disasm", "plain.img", "-o", "/dev/full")[0], 1)
        self.assertEqual(self.tool("disasm", "plain.img", "-o", "/dev/null")[0], 0)
        self.assertEqual(self.shell("$T disasm plain.img -o >(cat > piped); sleep 0.3; cmp piped out")[0], 0)
        self.assertFalse([file for file in self.folder.iterdir() if file.name.startswith(".")])

    def test_outputs_that_fail(self):
        for command in ("--help", "asm --help", "refusals", "explain --outcome 3", "check plain.img", "disasm plain.img",
                        "asm sonde.proc", "plot plain.csv"):
            for output in ("> /dev/full", ">&-"):
                status, _, told = self.shell(f"$T {command} {output}")
                self.assertEqual((status, told.startswith(b"watchtool: standard output: ")), (1, True), (command, told))
            self.assertEqual(self.shell(f"$T {command} 2>&-")[0], 0, command)
        for line in ("$T check none 2>&-", "$T check none >&- 2>&-", "$T nonsense 2>&-", "$T check sonde.proc <&-"):
            self.assertIn(self.shell(line)[0], (0, 1, 2), line)

    def test_foreign_names_and_titles(self):
        """Bytes that are no UTF-8, signs that a terminal obeys: in names of files, in texts, in titles."""
        name = os.fsdecode(b"\x1b[31m\xff.proc")
        (self.folder / name).write_bytes("domain a\nprint \x1b[32m5 # \u202e\x9b".encode())
        (self.folder / "line.proc").write_bytes("domain a\n(5 : truth) # \x1b[32m\x07\u202e".encode())
        for words in (("check", name), ("asm", name), ("check", "line.proc"), ("asm", "line.proc"), ("check", name + ".img"),
                      (name,), ("explain", "--outcome", name), ("strip", "plain.img", "--keep", name), ("table", name),
                      ("plot", "plain.csv", "--columns", name), ("disasm", "plain.img", "-o", f"no/{name}")):
            for variables in ({}, {"LC_ALL": "C", "PYTHONUTF8": "0", "PYTHONIOENCODING": "ascii"}):
                status, out, told = self.tool(*words, env={**os.environ, **variables})
                self.assertIn(status, (1, 2), words)
                said = (out + told).decode()
                self.assertFalse(set(said) & set("\x1b\x07\x9b\u202e"), said)
                self.assertNotIn("\udcff", said)
        status, out, _ = self.tool("plot", "plain.csv", "--title", name)
        self.assertEqual((status, b"\\x1b[31m\\xff.proc" in out, b"\x1b" in out), (0, True, False))

    def test_an_ascii_terminal(self):
        for words in (("refusals",), ("check", "plain.img"), ("explain", "--refused", "15", "0"), ("--help",), ("plot", "--help")):
            status, out, _ = self.tool(*words, env={**os.environ, "PYTHONIOENCODING": "ascii", "LC_ALL": "C"})
            self.assertEqual((status, out != b""), (0, True), words)

    def test_texts_that_are_given(self):
        """As `bukzarn` gives them: each behind its length, and the names only for messages."""
        texts = [(EXAMPLES / name).read_bytes() for name in ("sonde.proc", "count.watch")]
        given = b"".join(b"%d\n%s" % (len(text), text) for text in texts)
        status, image, _ = self.tool("asm", "--stdin-texts", "--", "a.proc", "b.watch", input=given)
        self.assertEqual((status, image), (0, (EXAMPLES / "count.img").read_bytes()))
        for wrong in (given[:-1], given[:30], b"", b"x\n", b"99999999999999999999\n", b"5\n"):
            self.assertEqual(self.tool("asm", "--stdin-texts", "--", "a.proc", "b.watch", input=wrong)[0], 1)

    def test_a_text_is_read_once(self):
        """From a pipe it comes once."""
        for command in ("check a.proc count.watch", "asm a.proc count.watch -o b.img", "explain a.proc count.watch"):
            line = f"rm -f a.proc; mkfifo a.proc; cat sonde.proc > a.proc & $T {command}; status=$?; wait; exit $status"
            self.assertEqual(self.shell(line)[0], 0, command)

    def test_rises_from_level_to_level(self):
        """The ten lines of docs/RESEARCHERS.md are the example's, and give what the table says."""
        script = EXAMPLES / "ascent/rises.py"
        body = script.read_text(encoding="utf-8").split('"""\n')[1].strip()
        page = (common.ROOT / "docs/RESEARCHERS.md").read_text(encoding="utf-8")
        self.assertIn("\n".join(f"    {line}".rstrip() for line in body.splitlines()), page)
        self.assertLessEqual(len([line for line in body.splitlines() if line]), 10)
        ended = subprocess.run([sys.executable, script, "plain.csv"], cwd=self.folder, capture_output=True, check=True, text=True)
        rows = [tuple(map(int, line.split(","))) for line in (self.folder / "plain.csv").read_text().splitlines()[1:]]
        levels = [(frame, number) for (frame, _, number) in rows[::3]]
        rises = [f"{frame} {(low - high) / 10 / (frame - before):.1f}" for (before, low), (frame, high) in zip(levels, levels[1:])]
        self.assertEqual(ended.stdout.splitlines(), rises)


if __name__ == "__main__":
    unittest.main()
