"""The commands of examples/README.md and docs/RESEARCHERS.md, run in a copy of the repository: they leave exactly the
files that are there, and answer what the pages show.

The programs in Rattle that a page names (crates/NAME/out/NAME) are run if they are built. Where `bukzarn` is not, its tables are taken as they
are stored: the tests of the command itself (cli/tests) compare them.
"""
import re
import shutil
import subprocess
import sys
import tempfile
import unittest
from pathlib import Path

import common

PAGE = (common.ROOT / "examples/README.md").read_text(encoding="utf-8")
RESEARCHERS = (common.ROOT / "docs/RESEARCHERS.md").read_text(encoding="utf-8")
BUKZARN = common.ROOT / "target/bin/bukzarn"


def indented(section, page=PAGE):
    """The indented lines of a section of a page."""
    part = page.split(f"## {section}\n")[1].split("\n## ")[0]
    return [line[4:] for line in part.splitlines() if line.startswith("    ")]


def commands(section, page=PAGE):
    """The commands of a section, in order."""
    return [line for line in indented(section, page) if re.match(r"python3 |cd |target/|crates/|\.\./", line)]


class Commands(unittest.TestCase):
    def setUp(self):
        folder = tempfile.TemporaryDirectory()
        self.addCleanup(folder.cleanup)
        self.root = Path(folder.name)
        for name in ("tools", "python", "examples"):
            shutil.copytree(common.ROOT / name, self.root / name, ignore=shutil.ignore_patterns("__pycache__", "tests"))
        (self.root / "target").symlink_to(common.ROOT / "target")
        (self.root / "crates").symlink_to(common.ROOT / "crates")

    def shell(self, command, folder, status=0):
        said = subprocess.run(["bash", "-c", command.replace("python3 ", f"{sys.executable} ")], cwd=folder, check=False,
                              capture_output=True, text=True)
        self.assertEqual(said.returncode, status, f"{command}: {said.stderr}")
        return said.stdout

    def test_from_a_recording_to_a_picture(self):
        folder, stored = self.root, common.ROOT / "examples/ascent"
        made = self.root / "examples/ascent"
        for file in made.iterdir():
            if file.suffix in (".img", ".csv", ".svg", ".frames"):
                file.write_bytes(b"")
        ran = commands("From a recording to a picture")
        self.assertEqual(len(ran), 8)
        for command in ran:
            if command.startswith("cd "):
                folder = folder / command[3:]
            elif "bukzarn" in command and not BUKZARN.exists():
                name = command.split()[-1]
                (made / name).write_bytes((stored / name).read_bytes())
            else:
                said = self.shell(command, folder, 4 if "bukzarn" in command else 0)
        for file in stored.iterdir():
            self.assertEqual((made / file.name).read_bytes(), file.read_bytes(), file.name)
        lines = indented("From a recording to a picture")
        for line in lines[lines.index(ran[-1]) + 1:]:
            self.assertIn(line if line != "..." else "", said)

    def test_what_the_page_shows(self):
        """The answers of commands that stand on the page, and names that it tells."""
        library = not common.without_library()
        programs = library and common.program("strip").exists()
        for section, needed in (("A ground check whose needs are known", True), ("Two watches that are refused", False)):
            if library or not needed:
                lines = indented(section)
                said = self.shell(commands(section)[0], self.root).splitlines()
                start = lines.index(said[0])
                self.assertEqual(lines[start:start + len(said)], said)
        for command in commands("Two images of one program") if library else ():
            self.assertIn(f"`{self.shell(command, self.root).strip()}`", PAGE)
        for command in commands("An archived procedure without its watches") if programs else ():
            self.shell(command, self.root)

    def test_what_the_command_writes(self):
        """docs/FORMAT.md shows what `bukzarn run` writes of its image, over a frame that begins with 7."""
        if not BUKZARN.exists():
            self.skipTest("the command is not built")
        page = (common.ROOT / "docs/FORMAT.md").read_text(encoding="utf-8")
        (self.root / "page.proc").write_text(page.split("```")[1])
        (self.root / "frame").write_bytes(b"\7")
        for form in ("listing", "csv", "json"):
            said = self.shell(f"target/bin/bukzarn run page.proc --frame frame --out {form}", self.root)
            self.assertIn(f"```\n{said}```", page)

    def test_a_watch_of_your_own(self):
        """The watch of docs/RESEARCHERS.md: accepted as it stands, and refused once it stores to the decoder's cell."""
        lines = indented("A watch of your own", RESEARCHERS)
        watch = "\n".join(lines[:next(i for i, line in enumerate(lines) if line.startswith("python3"))])
        assembles, _, kept, _ = commands("A watch of your own", RESEARCHERS)
        (self.root / "warm.watch").write_text(watch)
        self.shell(assembles, self.root)
        if common.program("watch").exists():
            said = self.shell("crates/watch/out/watch < warm.img", self.root)
            self.assertEqual(re.findall("^log 1 .*$", said, re.M), re.findall(r"`(log 1 \d+)`", RESEARCHERS))
        self.assertEqual(watch.count("print t"), 1)
        (self.root / "warm.watch").write_text(watch.replace("print t", "correction := t"))
        self.shell(assembles, self.root, 1)
        self.shell(kept, self.root)

    @common.with_library
    def test_a_rerun_is_told_as_shown(self):
        section = "A procedure without its watches"
        lines = indented(section, RESEARCHERS)
        for command in [line for line in lines if " rerun " in line]:
            shown = lines[lines.index(command) + 1:]
            said = self.shell(command, self.root).splitlines()
            self.assertEqual(said, shown[:len(said)])

    def test_totals_are_as_shown(self):
        """docs/RESEARCHERS.md, over the recorded ascent; docs/STATIONS.md, many recordings side by side."""
        if not BUKZARN.exists():
            self.skipTest("the command is not built")
        lines = indented("Over a recording", RESEARCHERS)
        command = next(line for line in lines if line.endswith("--totals"))
        said = self.shell(command, self.root / "examples/ascent", 4).splitlines()
        start = lines.index(said[0])
        self.assertEqual(lines[start:start + len(said)], said)

    def test_the_first_page(self):
        """README.md, "Use it", word for word: each command ends as the page says, and the picture is there. Those of the shared
        library and of the bench, which serves until it is ended, have tests of their own (test_decoder, test_bench)."""
        if not BUKZARN.exists():
            self.skipTest("the command is not built")
        (self.root / "target").unlink()
        (self.root / "target/bin").mkdir(parents=True)
        (self.root / "target/bin/bukzarn").symlink_to(BUKZARN)
        page = (common.ROOT / "README.md").read_text(encoding="utf-8")
        elsewhere = ("python/bukzarn/build.py", "examples/python/decoder.py", "watchtool.py bench ")
        shown = [command for command in commands("Use it", page) if not any(name in command for name in elsewhere)]
        self.assertEqual(len(shown), 8)
        for command in shown:
            self.shell(command, self.root, 4 if "--frames" in command else 1 if "alter.watch" in command else 0)
        self.assertEqual((self.root / "target/ascent.csv").read_bytes(), (common.ROOT / "examples/ascent/watched.csv").read_bytes())
        self.assertTrue((self.root / "target/ascent.svg").read_text(encoding="utf-8").startswith("<svg"))

    def test_a_whole_archive(self):
        """The lines of docs/STATIONS.md, over three recordings, one of them with a name that a shell would take apart."""
        if not BUKZARN.exists():
            self.skipTest("the command is not built")
        shown = indented("A whole archive", (common.ROOT / "docs/STATIONS.md").read_text(encoding="utf-8"))
        year = self.root / "year"
        year.mkdir()
        for name in ("a", "b", "$(touch ran) c;'"):
            shutil.copy(common.ROOT / "examples/ascent/ascent.frames", year / f"{name}.frames")
        self.shell("\n".join(shown), self.root, 123)
        table = (common.ROOT / "examples/ascent/watched.csv").read_bytes()
        self.assertEqual([file.read_bytes() for file in year.glob("*.csv")], [table] * 3)
        self.assertFalse((self.root / "ran").exists())

    def test_images_and_listings_are_made_anew(self):
        """The last command of the page writes what is stored, from the texts and the built programs."""
        command = commands("Commands")[-2]
        self.assertTrue(command.startswith("python3 tools/generate/make_examples.py"), command)
        if not (common.program("watch").exists() and common.program("need").exists()):
            self.skipTest("the programs are not built")
        for file in (self.root / "examples").glob("*.img"):
            file.unlink()
        self.shell(command, self.root)
        for file in (common.ROOT / "examples").iterdir():
            if file.suffix in (".img", ".txt", ".need"):
                self.assertEqual((self.root / "examples" / file.name).read_bytes(), file.read_bytes(), file.name)


if __name__ == "__main__":
    unittest.main()
