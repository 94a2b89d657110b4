"""What the tests share: the repository's folders, trees of their own, the stored images and their listings, the bench."""
import os
import shutil
import subprocess
import sys
import tempfile
import unittest
from pathlib import Path

ROOT = Path(__file__).resolve().parents[2]
STORED = ROOT / "crates/watch"
for folder in ("python", "tools/generate", "tools/house"):
    sys.path.insert(0, str(ROOT / folder))

from bukzarn import NoLibrary, _library, watchtool  # noqa: E402 (the path is set here)

sys.setrecursionlimit(watchtool.DEEPEST)


def without_library():
    """Why the proved library cannot be called here; nothing if it can."""
    try:
        _library.library_path()
    except NoLibrary as error:
        return str(error)
    return ""


def program(name):
    """Where `rt run` leaves a program in Rattle."""
    return ROOT / "crates" / name / "out" / name


with_library = unittest.skipIf(without_library(), without_library())


def tree(test, files):
    """A folder with these files, by path and text, for the time of a test."""
    folder = tempfile.TemporaryDirectory()
    test.addCleanup(folder.cleanup)
    for name, text in files.items():
        file = Path(folder.name) / name
        file.parent.mkdir(parents=True, exist_ok=True)
        file.write_text(text, encoding="utf-8")
    return Path(folder.name)


def archive_folder():
    """The folder of the library's archive, which cargo links; nothing if one of the two is not there."""
    folder = Path(os.environ.get("BUKZARN_LIBRARY") or ROOT / "crates/bukzarn/out")
    return folder if (folder / "libbukzarn.a").is_file() and shutil.which("cargo") else None


with_archive = unittest.skipUnless(archive_folder(), "cargo or the library's archive is not here")


def bench(*options):
    """What bench/run.sh prints with these options."""
    environment = {**os.environ, "BUKZARN_LIBRARY": str(archive_folder())}
    made = subprocess.run([ROOT / "bench/run.sh", *options], capture_output=True, text=True, env=environment, check=False)
    if made.returncode != 0:
        raise AssertionError(made.stderr)
    return made.stdout


def stored_images():
    """The files of all images that the programs of the gate run."""
    return sorted(ROOT.glob("crates/*/data/*.img"))


def stored_listings():
    """Each image that the gate runs, with the listing that is expected: pairs of file and text. In the output a line with
    budget and file stands before them, then the validator's verdict."""
    entries = []
    for line in (STORED / "stdout").read_text().splitlines(keepends=True):
        if line.endswith(".img\n"):
            entries.append((STORED / "data" / line.split()[-1], []))
        else:
            entries[-1][1].append(line)
    return [(file, "".join(lines[1:])) for file, lines in entries]
