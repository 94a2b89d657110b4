#!/usr/bin/env python3
"""Makes libbukzarn.so, which Python can load, of the proved library libbukzarn.a.

    python3 python/bukzarn/build.py [ARCHIVE] [-o FILE]

Without words it takes the archive that `(cd crates/bukzarn && rt lib)` wrote (or the one in the folder that BUKZARN_LIBRARY
names) and writes libbukzarn.so beside this file, where the package finds it and from where `pip install` takes it. It needs
gcc, or the compiler that CC names.
"""
import argparse
import os
import shutil
import subprocess
import sys
from pathlib import Path

PACKAGE = Path(__file__).resolve().parent
ARCHIVE, SHARED = "libbukzarn.a", "libbukzarn.so"


class Failed(Exception):
    """Why no library was made, in words."""


def archive() -> Path:
    """The archive that is taken if none is named: it need not be there."""
    folder = os.environ.get("BUKZARN_LIBRARY") or PACKAGE.parents[1] / "crates/bukzarn/out"
    return Path(folder) / ARCHIVE


def make(source: Path, made: Path) -> Path:
    """Links the whole archive into a shared library. What is there already is replaced as a whole, so that a program that
    has it loaded goes on with the old one."""
    compiler = os.environ.get("CC") or "gcc"
    if not source.is_file():
        raise Failed(f"{source} is not there: make it with '(cd crates/bukzarn && rt lib)', or name another archive")
    if not shutil.which(compiler):
        raise Failed(f"{compiler} is not there: install it, or name another compiler in CC")
    beside = made.with_name(f".{made.name}.{os.getpid()}")
    words = [compiler, "-shared", "-Wl,--whole-archive", str(source), "-Wl,--no-whole-archive", "-Wl,-z,defs", "-o", str(beside)]
    said = subprocess.run(words, capture_output=True, text=True, check=False)
    if said.returncode:
        beside.unlink(missing_ok=True)
        raise Failed(f"{compiler} could not link {source}: {said.stderr.strip()}")
    os.replace(beside, made)
    return made


def main(words: list[str] | None = None) -> None:
    parser = argparse.ArgumentParser(description=__doc__.split("\n")[0])
    parser.add_argument("archive", nargs="?", type=Path, metavar="ARCHIVE", help="libbukzarn.a (the one that rt made)")
    parser.add_argument("-o", dest="out", type=Path, default=PACKAGE / SHARED, metavar="FILE", help="what to write")
    args = parser.parse_args(words)
    try:
        print(make(args.archive or archive(), args.out))
    except (Failed, OSError) as error:
        sys.exit(f"build: {error}")


if __name__ == "__main__":
    main()
