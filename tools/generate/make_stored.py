#!/usr/bin/env python3
"""Makes the stored images of the program `watch`, which it lists in the gate.

Run in the repository's root: python3 tools/generate/make_stored.py [PROGRAM]
It writes the cases (make_cases.py and the files *_cases.py) and the examples (examples/NAME.img) to
crates/watch/data, and args: a budget and a file for each image, first those that no script makes. With PROGRAM
(crates/watch/out/watch) it also writes stdout: what PROGRAM prints.
"""
import subprocess
import sys
from pathlib import Path

sys.path.insert(0, str(Path(__file__).resolve().parents[2] / "python"))

from quota_cases import quota_cases  # noqa: E402 (the path is set here)
from make_cases import BUDGET, all_cases  # noqa: E402
from make_examples import EXAMPLES, examples  # noqa: E402
from newest_cases import newest_cases  # noqa: E402
from stack_cases import stack_cases  # noqa: E402
from takedown_cases import takedown_cases  # noqa: E402

CRATE = Path("crates/watch")


def made(folder=EXAMPLES):
    """Each image that a script makes: its name, its bytes, its budget."""
    yield from all_cases()
    yield from stack_cases()
    yield from takedown_cases()
    yield from newest_cases()
    yield from quota_cases()
    for name, _ in examples(folder):
        yield name, (folder / f"{name}.img").read_bytes(), BUDGET


def arguments(crate=CRATE, folder=EXAMPLES):
    """A budget and a file for each image."""
    known = {f"{name}.img" for name, _, _ in made(folder)}
    pairs = [(BUDGET, file.name) for file in sorted((crate / "data").iterdir()) if file.name not in known]
    pairs += [(budget, f"{name}.img") for name, _, budget in made(folder)]
    return [word for budget, name in pairs for word in (str(budget), name)]


def main(program=None):
    for name, image, _ in made():
        (CRATE / "data" / f"{name}.img").write_bytes(image)
    args = arguments()
    (CRATE / "args").write_text("\n".join(args) + "\n")
    if program:
        said = subprocess.run([Path(program).resolve(), *args], cwd=CRATE / "data", capture_output=True, check=True)
        (CRATE / "stdout").write_bytes(said.stdout)


if __name__ == "__main__":
    main(*sys.argv[1:])
