#!/usr/bin/env python3
"""Writes tools/cross/calls.txt: what every stored image leaves in memory under each function of the library, on this machine.

    python3 tools/generate/make_calls.py

It needs the shared library of the package for Python (python3 python/bukzarn/build.py). tools/tests/test_cross.py compares it
with this machine's library, and with those for other processors.
"""
import sys
from pathlib import Path

sys.path.insert(0, str(Path(__file__).resolve().parents[1] / "cross"))

import calls  # noqa: E402 (the path is set here)

HEAD = "# What each call of tools/cross/calls.py leaves on x86-64 (SHA-256, cut). Made by tools/generate/make_calls.py.\n"


def line(group, made):
    """The digits of a group's calls."""
    return f"{group}: {' '.join(calls.digest(calls.call_native(call)) for call in made.values())}\n"


def main():
    calls.RECORDED_CALLS.write_text(HEAD + "".join(line(*item) for item in calls.call_groups().items()))
    print(f"{len(calls.all_calls())} calls")


if __name__ == "__main__":
    main()
