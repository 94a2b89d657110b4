"""The library on this machine, and as tools/cross.sh makes it for others, leaves what tools/cross/calls.txt says, byte for byte.

The tests of the others need the crates proved (rt lib in crates/bukzarn), and aarch64-linux-gnu-gcc with qemu-aarch64, or wasm-ld with node.
Where one of these is missing they are skipped, with the reason. To test libraries that are already there, name their folder in
BUKZARN_CROSS (with libbukzarn.a for aarch64 and bukzarn.wasm in it).
"""
import os
import shutil
import subprocess
import sys
import tempfile
import unittest
from pathlib import Path

import common

sys.path.insert(0, str(common.ROOT / "tools/cross"))

import calls  # noqa: E402 (the path is set here)
from bukzarn import NoLibrary, _library, runs  # noqa: E402

CC = "aarch64-linux-gnu-gcc"
OPTIONS = ("-std=c99", "-Wall", "-Wextra", "-Wpedantic", "-Werror", "-O2", "-static", "-Iinclude")


def missing(*programs):
    return next((program for program in programs if not shutil.which(program)), "")


class Recorded(unittest.TestCase):
    def left(self, program):
        """What a program writes of all calls, each with its name."""
        every = calls.all_calls()
        said = subprocess.run(program, input=b"".join(call.packed() for call in every.values()), capture_output=True, check=False,
                              cwd=common.ROOT)
        self.assertEqual(said.returncode, 0, said.stderr.decode())
        return calls.split_output(every, said.stdout)

    def same(self, left):
        """Every call left what is recorded, and every image that the gate runs has its stored listing."""
        recorded = calls.read_recorded_calls()
        differing = [name for name, data in left.items() if recorded.get(name) != calls.digest(data)]
        self.assertEqual(differing, [], "make it again with tools/generate/make_calls.py if the engine was changed")
        self.assertEqual(left.keys(), recorded.keys())
        for file, listing in self.listings():
            self.assertEqual(self.listing(left[f"{file.relative_to(common.ROOT)} run"]), listing, file.name)

    @staticmethod
    def listings():
        """The stored listings of runs with the budget of the bench sheet."""
        budgets = (common.STORED / "args").read_text().split()[::2]
        return [entry for budget, entry in zip(budgets, common.stored_listings(), strict=True) if budget == "100000"]

    @staticmethod
    def listing(left):
        """The listing of the first call of an image."""
        answer = int.from_bytes(left[:8], "little")
        if not answer & 0xFFFF:
            return f"refused {answer >> 16 & 0xFF} {answer >> 24}\n"
        log, report = left[8:8 + (answer >> 16)], left[8 + 16_384:8 + 16_384 + (answer & 0xFFFF)]
        return runs.read_run(log, report).listing()


class OnThisMachine(Recorded):
    def test_the_shared_library(self):
        try:
            _library.library_path()
        except NoLibrary as error:
            self.skipTest(str(error))
        self.same({name: calls.call_native(call) for name, call in calls.all_calls().items()})

    def test_the_archive(self):
        """By the program in C that runs on other processors too."""
        archive = Path(os.environ.get("BUKZARN_LIBRARY") or common.ROOT / "crates/bukzarn/out", "libbukzarn.a")
        if not archive.is_file() or missing("gcc"):
            self.skipTest("no libbukzarn.a, or no gcc")
        with tempfile.TemporaryDirectory() as folder:
            program = Path(folder, "calls")
            subprocess.run(["gcc", *OPTIONS, "-o", program, "tools/cross/calls.c", archive], check=True, cwd=common.ROOT)
            self.same(self.left([program]))


class OnOthers(Recorded):
    def setUp(self):
        folder = tempfile.TemporaryDirectory()
        self.addCleanup(folder.cleanup)
        self.folder = Path(folder.name)

    def library(self, target, file):
        """The library for a processor, which is made if it is not named."""
        named = os.environ.get("BUKZARN_CROSS")
        if named:
            return Path(named, file).resolve()
        if not (common.ROOT / "crates/write_stripped/out/rlib/write_stripped.rlib").exists():
            self.skipTest("the crates are not proved: rt lib in crates/bukzarn")
        subprocess.run(["tools/cross.sh", target, self.folder], check=True, cwd=common.ROOT, stdout=subprocess.DEVNULL)
        return self.folder / file

    def compiled(self, name, source, archive):
        program = self.folder / name
        subprocess.run([CC, *OPTIONS, "-o", program, source, archive], check=True, cwd=common.ROOT)
        return ["qemu-aarch64", program]

    def test_aarch64(self):
        lacking = missing(CC, "qemu-aarch64")
        if lacking:
            self.skipTest(f"{lacking} is not there")
        archive = self.library("aarch64", "libbukzarn.a")
        self.same(self.left(self.compiled("calls", "tools/cross/calls.c", archive)))
        receiver = self.compiled("receiver", "examples/c/receiver.c", archive)
        ascent = [common.ROOT / "examples/ascent" / name for name in ("watched.img", "ascent.frames")]
        table = subprocess.run([*receiver, *ascent, "12"], capture_output=True, check=False).stdout
        self.assertEqual(table, (common.ROOT / "examples/ascent/watched.csv").read_bytes())
        functions = self.compiled("functions", "examples/c/functions.c", archive)
        for name in ("ground", "limits", "plain"):
            said = subprocess.run([*functions, common.ROOT / f"examples/{name}.img"], capture_output=True, check=True).stdout
            self.assertEqual(said, (common.ROOT / f"examples/{name}.need").read_bytes(), name)

    def test_wasm32(self):
        lacking = missing("wasm-ld", "node")
        if lacking:
            self.skipTest(f"{lacking} is not there")
        module = self.library("wasm32", "bukzarn.wasm")
        self.same(self.left(["node", "tools/cross/calls.mjs", module]))


if __name__ == "__main__":
    unittest.main()
