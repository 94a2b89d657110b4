#!/usr/bin/env python3
"""Calls watchtool.py again and again with damaged and random texts, images, tables, reports and options.

    tools/fuzz.py [--seed N] [--seconds S] [--first CASE] [--cases COUNT]

Every call must end by itself, with exit status 0, 1 or 2, without a traceback, and within two seconds of processor time. It
leaves its input files as they are, whatever -o names, and shows no sign that a terminal would obey. Names of files may be no
UTF-8, standard output may be closed or full, the terminal may know ASCII alone. A case follows from the seed and its number alone: `--seed N --first CASE --cases 1` makes one again. Each call is a child of
this process, so that Python and the modules are loaded once. What is wrong is printed, and the exit status is 1.
"""
import argparse
import collections
import contextlib
import os
import random
import resource
import shutil
import sys
import tempfile
import time
from pathlib import Path

ROOT = Path(__file__).resolve().parents[1]
sys.path.insert(0, str(ROOT / "python"))

from bukzarn import watchtool  # noqa: E402 (the path is set here)

STATUSES = (0, 1, 2)
LONGEST = 2      # seconds of processor time
KILLED_AFTER = 20
TRACEBACK = 70   # the status of a call that ended with a traceback

SIGNS = ("let", "in", "if", "then", "else", "match", "with", "[", "]", "{", "}", "(", ")", ";", ",", ":", ":=", "=", "==", "<",
         "<=", ">", ">=", "!=", "and", "or", "not", "*", "-x", "7 *", "const A = 5", "5.5", "\x1b[31m", "\u202e", "+", "-", ".", "frame", "object", "as", "keep", "stack", "takedown of", "pointcut", "install advice on", "domain",
         "type", "records", "watches at", "any", "rest", "0x", "99999999999", "1.5", "é", "\x00", "\t", "\ufeff", "\r\n", "#")
MANY = [part * 4_000 for part in ("- ", "not ", "2 * ", "1 > ", "true and ", "(", "{ ", "read ", "((number, ", "x := ", "let x = ", "let x = 1 in ", "(); ", "print ",
                                  "define f (x : number) { ", "if true then ", "9", "abcde")]
NUMBERS = ("0", "1", "9", "15", "255", "4294967295", "4294967296", "-1", "1e3", "", "x", "9" * 5_000, "0,1", "decoder", ",", "²")
FOREIGN = ("\x1b[31m", "\udcff\udcfe", "\u202e", "a\nb", "\x07\x9b", "é", "°" * 300)
ROWS = ("0,0,99999999999", "0,0,-2147483649", "0,15,1", "4294967296,0,1", "0,0,2147483647", "1,0,1\n1,0,1", "1,1,1")
NAMES = ("pressure/10,temperature/10,humidity", "pressure", "pressure,wind/7", "wind", "pressure/0", ",", "pressure,pressure", "")

# The commands that take texts or an image, each with an option; None stands for a value.
OF_FILES = {"asm": ("--keep",), "check": (), "explain": ("--refused", None, None), "picture": (), "need": ("--budget", None),
            "fixed": ("--name",), "strip": ("--keep", None), "rerun": ("--keep", None)}

# How standard output is, now and then.
CLOSED, FULL, ASCII = "closed", "full", "ascii"
OBEYED = frozenset("\x1b\x07\x9b\u202e")


def read_all(*patterns):
    return [file.read_bytes() for pattern in patterns for file in sorted(ROOT.glob(pattern))]


class Seeds:
    """What is damaged: the files of the repository, and reports that its examples would leave."""

    def __init__(self):
        self.texts = read_all("examples/*.proc", "examples/*.watch", "examples/*.rec", "examples/ascent/*.proc")
        self.images = read_all("examples/*.img", "crates/watch/data/*.img")
        self.tables = [table[:6_000] for table in read_all("examples/ascent/*.csv")] + [b"frame,domain,number\n"]
        done = bytes.fromhex("0a004600000007000000" "0800430005000000" "0a004400010004004100" "060045000000")
        self.reports = [done, done * 3, bytes.fromhex("0a004600020007000000"), bytes.fromhex("0a0040000100ffffffff") * 4]


class Case:
    """One call: its files, in a folder of its own, and its words."""

    def __init__(self, seed, number, seeds, folder):
        self.rng, self.seeds, self.folder = random.Random(f"{seed} {number}"), seeds, folder
        self.inputs, self.output = {}, self.rng.choice((CLOSED, FULL, ASCII, *[""] * 27))

    def damaged(self, data):
        """The bytes with up to a few parts changed, lost, doubled or put in; one time in four as they are."""
        rng, made = self.rng, bytearray(data)
        for _ in range(rng.choice((0, 1, 2, 6))):
            start = rng.randrange(len(made) + 1)
            end = min(len(made), start + rng.choice((1, 2, 4, 30, 2_000)))
            put = rng.choice((b"", made[start:end] * 2, rng.randbytes(rng.choice((1, 2, 40))), bytes(end - start), b"\xff\xff"))
            made[start:end] = put
        return bytes(made)

    def reworded(self, data):
        """The text with words lost, doubled, moved or put in."""
        rng, words = self.rng, data.decode().split(" ")
        for _ in range(rng.choice((0, 1, 2, 8))):
            at = rng.randrange(len(words) + 1)
            words[at:at + rng.randint(0, 2)] = rng.choice(
                ([], [rng.choice(words)], [rng.choice(SIGNS)], [rng.choice(SIGNS)], [rng.choice(MANY)], words[at:at + 1] * 2))
            words = words or [""]
        return " ".join(words).encode()

    def file(self, name, data):
        """A file; now and then its name has signs that a terminal would obey, or bytes that are no UTF-8."""
        if self.rng.randrange(20) == 0:
            name = self.rng.choice(FOREIGN)[:60] + name
        (self.folder / name).write_bytes(data)
        self.inputs[name] = data
        return name

    def text(self, name):
        made = self.rng.choice(self.seeds.texts)
        return self.file(name, self.damaged(made) if self.rng.randrange(4) == 0 else self.reworded(made))

    def image(self):
        return self.file("a.img", self.damaged(self.rng.choice(self.seeds.images)))

    def files(self):
        """An image, or a procedure with up to two watches; now and then something else."""
        rng = self.rng
        if rng.randrange(30) == 0:
            return [rng.choice(("missing", ".", "", "a.img", "/dev/null", "p.watch"))]
        if rng.randrange(2):
            return [self.image()]
        return [self.text("p.proc"), *(self.text(f"{n}.watch") for n in range(rng.randrange(3)))]

    def sometimes(self, *words):
        """The words, one time in three; with a value in place of None."""
        if self.rng.randrange(3):
            return []
        return [self.rng.choice(NUMBERS) if word is None else word for word in words]

    def words(self):
        rng = self.rng
        command = rng.choice((*OF_FILES, "asm", "check", "disasm", "report", "table", "plot", "load", "refusals", "odd"))
        if command in OF_FILES:
            words = [command, *self.files(), *self.sometimes(*OF_FILES[command])]
            if command == "rerun":
                frames = self.file("frames", rng.randbytes(rng.choice((0, 12, 24, 25, 4_000))))
                words += self.sometimes("--frames", frames, "--length", rng.choice((*NUMBERS, "12", "12", "1")))
        elif command == "disasm":
            words = [command, self.image(), *self.sometimes("--program")]
        elif command == "report":
            reports = [self.file(name, self.damaged(rng.choice(self.seeds.reports))) for name in ("r", "l")]
            words = [command, *reports[:rng.randint(1, 2)], *self.sometimes("--words")]
        elif command in ("table", "plot"):
            tables = [self.file(f"{n}.csv", self.table()) for n in range(rng.randint(1, 3))]
            words = [command, *tables, *self.sometimes("--columns", rng.choice(NAMES)), *self.sometimes("--cut")]
            words += self.sometimes("--title", rng.choice(FOREIGN)) if command == "plot" else []
        elif command == "load":
            words = [command, rng.choice(NUMBERS), rng.choice(NUMBERS)]
        else:
            first = rng.choice((command, "explain", "outcomes", "asm", "--help", ""))
            words = [first, *rng.sample(("--outcome", "x", "-o", "--", "-", "3"), rng.randrange(3))]
        self.inputs = {name: data for name, data in self.inputs.items() if name in words}
        known = [*self.inputs, "hard"]
        if self.inputs:
            os.link(self.folder / rng.choice(list(self.inputs)), self.folder / "hard")
        own = rng.choice(known) if rng.randrange(3) == 0 else rng.choice(FOREIGN)
        return words + self.sometimes("-o", rng.choice(("out", "no/such/folder/out", "/dev/full", "/dev/null", ".", own)))

    def table(self):
        """A damaged table, or one with rows of numbers that are too large."""
        made = self.damaged(self.rng.choice(self.seeds.tables))
        return made if self.rng.randrange(3) else made + ("\n" + self.rng.choice(ROWS) + "\n").encode()

    def kept(self):
        """Are the inputs what they were?"""
        return all((self.folder / name).read_bytes() == data for name, data in self.inputs.items())


def answered(words):
    """The exit status of a call inside a child."""
    try:
        watchtool.main(words)
        return 0
    except SystemExit as ended:
        if isinstance(ended.code, str):
            print(ended.code, file=sys.stderr)
            return 1
        return ended.code or 0
    except BaseException:  # what a researcher would see as a traceback
        sys.excepthook(*sys.exc_info())
        return TRACEBACK


def outputs(output):
    """Sets standard output and standard error of a child: files, unless standard output is to fail."""
    for n, name in ((1, "/dev/full" if output == FULL else "said"), (2, "told")):
        os.dup2(os.open(name, os.O_WRONLY | os.O_CREAT | os.O_TRUNC), n)
    sys.stdout = open(1, "w", encoding="ascii" if output == ASCII else "utf-8", closefd=False)
    sys.stderr = open(2, "w", encoding="ascii" if output == ASCII else "utf-8", errors="backslashreplace", closefd=False)
    if output == CLOSED:
        os.close(1)
        sys.stdout = None


def call(words, folder, output=""):
    """A call in a child: its exit status, its processor time, and what it said and told."""
    child = os.fork()
    if child == 0:
        os.chdir(folder)
        resource.setrlimit(resource.RLIMIT_CPU, (KILLED_AFTER, KILLED_AFTER))
        outputs(output)
        status = answered(words)
        for stream in (sys.stdout, sys.stderr):
            with contextlib.suppress(OSError, ValueError):
                stream.flush() if stream else None
        os._exit(status)
    _, ended, used = os.wait4(child, 0)
    said = [(folder / name).read_bytes().decode(errors="replace") if (folder / name).exists() else "" for name in ("said", "told")]
    return os.waitstatus_to_exitcode(ended), used.ru_utime + used.ru_stime, *said


def fault(case, status, seconds, said, told):
    """What is wrong with a call, or nothing."""
    if status not in STATUSES or seconds > LONGEST:
        return f"status {status}, {seconds:.1f} s"
    if not case.kept():
        return "an input file was changed"
    if OBEYED & set(told) or (said.isprintable() and OBEYED & set(said)):
        return "a sign that a terminal obeys was shown"
    return ""


def options():
    parser = argparse.ArgumentParser(description=__doc__, formatter_class=argparse.RawDescriptionHelpFormatter)
    parser.add_argument("--seed", type=int, default=1)
    parser.add_argument("--seconds", type=float, default=60)
    parser.add_argument("--first", type=int, default=0)
    parser.add_argument("--cases", type=int, default=1 << 62)
    return parser.parse_args()


def main():
    args = options()
    seeds, counts, wrong, slowest = Seeds(), collections.Counter(), 0, 0
    end, number = time.monotonic() + args.seconds, args.first
    while time.monotonic() < end and number < args.first + args.cases:
        folder = Path(tempfile.mkdtemp(prefix="watchtool-fuzz-"))
        case = Case(args.seed, number, seeds, folder)
        words = case.words()
        status, seconds, said, told = call(words, folder, case.output)
        found = fault(case, status, seconds, said, told)
        if found:
            wrong += 1
            print(f"case {number}: {[w[:60] for w in words]} {case.output}: {found}\n{told[-600:]}")
        counts[words[0], status] += 1
        slowest, number = max(slowest, seconds), number + 1
        shutil.rmtree(folder)
    by_status = ", ".join(f"{sum(n for (_, s), n in counts.items() if s == status)} with {status}" for status in STATUSES)
    print(f"seed {args.seed}: {number - args.first} calls, {by_status}; {wrong} wrong; the slowest took {slowest:.2f} s")
    sys.exit(1 if wrong else 0)


if __name__ == "__main__":
    main()
