#!/usr/bin/env python3
"""Calls `bukzarn` again and again with damaged images, recordings and texts and with random options.

    cli/tests/fuzz.py [--seed N] [--seconds S] [--command FILE]

Every call must end by itself, with one of the five exit statuses, or by the signal that it was sent, without a panic or a
traceback; a verdict must be that of the tool's own check (python/bukzarn/lang/gate.py). Inputs stay as they are, whatever
the outputs name, also where they are hard links or standard input; no file is left beside; nothing is shown that a terminal
would obey. Counts the calls by command and status. The same seed makes the
same calls, as far as the time goes. A call that fails is printed with its folder, which is kept.
"""
import argparse
import collections
import contextlib
import os
import random
import shutil
import signal
import subprocess
import sys
import tempfile
import time
from pathlib import Path

ROOT = Path(__file__).resolve().parents[2]
sys.path.insert(0, str(ROOT / "python"))
sys.setrecursionlimit(50_000)

from bukzarn.lang.gate import verdict  # noqa: E402

STATUSES = range(5)
SIGNALS = (-signal.SIGHUP, -signal.SIGINT, -signal.SIGTERM)
LONGEST_CALL = 60  # seconds
WRONG = (b"panicked", b"Traceback")
TEXTS_IN = 40  # one call in so many is about a text: starting Python takes long

COMMANDS = {
    "run": ("--budget", "--log", "--out", "--report", "--log-file", "--name", "--cells", "--totals"),
    "check": ("--name",),
    "need": ("--out", "--budget", "--log"),
    "fixed": ("-o", "--name of it"),
    "strip": ("--keep", "-o"),
    "load": ("-o",),
}
# What each option takes: values that make sense, and others.
NUMBERS = ("0", "1", "9", "10", "12", "255", "100000", "4294967295"), ("4294967296", "-1", "+1", "1e3", "", "x", "9" * 20)
INPUTS = ("recording", "image", "/dev/null", "-"), ("made", "-", ".", "missing", "no/such/folder/file", "", b"\xff\xfe\x1b[31m")
OUTPUTS = (("made", "made2", "/dev/null", "/dev/full", "./made", "dangling"),
           ("image", "recording", "hard", "soft", "-", ".", "no/such/folder/file", "", b"\xff", "\x1b[31m", "/dev/stdin"))
VALUES = {
    "--frame": INPUTS, "--frames": INPUTS, "--length": (("1", "12", "12", "256", "5000"), NUMBERS[1]),
    "--budget": NUMBERS, "--log": NUMBERS, "-o": OUTPUTS, "--report": OUTPUTS, "--log-file": OUTPUTS,
    "--out": (("listing", "table", "csv", "json"), ("xml", "")),
    "--keep": (("0", "0,1", "0x3", "0x1"), ("1", "0,0", "0xffff", "0x", "15", "16", ",", "decoder", "")),
}
SENSE_IN = 20  # of so many values all but one make sense
VALUES["--name"] = ("0123456789abcdef", "0" * 64), ("", "x", "0123", "0" * 65, b"\xff" * 16)
FLAGS = ("--cells", "--totals", "--name of it")
REDIRECTED = ("< recording", "< image", ">&-", "2>&-", "> /dev/full", "<&-", *[""] * 24)
KILLED_IN = 25  # one call in so many is sent a signal while it runs
OBEYED = (b"\x1b", b"\x07", b"\x9b")


class Case:
    """Damaged files in a folder, and the words of one call."""

    def __init__(self, rng, folder, seeds):
        self.rng, self.folder, self.seeds = rng, folder, seeds

    def damaged(self, data, most=8):
        """Bytes changed, cut out, doubled or put in; sometimes none."""
        data, rng = bytearray(data), self.rng
        for _ in range(rng.choice((0, 0, 0, 1, 1, 2, most))):
            at = rng.randrange(len(data) + 1)
            kind = rng.randrange(5)
            if kind == 0 and at < len(data):
                data[at] ^= 1 << rng.randrange(8)
            elif kind == 1 and at < len(data):
                data[at] = rng.choice((0, 1, 2, 4, 255, rng.randrange(256)))
            elif kind == 2:
                del data[at:at + rng.choice((1, 2, 10, 10_000))]
            elif kind == 3:
                data[at:at] = data[at:at + rng.choice((2, 10, 40))]
            else:
                data[at:at] = rng.randbytes(rng.choice((1, 2, 4, 300)))
        return bytes(data)

    def damaged_text(self, text):
        """Words left out, doubled, or taken from elsewhere."""
        words, rng = text.split(" "), self.rng
        for _ in range(rng.randint(0, 3)):
            at = rng.randrange(len(words))
            words[at:at + rng.randint(0, 1)] = rng.choice(([], [rng.choice(words)], [words[at]] * 2))
        return " ".join(words).encode()

    def write(self):
        """The files, and the image that is named."""
        image = self.damaged(self.rng.choice(self.seeds["images"]))
        (self.folder / "image").write_bytes(image)
        (self.folder / "recording").write_bytes(self.damaged(self.rng.choice(self.seeds["recordings"])))
        for name in ("made", "made2", "hard", "soft", "dangling", "\x1b[31m", b"\xff".decode("utf-8", "surrogateescape")):
            (self.folder / name).unlink(missing_ok=True)
        for left in self.folder.glob(".bukzarn*"):  # of a call that was ended by a signal
            left.unlink()
        os.link(self.folder / self.rng.choice(("image", "recording")), self.folder / "hard")
        (self.folder / "soft").symlink_to("recording")
        (self.folder / "dangling").symlink_to("made")
        self.inputs = {name: (self.folder / name).read_bytes() for name in ("image", "recording")}
        return image

    def kept(self, words, redirected):
        """Is what the words read what it was, and is nothing left beside?"""
        read = {words[1], *(value for option, value in zip(words, words[1:]) if option in ("--frame", "--frames"))}
        read |= {redirected[2:]} if "-" in read else set()
        same = all((self.folder / name).read_bytes() == self.inputs[name] for name in read & set(self.inputs))
        return same and not any(file.name.startswith(".bukzarn") for file in self.folder.iterdir())

    def texts(self):
        procedure, watches = self.rng.choice(self.seeds["texts"])
        files = []
        for n, text in enumerate((procedure, *watches)):
            files.append("text.proc" if n == 0 else f"text{n}.watch")
            (self.folder / files[-1]).write_bytes(self.damaged_text(text))
        return files

    def value(self, option):
        sense, others = VALUES[option]
        return self.rng.choice(sense if self.rng.randrange(SENSE_IN) else others)

    def files(self, command):
        rng = self.rng
        if command == "load":
            return [rng.choice(NUMBERS[0]), rng.choice(("1", "3", "5", "8", "9", "0", "10", "x"))]
        if rng.randrange(TEXTS_IN) == 0:
            return self.texts()
        return ["image" if rng.randrange(20) else rng.choice(INPUTS[1])]

    def words(self, command):
        """Mostly sense: the right count of files, options of the command."""
        rng, options = self.rng, []
        files, own = self.files(command), COMMANDS[command]
        names = rng.sample(own, rng.randrange(min(3, len(own)) + 1))
        if command == "run":
            names += rng.choice(([], ["--frame"], ["--frames", "--length"], ["--frames", "--length"], ["--length"]))
        for option in names:
            options += [option.split()[0]] if option in FLAGS else [option, self.value(option)]
        if rng.randrange(30) == 0:
            odd = rng.choice(("--help", "--", "-", "--fast", "--=", "-x", b"--\xff=1"))
            options.insert(rng.randrange(len(options) + 1), odd)
        return [command, *files, *options]


def seeds():
    examples = ROOT / "examples"
    images = [file.read_bytes() for file in sorted((*examples.glob("*.img"), *examples.glob("ascent/*.img")))]
    procedure = (examples / "sonde.proc").read_text()
    texts = [(procedure, [(examples / f"{name}.watch").read_text()]) for name in ("count", "trace", "alter", "three")]
    texts += [(file.read_text(), []) for file in sorted(examples.glob("*.proc"))]
    recordings = [(examples / "ascent/ascent.frames").read_bytes(), bytes(range(256)) * 8, b"", b"\0" * 100]
    return {"images": images, "texts": texts, "recordings": recordings}


def call(program, given, folder, rng, redirected):
    """The call's status and what it said; a reader who goes away at once is one of the cases."""
    pipe = subprocess.PIPE
    words = ["bash", "-c", f'exec "$0" "$@" {redirected}', program, *given] if redirected else [program, *given]
    child = subprocess.Popen(words, cwd=folder, stdin=pipe, stdout=pipe, stderr=pipe)
    if rng.randrange(25) == 0:
        child.stdout.close()
        child.stdout = None
    if rng.randrange(KILLED_IN) == 0:
        with contextlib.suppress(BrokenPipeError):
            os.write(child.stdin.fileno(), rng.randbytes(rng.choice((0, 12, 30))))
        time.sleep(rng.choice((0, 0.002, 0.02)))
        child.send_signal(rng.choice((signal.SIGINT, signal.SIGTERM, signal.SIGHUP)))
    try:
        out, error = child.communicate(rng.choice((b"", b"\n", rng.randbytes(40))), timeout=LONGEST_CALL)
    except subprocess.TimeoutExpired:
        child.kill()
        child.communicate()
        return None, b"", b""
    return child.returncode, out or b"", error


def fault(words, image, status, out, error, kept):
    """What is wrong with a call, or nothing."""
    if status is None:
        return f"did not end within {LONGEST_CALL} seconds"
    if status not in (*STATUSES, *SIGNALS) or any(word in error for word in WRONG):
        return f"ended with {status}: {error.decode(errors='replace')[-400:]}"
    if not kept:
        return "an input was changed, or a file left beside"
    if any(sign in error for sign in OBEYED):
        return f"showed a sign that a terminal obeys: {error!r}"
    if words == ["check", "image"] and out and status in (0, 1):
        refused = verdict(image)
        wanted = f"refused {refused.number} {refused.place}\n" if refused else "accepted\n"
        if out.decode() != wanted:
            return f"said {out!r}, not {wanted!r}"
    return None


def main():
    parser = argparse.ArgumentParser(description=__doc__, formatter_class=argparse.RawDescriptionHelpFormatter)
    parser.add_argument("--seed", type=int, default=1)
    parser.add_argument("--seconds", type=float, default=60)
    parser.add_argument("--command", type=os.path.abspath, default=str(ROOT / "target/bin/bukzarn"))
    args = parser.parse_args()
    rng, counts, known = random.Random(args.seed), collections.Counter(), seeds()
    folder = Path(tempfile.mkdtemp(prefix="bukzarn-fuzz-"))
    case, end = Case(rng, folder, known), time.monotonic() + args.seconds
    while time.monotonic() < end:
        image = case.write()
        words = case.words(rng.choice(list(COMMANDS)))
        redirected = rng.choice(REDIRECTED)
        status, out, error = call(args.command, words, folder, rng, redirected)
        wrong = fault(words, image, status, out, error, status in SIGNALS or case.kept(words, redirected))
        if wrong:
            sys.exit(f"call {sum(counts.values())} in {folder}: {words}\n{wrong}")
        counts[words[0], max(status, -1)] += 1
    shutil.rmtree(folder)
    print(f"seed {args.seed}: {sum(counts.values())} calls, none crashed, hung or panicked")
    for name in COMMANDS:
        print(f"{name:6}", *(f"{status}: {counts[name, status]:6}" for status in STATUSES), sep="  ")


if __name__ == "__main__":
    main()
