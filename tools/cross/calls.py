"""Calls of the library that are compared between processors: for every stored image each function, with long and short memory.

A call is nine words of 32 bits, little-endian: the function (its place in FUNCTIONS), the budget, seed or mask, the depth of a
load, how many answers there are, and the lengths of image, frames, logs, output (reports, needs or an image) and work area; then
the bytes of image and frames. What it leaves is its answers, 8 bytes each, then logs, output and work area, whole, since every
byte that a call may not change counts too. Memory that may be written is filled with FILLER before.

calls.txt has a line for each image, and of what each call left on x86-64 the first digits of the SHA-256 sum, in the order of
`image_calls`; tools/generate/make_calls.py writes it.
"""
import hashlib
import struct
import sys
from dataclasses import dataclass
from pathlib import Path

ROOT = Path(__file__).resolve().parents[2]
RECORDED_CALLS = Path(__file__).with_name("calls.txt")
sys.path.insert(0, str(ROOT / "python"))

from bukzarn import _library  # noqa: E402 (the path is set here)

FUNCTIONS = ("run", "run_frames", "validate", "need", "fixed", "load", "strip")
FILLER = 0xA5
DIGITS = 12
FRAME = bytes(range(256))
WORK, REPORT = _library.WORK_LENGTH, _library.REPORT_LENGTH


@dataclass(frozen=True)
class Call:
    """A call: its function, its numbers, what it reads, and the lengths of what it may write."""
    function: str
    image: bytes = b""
    frames: bytes = b""
    number: int = 0
    depth: int = 0
    count: int = 1
    log: int = 0
    output: int = 0
    work: int = 0

    def packed(self):
        words = (FUNCTIONS.index(self.function), self.number, self.depth, self.count, len(self.image), len(self.frames), self.log,
                 self.output, self.work)
        return struct.pack("<9I", *words) + self.image + self.frames

    @property
    def output_length(self):
        """How many bytes it leaves."""
        return 8 * self.count + self.log + self.output + self.work


def image_calls(image):
    """The calls of an image, by their names: with room for everything and with a byte more, and cut short at the budget, at the
    log, at the frame's end, or refused."""
    cut = {"budget": Call("run", image, FRAME[:3], 7, log=25, output=REPORT + 1, work=WORK + 1),
           "frames": Call("run_frames", image, FRAME[:49], 3_000, count=3, log=151, output=3 * REPORT + 2, work=WORK),
           "short": Call("run", image, FRAME, 100_000, log=100, output=REPORT, work=WORK - 1)}
    return {"run": Call("run", image, FRAME, 100_000, log=16_384, output=REPORT, work=WORK), **cut,
            "validate": Call("validate", image, output=REPORT - 1, work=WORK),
            "need": Call("need", image, output=4 * _library.NEEDS + 4),
            "fixed": Call("fixed", image, output=len(image) + 1),
            "strip": Call("strip", image, number=1, output=len(image)),
            "strip-none": Call("strip", image, number=2, output=len(image))}


def load_calls():
    """Loads of some seeds at every depth, two of them refused."""
    return {f"load {seed} {depth}": Call("load", number=seed, depth=depth, output=16_384)
            for seed in (0, 155_840_010, 4_294_967_295) for depth in range(11)}


def recording_calls():
    """The ascent's images over the first frames of its recording."""
    frames = (ROOT / "examples/ascent/ascent.frames").read_bytes()[:64 * 12]
    images = {name: (ROOT / f"examples/ascent/{name}.img").read_bytes() for name in ("plain", "watched")}
    return {f"ascent {name}": Call("run_frames", image, frames, 100_000, count=64, log=64 * 200, output=64 * REPORT, work=WORK)
            for name, image in images.items()}


def stored_images():
    """Every stored image of the repository by its name: those that the gate runs, and the examples."""
    files = sorted([*ROOT.glob("crates/watch/data/*.img"), *ROOT.glob("examples/*.img"), *ROOT.glob("examples/ascent/*.img")])
    return {str(file.relative_to(ROOT)): file.read_bytes() for file in files}


def call_groups():
    """All calls by their names, in groups, each of which is a line of calls.txt."""
    of_images = {name: image_calls(image) for name, image in stored_images().items()}
    return {**of_images, "loads": load_calls(), "recordings": recording_calls()}


def all_calls():
    """All calls by the names of their groups and their own."""
    return {f"{group} {word}": call for group, calls in call_groups().items() for word, call in calls.items()}


def call_native(call):
    """What a call leaves on this machine, by the shared library of the package for Python."""
    import ctypes
    parts = {n: ctypes.create_string_buffer(bytes([FILLER]) * length, max(1, length))
             for n, length in (("log", call.log), ("output", call.output), ("work", call.work), ("answers", 8 * call.count))}
    image, frames = (call.image, len(call.image)), (call.frames, len(call.frames))
    log, output, work = ((parts[n], length) for n, length in (("log", call.log), ("output", call.output), ("work", call.work)))
    words = {"run": (*image, *frames, call.number, *log, *output, *work),
             "run_frames": (*image, *frames, call.number, *log, *output, parts["answers"], call.count, *work),
             "validate": (*image, call.work, call.output), "need": (*image, parts["output"], call.output // 4),
             "fixed": (*image, *output), "load": (call.number, call.depth, *output), "strip": (*image, call.number, *output)}
    answer = getattr(_library.library, call.function)(*words[call.function])
    answers = parts["answers"].raw if answer is None else struct.pack("<Q", answer)
    return answers + b"".join(part.raw[:length] for part, length in (log, output, work))


def digest(left):
    """The first digits of a sum over what a call left."""
    return hashlib.sha256(left).hexdigest()[:DIGITS]


def read_recorded_calls():
    """The digits of each call, by its name."""
    lines = dict(line.split(": ") for line in RECORDED_CALLS.read_text().splitlines() if not line.startswith("#"))
    return {f"{group} {word}": digits for group, calls in call_groups().items()
            for word, digits in zip(calls, lines.get(group, "").split(), strict=True)}


def split_output(calls, data):
    """What each call left, from what a program wrote of all of them."""
    found, at = {}, 0
    for name, call in calls.items():
        found[name] = data[at:at + call.output_length]
        at += call.output_length
    if at != len(data):
        raise ValueError(f"{at} bytes were expected, and {len(data)} came")
    return found
