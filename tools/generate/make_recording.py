#!/usr/bin/env python3
"""Makes examples/ascent/ascent.frames: the recording of an ascent that never was, with noise, gaps and damaged frames.

The sonde climbs 5 metres a second and sends a frame of 12 bytes every 10 seconds:

    byte 0         165
    bytes 1, 2     the frame's number
    bytes 3, 4     pressure, in tenths of a hectopascal
    bytes 5, 6     temperature, in tenths of a degree, signed
    byte 7         humidity, in per cent
    byte 8         battery, in tenths of a volt
    bytes 9, 10    the sum of bytes 0 to 8
    byte 11        0

All 16-bit fields have the highest byte first. Where nothing is received, the receiver writes zeros.

    make_recording.py [FILE] [FRAMES]
"""
import math
import random
import sys
from pathlib import Path

FILE = Path(__file__).resolve().parents[2] / "examples/ascent/ascent.frames"
SEED, FRAMES, LENGTH, SYNC = 1906, 600, 12, 165
METRES_PER_FRAME = 50

# The air: heights in metres with the temperature in degrees, and with the humidity in per cent, straight in between.
TEMPERATURE = ((0, 14.0), (1200, 5.5), (1500, 7.5), (12000, -64.0), (17000, -61.0), (32000, -44.0))
HUMIDITY = ((0, 72), (1400, 88), (1600, 40), (2600, 55), (2900, 98), (4100, 97), (4500, 45), (9000, 60), (12500, 12),
            (32000, 3))

# Frames that are not received, as first and count; one frame in so many is damaged.
GAPS = ((118, 9), (301, 4), (456, 17))
DAMAGED_ONE_IN = 60


def between(points, height):
    """The value at a height on the lines between points."""
    for (h, v), (i, w) in zip(points, points[1:]):
        if height <= i:
            return v + (w - v) * (height - h) / (i - h)
    return points[-1][1]


def noise(rng, width):
    """About normal, and the same on every machine: a sum of evenly spread numbers."""
    return width * (sum(rng.random() for _ in range(12)) - 6)


def pressures(count):
    """The pressure at each frame, in hectopascals, by the weight of the air below."""
    found, p = [], 1008.6
    for n in range(count):
        found.append(p)
        kelvin = between(TEMPERATURE, n * METRES_PER_FRAME) + 273.15
        p *= math.exp(-9.80665 * METRES_PER_FRAME / (287.05 * kelvin))
    return found


def frame(n, pressure, rng):
    """The bytes that the sonde sends."""
    height = n * METRES_PER_FRAME
    tenths = round(10 * (pressure + noise(rng, 0.05)))
    degrees = round(10 * (between(TEMPERATURE, height) + noise(rng, 0.15)))
    humidity = min(100, max(0, round(between(HUMIDITY, height) + noise(rng, 0.8))))
    battery = round(62 - n / 50 + noise(rng, 0.3))
    head = bytes([SYNC]) + n.to_bytes(2, "big") + max(0, tenths).to_bytes(2, "big")
    head += degrees.to_bytes(2, "big", signed=True) + bytes([humidity, battery])
    return head + sum(head).to_bytes(2, "big") + bytes(1)


def damaged(sent, rng):
    """The frame with one to three bytes wrong."""
    made = bytearray(sent)
    for _ in range(rng.randrange(1, 4)):
        made[rng.randrange(LENGTH - 1)] ^= 1 << rng.randrange(8)
    return bytes(made)


def recording(count=FRAMES, seed=SEED):
    """So many frames, as received."""
    rng, frames = random.Random(seed), []
    lost = {n for first, length in GAPS for n in range(first, first + length)}
    for n, pressure in enumerate(pressures(min(count, FRAMES))):
        sent = frame(n, pressure, rng)
        hit = rng.randrange(DAMAGED_ONE_IN) == 0
        frames.append(bytes(LENGTH) if n in lost else damaged(sent, rng) if hit else sent)
    return b"".join(frames[n % len(frames)] for n in range(count))


def main(file=FILE, count=FRAMES):
    Path(file).write_bytes(recording(int(count)))


if __name__ == "__main__":
    main(*sys.argv[1:])
