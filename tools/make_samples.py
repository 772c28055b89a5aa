#!/usr/bin/env python3
"""Makes the sample frames from the format in docs/FORMATS.md, independently of the library, wherever they are kept.

Run from the top of the repository: python3 tools/make_samples.py
"""
import struct
from pathlib import Path

MOST = 2147483647
TOP = Path(__file__).resolve().parent.parent
SAMPLES = TOP / "samples"
# where the gate's programs read them
REPLAYED = TOP / "crates" / "replayrun" / "data" / "samples"
PLANNED = [TOP / "crates" / name / "data" / "samples" for name in ("furqyzet", "cyclesrun")]

FREE, STRAIGHT, BEND, FIXED = range(4)


def clause(kind, first=0, second=0):
    """A kind and its two numbers as 8 bytes: floats for a straight and a bend, whole numbers else."""
    if kind == STRAIGHT:
        return kind, struct.pack(">fI", first, second)
    if kind == BEND:
        return kind, struct.pack(">ff", first, second)
    return kind, struct.pack(">II", first, second)


def sample(cap, class_cap=7, class_floor=0, speed_floor=0, q=0):
    kind, numbers = cap
    return bytes([kind, class_cap, class_floor, 0]) + numbers + struct.pack(">Ii", speed_floor, q)


def gap(rise=7, fall=7, up=MOST, down=MOST):
    return bytes([rise, fall, 0, 0]) + struct.pack(">II", up, down)


def row(at, d, c, g, lo, hi):
    return struct.pack(">HHiiiii", at, 0, d, c, g, lo, hi)


def frame(samples, gaps, rows=(), h=1, a=0):
    body = struct.pack(">HHIH", len(samples), h, a, len(rows))
    body += b"".join(samples) + b"".join(gaps) + b"".join(rows)
    return b"\x01" + struct.pack(">I", len(body)) + body


def changed(data, at, value):
    return data[:at] + bytes([value]) + data[at + 1:]


def main():
    five = frame(
        [sample(clause(FIXED if i in (0, 4) else FREE), class_cap, q=0 if i in (0, 4) else 4000)
         for i, class_cap in enumerate((1, 7, 2, 7, 1))],
        [gap(1, 1, 10000, 10000)] * 4)
    three = frame(
        [sample(clause(FIXED, cap), q=MOST if i == 1 else 0) for i, cap in enumerate((0, 9, 9))],
        [gap(7, 7, 1, MOST)] * 2)
    bends = frame(
        [sample(clause(STRAIGHT, 0.25)), sample(clause(BEND, 1.0, 3.0)), sample(clause(BEND, 182.0, -0.0)),
         sample(clause(STRAIGHT, -0.0), class_floor=1, speed_floor=0), sample(clause(STRAIGHT, 181.0))],
        [gap(2, 3, 5000, 7000)] * 4, h=20, a=131072)
    torque = frame(
        [sample(clause(FIXED, 1000), q=0 if i in (0, 3) else -5) for i in range(4)],
        [gap(7, 7, 400, 500)] * 3,
        [row(0, 3, 1, 1, -3, 4), row(0, -7, 2, 0, -100, 100), row(2, 16777216, 0, -16777216, -16777216, 16777216)])
    # the ramp allows sample 1 at most 100 above sample 0, and its floor asks for 500
    steep = frame([sample(clause(FIXED, 0)), sample(clause(FREE), speed_floor=500, q=MOST), sample(clause(FREE))],
                  [gap(up=100), gap()])
    # class 1 grants 4096, and the speed floor of sample 2 asks for 5000
    slow_class = frame([sample(clause(FREE), 2), sample(clause(FREE), 1, q=MOST), sample(clause(FREE), 7, speed_floor=5000)],
                       [gap(1, 1), gap(0, 7)])
    # the speed floor of sample 1 lies above its cap
    low_cap = frame([sample(clause(FREE)), sample(clause(FIXED, 9), speed_floor=10)], [gap()])
    files = {
        "five.path": five,
        "three.path": three,
        "bends.path": bends,
        "torque.path": torque,
        "damaged.path": five[:40],
        "bad-sample.path": changed(five, 15 + 20 * 2 + 1, 8),
        "bad-gap.path": changed(five, 15 + 20 * 5 + 12 * 3 + 3, 1),
        "bad-torque.path": changed(torque, 15 + 20 * 4 + 12 * 3 + 24 * 2 + 1, 9),
        "steep.path": steep,
        "slow-class.path": slow_class,
        "low-cap.path": low_cap,
    }
    for folder in (SAMPLES, REPLAYED, *PLANNED):
        folder.mkdir(parents=True, exist_ok=True)
        for name, data in (files if folder in (SAMPLES, REPLAYED) else {"five.path": five}).items():
            (folder / name).write_bytes(data)
            print(f"{(folder / name).relative_to(TOP)}: {len(data)} bytes")


if __name__ == "__main__":
    main()
