#!/usr/bin/env python3
"""Holds what a job ends with against the law itself: of a small path, cut and lifted, every pair of a class and a speed profile
is tried, and those that keep everything in force say whether the job must settle, and on what.

Run from the top of the repository after ./furqyzet was built: python3 tests/every_pair.py [COUNT] [SEED]
"""
import random
import struct
import subprocess
import sys
import tempfile
from collections import namedtuple
from itertools import product
from pathlib import Path

from compare_frames import MOST, PROGRAM

TABLE = [0, 4096, 16384, 65536, 147456, 262144, 1048576, MOST]
FIXED = 3
ENOUGH = 10**6  # evaluations

# bounds: for classes and for squared speeds, a floor and a cap for each sample
Small = namedtuple("Small", "h bounds q gaps rows")
CLASSES, SPEEDS = 0, 1


def small_rows(rng, h, n):
    """Some sound torque rows, by gap."""
    drawn = [(rng.randrange(n - 1), rng.choice([-4, -3, -2, -1, 1, 2, 3, 4]), rng.randint(-2, 2), rng.randint(-3, 3),
              *sorted((rng.randint(-8, 12), rng.randint(-8, 12)))) for _ in range(rng.choice([0, 0, 1, 3]))]
    return sorted((row for row in drawn if row[1] * (row[1] - 2 * h * row[2]) > 0), key=lambda row: row[0])


def small_path(rng):
    n, h = rng.choice([2, 3, 3, 4]), rng.choice([1, 2, 3])
    classes = [(rng.choice([0, 0, 0, 1]), rng.choice([0, 1, 2, 3, 7])) for _ in range(n)]
    speeds = [(rng.choice([0, 0, 0, 1, 2]), rng.randint(0, 7 if n < 4 else 5)) for _ in range(n)]
    q = [0, *(rng.randint(-4, 6) for _ in range(n - 2)), 0]
    gaps = [(rng.choice([0, 1, 2, 7]), rng.choice([0, 1, 2, 7]), rng.randint(0, 4), rng.randint(0, 4)) for _ in range(n - 1)]
    return Small(h, [classes, speeds], q, gaps, small_rows(rng, h, n))


def frame(path):
    body = struct.pack(">HHIH", len(path.q), path.h, 0, len(path.rows))
    for (class_floor, class_cap), (floor, cap), q in zip(*path.bounds, path.q):
        body += struct.pack(">BBBBIIIi", FIXED, class_cap, class_floor, 0, cap, 0, floor, q)
    for rise, fall, up, down in path.gaps:
        body += struct.pack(">BBHII", rise, fall, 0, up, down)
    for gap, *numbers in path.rows:
        body += struct.pack(">HHiiiii", gap, 0, *numbers)
    return struct.pack(">BI", 1, len(body)) + body


def keeps_classes(path, c):
    return all(c[i + 1] <= c[i] + rise and c[i] <= c[i + 1] + fall for i, (rise, fall, _, _) in enumerate(path.gaps))


def holds(h, row, w, after):
    _, d, c, g, lo, hi = row
    return 2 * h * lo <= d * (after - w) + 2 * h * (c * w + g) <= 2 * h * hi


def keeps_speeds(path, w):
    return (all(w[i + 1] <= w[i] + up and w[i] <= w[i + 1] + down for i, (_, _, up, down) in enumerate(path.gaps))
            and all(2 * w[i] <= w[i - 1] + w[i + 1] + path.q[i] for i in range(1, len(w) - 1))
            and all(holds(path.h, row, w[row[0]], w[row[0] + 1]) for row in path.rows))


def greatest(path):
    """The one greatest pair that keeps everything, or None where no pair does."""
    classes, speeds = ([p for p in product(*(range(floor, cap + 1) for floor, cap in bounds)) if keeps(path, p)]
                       for bounds, keeps in zip(path.bounds, (keeps_classes, keeps_speeds)))
    pairs = [(c, w) for c in classes for w in speeds if all(v <= TABLE[k] for v, k in zip(w, c))]
    if not pairs:
        return None
    most = tuple(tuple(max(values) for values in zip(*profiles)) for profiles in zip(*pairs))
    assert most in pairs, "two pairs keep everything, and no pair above both does"
    return most


def change(rng, n):
    """A line of a script: an advance, or a cut or a lift with its sheet, sample and value."""
    if rng.random() < 0.4:
        return f"advance {rng.randint(0, 2 * n + 3)}"
    kind, sheet = rng.choice(["cut", "lift"]), rng.choice([CLASSES, SPEEDS])
    value = rng.randint(0, (3, 5)[sheet] if kind == "cut" else (1, 2)[sheet])
    return f"{('class', 'speed')[sheet]}-{kind} {rng.randrange(n)} {value}"


def in_force(path, lines, answers):
    """The bounds in force after those lines that were not refused."""
    bounds = [list(sheet) for sheet in path.bounds]
    for line, answer in zip(lines, answers):
        verb, *numbers = line.split()
        if verb == "advance" or answer.startswith("refuse"):
            continue
        sheet, (at, value) = verb.startswith("speed"), map(int, numbers)
        floor, cap = bounds[sheet][at]
        bounds[sheet][at] = (floor, min(cap, value)) if verb.endswith("cut") else (max(floor, value), cap)
    return path._replace(bounds=bounds)


def cells(answer):
    """Values and bounds of both sheets, from the answer to `cells`."""
    words = answer.split()
    half = words.index("speeds")
    sheets = [[tuple(map(int, word.split("/"))) for word in part] for part in (words[1:half], words[half + 1:])]
    return tuple(tuple(v for v, _, _ in sheet) for sheet in sheets), [[(floor, cap) for _, cap, floor in sheet] for sheet in sheets]


def wrong_with(path, lines, answers):
    """What the job that made these answers has wrong; nothing where it is as the law says."""
    bounded = in_force(path, lines, answers)
    values, bounds = cells(answers[-1])
    want = greatest(bounded)
    if bounds != bounded.bounds:
        return f"the cells do not hold what is in force: {bounds}, {bounded.bounds}"
    state = answers[-2].split()[0]
    if want is None:
        return None if state == "impossible" else f"{state}, and no pair keeps everything"
    return None if (state, values) == ("settled", want) else f"{state} at {values}, and the greatest pair is {want}"


def main():
    count = int(sys.argv[1]) if len(sys.argv) > 1 else 500
    rng = random.Random(int(sys.argv[2]) if len(sys.argv) > 2 else 1)
    wrong = settled = 0
    with tempfile.TemporaryDirectory() as folder:
        for _ in range(count):
            path = small_path(rng)
            n = len(path.q)
            lines = [change(rng, n) for _ in range(rng.randint(0, 7))] + [f"advance {ENOUGH}"]
            Path(folder, "small.path").write_bytes(frame(path))
            Path(folder, "one.script").write_text("\n".join(["frame small.path", f"make {n} {n}", *lines, "look 0", "cells"]) + "\n")
            run = subprocess.run([PROGRAM, "replay", "one.script"], cwd=folder, capture_output=True, text=True)
            answers = run.stdout.splitlines()[2:]
            fault = wrong_with(path, lines, answers)
            settled += answers[-2].startswith("settled")
            if fault:
                wrong += 1
                print(frame(path).hex(), *lines, fault, sep="\n  ")
    print(f"{count} small paths, {settled} settled, {wrong} differ from what all their pairs say")
    sys.exit(1 if wrong else 0)


if __name__ == "__main__":
    main()
