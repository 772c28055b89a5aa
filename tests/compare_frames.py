#!/usr/bin/env python3
"""Compares the program's reader with one written here from docs/FORMATS.md and docs/QUESTIONS.md, on many damaged frames.

Run from the top of the repository after ./furqyzet was built: python3 tests/compare_frames.py [COUNT] [SEED]
"""
import random
import struct
import subprocess
import sys
import tempfile
from pathlib import Path

TOP = Path(__file__).resolve().parent.parent
PROGRAM = TOP / "crates" / "furqyzet" / "out" / "furqyzet"
MOST = 2147483647
LARGE = 16777216


def word(data, at):
    return int.from_bytes(data[at:at + 4], "big")


def half(data, at):
    return int.from_bytes(data[at:at + 2], "big")


def signed(data, at):
    return int.from_bytes(data[at:at + 4], "big", signed=True)


def finite(bits):
    return bits % 2**31 < 0x7F800000


def clause_fault(kind, first, second):
    """0 where both numbers fit, else the offset of the first that does not."""
    if kind in (1, 2):
        if not finite(first) or first > 2**31:
            return 4
        if kind == 1:
            return 8 if second else 0
        return 0 if finite(second) else 8
    if kind == 3:
        return 4 if first > MOST else 8 if second else 0
    return 4 if first else 8 if second else 0


def sample_fault(data, at, end):
    kind, cap, floor, zero = data[at:at + 4]
    if kind > 3:
        return 20, at
    if zero:
        return 21, at + 3
    if cap > 7:
        return 22, at + 1
    if floor > 7:
        return 22, at + 2
    wrong = clause_fault(kind, word(data, at + 4), word(data, at + 8))
    if wrong:
        return 23, at + wrong
    if word(data, at + 12) > MOST:
        return 24, at + 12
    if end and word(data, at + 16):
        return 25, at + 16
    return None


def gap_fault(data, at):
    if data[at] > 7:
        return 30, at
    if data[at + 1] > 7:
        return 30, at + 1
    if half(data, at + 2):
        return 31, at + 2
    if word(data, at + 4) > MOST:
        return 32, at + 4
    if word(data, at + 8) > MOST:
        return 32, at + 8
    return None


def row_fault(data, at, n, h, before):
    if half(data, at) > n - 2:
        return 40, at
    if half(data, at + 2):
        return 41, at + 2
    if half(data, at) < before:
        return 42, at
    for k in range(5):
        if abs(signed(data, at + 4 + 4 * k)) > LARGE:
            return 43, at + 4 + 4 * k
    d, c, _, lo, hi = (signed(data, at + 4 + 4 * k) for k in range(5))
    if lo > hi:
        return 44, at + 16
    if d == 0:
        return 45, at + 4
    e = d - 2 * h * c
    if e == 0 or (e < 0) != (d < 0) or abs(e) > LARGE:
        return 46, at + 4
    return None


def refusal(data):
    """The layer, number and place of the refusal, or None."""
    if len(data) < 5:
        return "frame", 10, 0
    if data[0] != 1:
        return "frame", 11, 0
    if word(data, 1) != len(data) - 5:
        return "frame", 12, 1
    if word(data, 1) < 10:
        return "frame", 13, 1
    n, h, a, t = struct.unpack(">HHIH", data[5:15])
    if not 2 <= n <= 4096:
        return "frame", 14, 5
    if h < 1:
        return "frame", 15, 7
    if a > MOST:
        return "frame", 16, 9
    if t > 8192:
        return "frame", 17, 13
    if word(data, 1) != 10 + 20 * n + 12 * (n - 1) + 24 * t:
        return "frame", 18, 1
    for i in range(n):
        fault = sample_fault(data, 15 + 20 * i, i in (0, n - 1))
        if fault:
            return "sample", *fault
    for i in range(n - 1):
        fault = gap_fault(data, 15 + 20 * n + 12 * i)
        if fault:
            return "gap", *fault
    start, before = 15 + 20 * n + 12 * (n - 1), 0
    for k in range(t):
        at = start + 24 * k
        fault = row_fault(data, at, n, h, before)
        if fault:
            return "torque", *fault
        before = half(data, at)
    return None


def answer(data, memory):
    fault = refusal(data)
    if fault:
        return "refuse %s %d %d" % fault
    if memory < len(data):
        return "refuse - 72 0"
    return "written %d %s" % (len(data), (data + b"\xa5" * (memory - len(data))).hex())


def some_float(rng):
    return rng.choice([0, 0x80000000, 1, 0x3E800000, 0x3DCCCCCD, 0x43350000, 0x43360000, 0x7F7FFFFF, 0x7F800000,
                       0xFF800000, 0x7FC00000, 0x80000001, rng.getrandbits(32)])


def legal(rng):
    n, t, h = rng.randint(2, 6), rng.randint(0, 4), rng.choice([1, 2, 65535])
    body = struct.pack(">HHIH", n, h, rng.choice([0, 1, MOST]), t)
    for i in range(n):
        kind = rng.randrange(4)
        first = second = 0
        if kind in (1, 2):
            first = some_float(rng) & 0x7FFFFFFF
            second = some_float(rng) if kind == 2 else 0
        elif kind == 3:
            first = rng.choice([0, 9, MOST])
        q = 0 if i in (0, n - 1) else rng.choice([0, 5, -5, MOST, -MOST - 1])
        body += bytes([kind, rng.randrange(8), rng.randrange(8), 0]) + struct.pack(">IIIi", first, second, rng.choice([0, MOST]), q)
    for _ in range(n - 1):
        body += bytes([rng.randrange(8), rng.randrange(8), 0, 0]) + struct.pack(">II", rng.choice([0, 7, MOST]), rng.choice([0, 7, MOST]))
    at = 0
    for _ in range(t):
        at = rng.randint(at, n - 2)
        d = rng.choice([1, -1, 3, LARGE, -LARGE, rng.randint(-LARGE, LARGE)])
        c = rng.choice([0, 0, -1 if d > 0 else 1, rng.randint(-3, 3)])
        lo = rng.randint(-100, 0)
        body += struct.pack(">HHiiiii", at, 0, d, c, rng.choice([0, LARGE, -LARGE]), lo, rng.randint(lo, 100))
    return b"\x01" + struct.pack(">I", len(body)) + body


def damaged(rng, data):
    data = bytearray(data)
    for _ in range(rng.choice([0, 0, 1, 1, 1, 2, 3])):
        if data:
            data[rng.randrange(len(data))] = rng.choice([0, 1, 2, 7, 8, 127, 128, 255, rng.randrange(256)])
    if rng.random() < 0.05:
        data = data[:rng.randrange(len(data) + 1)]
    return bytes(data)


def main():
    count = int(sys.argv[1]) if len(sys.argv) > 1 else 2000
    rng = random.Random(int(sys.argv[2]) if len(sys.argv) > 2 else 1)
    with tempfile.TemporaryDirectory() as folder:
        script, wanted = [], []
        for k in range(count):
            data = damaged(rng, legal(rng))
            Path(folder, f"{k}.path").write_bytes(data)
            memory = max(0, len(data) + rng.choice([-1, 0, 0, 3]))
            script += [f"frame {k}.path", f"write-path {memory}"]
            wanted += ["ok", answer(data, memory)]
        Path(folder, "script").write_text("\n".join(script) + "\n")
        run = subprocess.run([PROGRAM, "replay", "script"], cwd=folder, capture_output=True, text=True)
        got = run.stdout.splitlines()
        wrong = [(s, w, g) for s, w, g in zip(script, wanted, got) if w != g]
        numbers = sorted({w.split()[2] for w in wanted if w.startswith("refuse")})
        print(f"{count} frames, refusals seen: {' '.join(numbers)}, {len(wrong)} differ, status {run.returncode}")
        for row in wrong[:5]:
            print(*row, sep="\n  ")
        sys.exit(1 if wrong or len(got) != len(wanted) or run.returncode else 0)


if __name__ == "__main__":
    main()
