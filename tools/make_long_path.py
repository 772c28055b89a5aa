#!/usr/bin/env python3
"""Writes a path frame of 4096 samples and 8192 torque rows, for measurements.

Run from the top of the repository: python3 tools/make_long_path.py OUT [SEED]
"""
import random
import sys
from pathlib import Path

from make_samples import FIXED, MOST, clause, frame, gap, row, sample

SAMPLES, ROWS = 4096, 8192


def main():
    rng = random.Random(int(sys.argv[2]) if len(sys.argv) > 2 else 1)
    ends = 0, SAMPLES - 1
    samples = [sample(clause(FIXED, 0 if i in ends else rng.randint(0, MOST)), rng.choice((5, 6, 7, 7, 7)),
                      q=0 if i in ends else rng.choice((10, 100, 1000, 4000000))) for i in range(SAMPLES)]
    gaps = [gap(1, 1, rng.randint(1, 100000), rng.randint(1, 100000)) for _ in range(SAMPLES - 1)]
    rows = [row(at, rng.randint(1, 1000), 0, 0, -rng.randint(10**6, 10**7), rng.randint(10**6, 10**7))
            for at in sorted(rng.randrange(SAMPLES - 1) for _ in range(ROWS))]
    Path(sys.argv[1]).write_bytes(frame(samples, gaps, rows))


main()
