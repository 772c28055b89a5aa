#!/usr/bin/env python3
"""Compares `furqyzet plan` with the planner of planner_model.py, on many small paths: its cycles, its table with what holds each
sample, and what clashes.

Run from the top of the repository after ./furqyzet was built: python3 tests/compare_plans.py [COUNT] [SEED]
"""
import random
import re
import subprocess
import sys
import tempfile
from pathlib import Path

from compare_frames import PROGRAM
from planner_model import CLASSES, SPEEDS, Job, path

# sample, class, squared speed, m/s, sent, what holds the class, what holds the speed
ROW = r" *(\d+) +(\d+) +(\d+) +[\d.]+ +\d+  (.{13})  (.*)"
LONGEST = 100000  # evaluations; a path that needs more is passed over


# the bounds of a sample in a sentence
SUBJECTS = {"cap": "the cap", "class": "the class table at its class", "ramp before": "the ramp from the sample before",
            "ramp after": "the ramp from the sample after", "average": "the average of its neighbours"}


def sentence(sheet, name, most, floor):
    thing = ("class", "squared speed")[sheet]
    allows = f"allows no {thing} at all" if most < 0 else f"allows a {thing} of at most {most}"
    return f"there {SUBJECTS.get(name, name)} {allows}, and the floor is {floor}"


def wanted(data):
    """The plan by the model: an impossible path's sample and clash, or evaluations, lowerings and table; None where it takes long."""
    job = Job(data)
    counts = (0, 0) if job.is_over() else job.advance(LONGEST)
    if job.state == "impossible":
        return "impossible", job.found, sentence(*job.clash())
    if not job.is_over():
        return None
    rows = [(i, *values, job.held_by(CLASSES, i), job.held_by(SPEEDS, i)) for i, values in enumerate(zip(*job.values))]
    return "settled", job.n, *counts, rows


def matches(pattern, lines):
    """What the pattern marks in every line that begins with it, numbers as such."""
    found = [re.match(pattern, line) for line in lines]
    return [tuple(int(part) if part.isdecimal() else part.strip() for part in match.groups()) for match in found if match]


def printed(out):
    """The same, from the program's lines; the lines themselves where they say neither, or where the cycles don't add up."""
    lines = out.splitlines()
    impossible = matches(r"impossible: .*?sample (\d+)", lines)
    if len(impossible) == 1:
        return "impossible", *impossible[0], lines[-1]
    heads = [k for k, line in enumerate(lines) if line.split()[:1] == ["sample"]]
    totals = matches(r"settled: (\d+) samples?, (\d+) evaluations?, (\d+) lowerings?, (\d+) cycles?", lines)
    if len(heads) != 1 or len(totals) != 1:
        return lines
    samples, evaluations, lowerings, count = totals[0]
    cycles = matches(r"cycle (\d+): \w+, (\d+) evaluations?, (\d+) lowerings?", lines)
    if [cycle for cycle, _, _ in cycles] != list(range(1, count + 1)):
        return lines
    if (sum(e for _, e, _ in cycles), sum(l for _, _, l in cycles)) != (evaluations, lowerings):
        return lines
    return "settled", samples, evaluations, lowerings, matches(ROW, lines[heads[0] + 1:])


def main():
    count = int(sys.argv[1]) if len(sys.argv) > 1 else 500
    rng = random.Random(int(sys.argv[2]) if len(sys.argv) > 2 else 1)
    wrong = settled = planned = 0
    with tempfile.TemporaryDirectory() as folder:
        for _ in range(count):
            data = path(rng)
            want = wanted(data)
            if not want:
                continue
            planned += 1
            settled += want[0] == "settled"
            Path(folder, "one.path").write_bytes(data)
            run = subprocess.run([PROGRAM, "plan", "one.path"], cwd=folder, capture_output=True, text=True)
            got = printed(run.stdout)
            if got != want or run.returncode != (want[0] == "impossible"):
                wrong += 1
                if wrong <= 5:
                    print(data.hex(), f"got {got}, status {run.returncode}", f"wanted {want}", sep="\n  ")
    print(f"{planned} paths planned of {count} drawn (the rest take too long), {settled} settled, {wrong} differ")
    sys.exit(1 if wrong else 0)


if __name__ == "__main__":
    main()
