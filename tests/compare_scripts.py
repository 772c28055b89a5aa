#!/usr/bin/env python3
"""Compares `furqyzet replay` with the planner of planner_model.py, call by call, on many random scripts.

Run from the top of the repository after ./furqyzet was built: python3 tests/compare_scripts.py [--long] [COUNT] [SEED]
With --long the paths have 4096 samples and 8192 torque rows. The scripts are kept where an answer differs.
"""
import copy
import random
import re
import shutil
import subprocess
import sys
import tempfile
from collections import Counter
from pathlib import Path

from compare_frames import PROGRAM, answer as path_answer, damaged, refusal
from planner_model import CLASSES, SPEEDS, TABLE, TOPS, Job, Refused, path

HUGE = 2**64 - 1
PATIENCE = 300
FILLED = b"\xa5"
# the verbs, each with how many words follow it
WORDS = {"frame": 1, "write-path": 1, "make": 2, "advance": 1, "class-cut": 2, "speed-cut": 2, "class-lift": 2, "speed-lift": 2,
         "look": 1, "cells": 0, "release": 0, "setpoints": 1}
STATES = ["none", "classes", "speeds", "settled", "impossible", "released"]
NUMBERS = [50, 51, 60, 61, 62, 70, 71, 72]
CAUSES = ["classes at making", "speeds at making", "classes at a limit", "speeds at a limit", "a pour",
          "a cut of classes", "a cut of speeds", "a lift of classes", "a lift of speeds"]
ON_JOBS = list(WORDS)[3:]
# the calls that end a run: a state and a verb
ENDS = [("none", verb) for verb in ON_JOBS] + [("released", verb) for verb in ON_JOBS[:-1]]
ENDS += [(state, "setpoints") for state in STATES[1:5]]
BROKEN = ["nonsense", "frame", "frame nowhere.path", "make 9", "make 9 9 9", "advance", "advance 18446744073709551616", "advance -1",
          "class-cut 0", "speed-lift 0 x", "look", "look 0 0", "cells 0", "release 0", "setpoints", "Advance 1"]


class Ended(Exception):
    """The run ends at this line."""


class Replay:
    """The calls of a script by the model, one answer to each."""

    def __init__(self, files):
        self.files, self.data, self.job, self.is_released = files, b"", None, False

    def state(self):
        return "none" if self.job is None else "released" if self.is_released else self.job.state

    def answer(self, line):
        verb, *words = line.split()
        if len(words) != WORDS.get(verb):
            raise Ended
        if verb == "frame":
            if words[0] not in self.files:
                raise Ended
            self.data = self.files[words[0]]
            return "ok"
        if not all(word.isdecimal() and int(word) <= HUGE for word in words):
            raise Ended
        if (self.state(), verb) in ENDS:
            raise Ended
        try:
            return getattr(self, verb.replace("-", "_"))(*map(int, words))
        except Refused as refused:
            return f"refuse - {refused.args[0]} 0"

    def found(self):
        return f" {self.job.found}" if self.job.state == "impossible" else ""

    def write_path(self, memory):
        return path_answer(self.data, memory)

    def make(self, class_cells, speed_cells):
        fault = refusal(self.data)
        if fault:
            return "refuse %s %d %d" % fault
        job = Job(self.data)
        for number, cells in ((50, class_cells), (51, speed_cells)):
            if cells < job.n:
                return f"refuse memory {number} 0"
        self.job, self.is_released = job, False
        return f"made {job.state}{self.found()}"

    def advance(self, allowance):
        counts = self.job.advance(allowance)
        return "%s %d %d" % (self.job.state, *counts)

    def done(self, change, sheet, i, value):
        change(sheet, i, value)
        return f"done {self.job.state}"

    def class_cut(self, i, value):
        return self.done(self.job.cut, CLASSES, i, value)

    def speed_cut(self, i, value):
        return self.done(self.job.cut, SPEEDS, i, value)

    def class_lift(self, i, value):
        return self.done(self.job.lift, CLASSES, i, value)

    def speed_lift(self, i, value):
        return self.done(self.job.lift, SPEEDS, i, value)

    def look(self, i):
        if i >= self.job.n:
            raise Refused(60)
        return f"{self.job.state} {self.job.values[CLASSES][i]} {self.job.values[SPEEDS][i]}{self.found()}"

    def cells(self):
        sheets = [" ".join("%d/%d/%d" % cell for cell in zip(self.job.values[s], self.job.caps[s], self.job.floors[s]))
                  for s in (CLASSES, SPEEDS)]
        return "classes %s speeds %s" % tuple(sheets)

    def release(self):
        if self.job.state != "settled":
            raise Refused(70)
        self.is_released = True
        return "released"

    def setpoints(self, memory):
        data = self.job.setpoints()
        if memory < len(data):
            raise Refused(71)
        return f"written {len(data)} {data.ljust(memory, FILLED).hex()}"


class Writer:
    """Draws a script: its lines, with the model's answers."""

    # how often each verb is drawn in each state; a call that would end the run is not drawn here
    CHANGES = {"class-cut": 3, "speed-cut": 4, "class-lift": 2, "speed-lift": 2, "look": 1, "cells": 1, "release": 0.5}
    SELDOM = {"frame": 0.6, "write-path": 0.3, "make": 0.3}
    OFTEN = {
        "none": {"frame": 2, "write-path": 1, "make": 5},
        "classes": SELDOM | CHANGES | {"advance": 12},
        "speeds": SELDOM | CHANGES | {"advance": 6},
        "settled": SELDOM | CHANGES | {"advance": 1, "release": 1.5},
        "impossible": SELDOM | CHANGES | {"advance": 2, "make": 12},
        "released": SELDOM | {"setpoints": 3, "make": 3},
    }

    def __init__(self, rng, files, longest):
        self.rng, self.files = rng, files
        self.longest = longest  # the most evaluations that a call may make
        self.replay = Replay(files)
        self.lines, self.wanted, self.seen = [], [], Counter()
        self.end = None

    def some_sample(self):
        n, i = self.replay.job.n, self.rng.randrange(self.replay.job.n)
        return i if self.rng.random() < 0.9 else self.rng.choice([n, n + 3, 2**16 + i, 2**32 + i, HUGE])

    def some_grade(self, sheet, i, is_cut):
        """A value for a cut or a lift; seldom one that makes the job impossible at once, or one beyond the top."""
        rng, job, top = self.rng, self.replay.job, TOPS[sheet]
        if rng.random() < 0.06:
            return rng.choice([top + 1, top + 9, 2**16 * (top + 1), 2**32 + 1, HUGE])
        if i >= job.n or rng.random() < 0.06:
            return rng.choice([0, 1, top, rng.randint(0, top)])
        value, cap, floor = job.values[sheet][i], job.caps[sheet][i], job.floors[sheet][i]
        if floor > value:
            return value
        if rng.random() < (0.1 if is_cut and floor else 0.03):
            return max(0, floor - 1) if is_cut else min(top, value + 1)
        between = [rng.randint(floor, value), min(max(rng.choice(TABLE), floor), value) if sheet == SPEEDS else value]
        if is_cut:
            return rng.choice(between + [max(floor, value - 1), floor + (value - floor) * 3 // 4, floor, value, cap, min(top, value + 1)])
        return rng.choice(between + [min(floor + 1, value), floor + (value - floor) // 8] * 3 + [value, floor, max(0, floor - 1)])

    def some_allowance(self):
        rng, n, job = self.rng, self.replay.job.n, self.replay.job
        few = rng.choice([0, 1, 1, 1, 2, 3, n - 1, n, n + 1, 2 * n, rng.randint(0, 5 * n)])
        if job.state == "impossible" or rng.random() < 0.75:
            return few
        trial = copy.deepcopy(job)
        trial.advance(self.longest)
        return rng.choice([HUGE, HUGE, 2**32, 2**32 + 1]) if trial.is_over() else few

    def some_memory(self, needed):
        return max(0, needed + self.rng.choice([-1, 0, 0, 0, 3])) if self.rng.random() < 0.95 else 0

    def some_call(self, verb):
        """A line with that verb."""
        rng, job, data = self.rng, self.replay.job, self.replay.data
        if verb == "frame":
            return f"frame {rng.choice(list(self.files))}"
        if verb == "write-path":
            return f"write-path {self.some_memory(len(data))}"
        if verb == "make":
            n = int.from_bytes(data[5:7], "big") if refusal(data) is None else 9
            return f"make {self.some_memory(n)} {self.some_memory(n)}"
        if verb == "advance":
            return f"advance {self.some_allowance() if job else 1}"
        if verb == "setpoints":
            return f"setpoints {self.some_memory(7 + 3 * job.n) if job else 9}"
        if not WORDS[verb]:
            return verb
        i = self.some_sample() if job else 0
        if verb == "look":
            return f"look {i}"
        sheet, is_cut = SPEEDS if verb.startswith("speed") else CLASSES, verb.endswith("cut")
        return f"{verb} {i} {self.some_grade(sheet, i, is_cut) if job else 0}"

    def call(self, line):
        """Adds a line with its answer, and counts what it shows."""
        before, verb = self.replay.state(), line.split()[0]
        self.lines.append(line if self.rng.random() < 0.95 else "\t" + line.replace(" ", "   "))
        try:
            answer = self.replay.answer(line)
        except Ended:
            self.end = len(self.lines)
            self.seen["ends", "a broken line" if line in BROKEN else before] += 1
            if line not in BROKEN:
                self.seen["verb", verb, before, "ends"] += 1
            return
        self.wanted.append(answer)
        after = self.replay.state()
        self.seen["verb", verb, before, "refused" if answer.startswith("refuse") else after] += 1
        if answer.startswith("refuse"):
            self.seen["number", int(answer.split()[2])] += 1
        elif after == "impossible" and (before != after or verb == "make"):
            self.seen["cause", self.replay.job.cause] += 1

    def write(self, count, end):
        """Draws lines up to a count, or to one that ends the run where one is to: in a state, by a verb or a whole line."""
        rng, shown = self.rng, self.rng.choice([0.05, 0.3, 1])
        self.call(self.some_call("frame"))
        while self.end is None and len(self.lines) < (3 * count if end else count):
            state = self.replay.state()
            if end and state == end[0] and rng.random() < 0.2:
                self.call(end[2] or self.some_call(end[1]))
                break
            often = self.OFTEN[state]
            if end and end[0] == state == "none":
                often = often | {"make": 0.5}
            self.call(self.some_call(rng.choices(list(often), often.values())[0]))
            if rng.random() < shown and self.replay.state() not in ("none", "released"):
                self.call("cells")
            if rng.random() < 0.03:
                self.lines.append("")
        if self.end:
            self.lines += ["frame 0.path", "make 9 9", "cells"][:rng.randrange(4)]


def settles(data, longest):
    job = Job(data)
    if not job.is_over():
        job.advance(longest)
    return job.state == "settled"


def some_files(rng, counts, longest):
    """Frames by name: accepted ones, of which the first can be settled in most scripts, and damaged ones."""
    datas = [path(rng, *counts) for _ in range(rng.randint(1, 3))]
    while rng.random() < 0.9 and not settles(datas[0], longest):
        datas[0] = path(rng, *counts)
    datas += [damaged(rng, datas[0]) for _ in range(rng.randint(0, 2))]
    return {f"{k}.path": data for k, data in enumerate(datas)}


def apart(line, want, have):
    """A call and its two answers, in words; long ones from just before the place where they part."""
    place = next((k for k, (a, b) in enumerate(zip(want, have)) if a != b), min(len(want), len(have)))
    start = max(0, place - 80) if place > 200 else 0
    return f"{line.strip()}\n    wanted {want[start:start + 300]}\n    got    {have[start:start + 300]}"


def compare(folder, writer):
    """The differences of one script's run, in words."""
    for name, data in writer.files.items():
        Path(folder, name).write_bytes(data)
    Path(folder, "script").write_text("\n".join(writer.lines) + "\n" * (writer.end is None))
    try:
        run = subprocess.run([PROGRAM, "replay", "script"], cwd=folder, capture_output=True, text=True, timeout=PATIENCE)
    except subprocess.TimeoutExpired:
        return [f"no end within {PATIENCE} seconds"]
    got, calls = run.stdout.splitlines(), [line for line in writer.lines if line]
    wrong = [apart(*answers) for answers in zip(calls, writer.wanted, got) if answers[1] != answers[2]]
    if len(got) != len(writer.wanted):
        wrong.append(f"{len(writer.wanted)} answers wanted, {len(got)} got; {run.stderr.strip()}")
    if run.returncode != (writer.end is not None):
        wrong.append(f"status {run.returncode}, and the run {'ends at line %d' % writer.end if writer.end else 'does not end early'}")
    if writer.end and not re.search(rf"\bline {writer.end}\b", run.stderr):
        wrong.append(f"the run ends at line {writer.end}, and the words say: {run.stderr.strip()}")
    return wrong


def print_seen(seen):
    """What the scripts showed: the states before and after each verb, refusals, causes and ends."""
    for verb in WORDS:
        moves = {key[2:]: count for key, count in seen.items() if key[:2] == ("verb", verb)}
        print(f"  {verb}:", ", ".join(f"{before} > {after} {moves[before, after]}"
                                       for before in STATES for after in STATES + ["refused", "ends"] if (before, after) in moves))
    print("  refusals:", ", ".join(f"{key[1]} {seen[key]}" for key in sorted(k for k in seen if k[0] == "number")))
    print("  impossible by:", ", ".join(f"{cause} {seen['cause', cause]}" for cause in CAUSES))
    print("  early ends on:", ", ".join(f"{key[1]} {count}" for key, count in seen.items() if key[0] == "ends"))


def not_seen(seen):
    calls = {key[1:3] for key in seen if key[0] == "verb"}
    missing = [f"{verb} on {state}" for verb in WORDS for state in STATES if (verb, state) not in calls]
    missing += [str(number) for number in NUMBERS if not seen["number", number]]
    return missing + [cause for cause in CAUSES if not seen["cause", cause]]


def main():
    words = [word for word in sys.argv[1:] if word != "--long"]
    is_long = len(words) < len(sys.argv) - 1
    count = int(words[0]) if words else 5 if is_long else 300
    rng = random.Random(int(words[1]) if len(words) > 1 else 1)
    counts, longest = ((4096, 8192), 1000000) if is_long else ((), 20000)
    seen, calls, differing, wrong = Counter(), 0, 0, 0
    top = Path(tempfile.mkdtemp(prefix="compare_scripts."))
    ends = [(state, verb, None) for state, verb in ENDS] + [(rng.choice(STATES), None, line) for line in BROKEN]
    for k in range(count):
        folder = top / str(k)
        folder.mkdir()
        writer = Writer(rng, some_files(rng, counts, longest), longest)
        writer.write(rng.randint(20, 120), ends[k // 2 % len(ends)] if k % 2 and not is_long else None)
        faults = compare(folder, writer)
        seen.update(writer.seen)
        calls += len(writer.wanted) + (writer.end is not None)
        differing, wrong = differing + bool(faults), wrong + len(faults)
        if faults and differing <= 5:
            print(f"script {folder}/script, {len(faults)} differences:", *faults[:2], sep="\n  ")
        if not faults:
            shutil.rmtree(folder)
    print(f"{count} scripts, {calls} calls, {differing} scripts and {wrong} answers differ")
    print_seen(seen)
    if not is_long:
        print("  not seen:", ", ".join(not_seen(seen)) or "nothing")
    if not wrong:
        top.rmdir()
    sys.exit(1 if wrong else 0)


if __name__ == "__main__":
    main()
