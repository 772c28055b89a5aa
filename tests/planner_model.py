"""The planner written a second time, from docs/METHOD.md, docs/LIMITS.md, docs/FORMATS.md and docs/QUESTIONS.md alone, and
random paths to try it on. compare_plans.py and compare_scripts.py hold the program against it.
"""
import struct
from fractions import Fraction
from math import isqrt

from compare_frames import MOST, half, refusal, signed, word

CLASSES, SPEEDS = 0, 1
WORKING = "classes", "speeds"
TOPS = 7, MOST
TABLE = [0, 4096, 16384, 65536, 147456, 262144, 1048576, MOST]


def size(bits):
    """The size of a finite binary32 pattern, exactly."""
    e, f = bits % 2**31 // 2**23, bits % 2**23
    return Fraction((f if e == 0 else 2**23 + f) * 2**max(e - 1, 0), 2**149)


def cap(kind, first, second, a):
    if kind == 0:
        return MOST
    if kind == 3:
        return first
    most = min(MOST, int(size(first) ** 2 * 65536))
    if kind == 2 and size(second):
        most = min(most, int(Fraction(a) / size(second)))
    return most


def row_bounds(data, at, h):
    """A row as D, E and the constants that raise the sample after its gap and the one before it."""
    d, c, g, lo, hi = (signed(data, at + 4 + 4 * k) for k in range(5))
    up, down = 2 * h * (hi - g), 2 * h * (g - lo)
    return abs(d), abs(d - 2 * h * c), *((up, down) if d > 0 else (down, up))


class Refused(Exception):
    """A question of the job that says no; its one argument is the number."""


class Job:
    """The job of an accepted frame: its two sheets, and the sweep at work on one of them."""

    def __init__(self, data):
        n, h, a, t = struct.unpack(">HHIH", data[5:15])
        self.n = n
        at = [15 + 20 * i for i in range(n)]
        self.caps = [[data[o + 1] for o in at], [cap(data[o], word(data, o + 4), word(data, o + 8), a) for o in at]]
        self.floors = [[data[o + 2] for o in at], [word(data, o + 12) for o in at]]
        self.values = [list(caps) for caps in self.caps]
        self.q = [signed(data, o + 16) for o in at]
        gaps = [15 + 20 * n + 12 * i for i in range(n - 1)]
        self.steps = [[(data[o], data[o + 1]) for o in gaps], [(word(data, o + 4), word(data, o + 8)) for o in gaps]]
        self.rows = [[] for _ in gaps]
        start = 15 + 20 * n + 12 * (n - 1)
        for k in range(t):
            o = start + 24 * k
            self.rows[half(data, o)].append((k, *row_bounds(data, o, h)))
        self.found = self.cause = None
        self.begin("classes")
        above = [(sheet, i) for sheet in (CLASSES, SPEEDS) for i in range(n) if self.floors[sheet][i] > self.caps[sheet][i]]
        if above:
            self.stop(above[0][1], f"{WORKING[above[0][0]]} at making")

    def begin(self, state):
        self.state, self.rising, self.marked, self.visited = state, True, False, 0

    def stop(self, i, cause):
        self.state, self.found, self.cause = "impossible", i, cause

    def is_over(self):
        return self.state in ("settled", "impossible")

    def limits(self, sheet, i):
        """What each part of the sheet's limit allows at a sample, with its name."""
        v = self.values[sheet]
        if i > 0:
            yield "ramp before", v[i - 1] + self.steps[sheet][i - 1][0]
        if i + 1 < self.n:
            yield "ramp after", v[i + 1] + self.steps[sheet][i][1]
        if sheet == CLASSES:
            return
        if 0 < i < self.n - 1:
            yield "average", (v[i - 1] + v[i + 1] + self.q[i]) // 2
        if i > 0:
            for k, d, e, up, _ in self.rows[i - 1]:
                yield f"torque row {k}", (e * v[i - 1] + up) // d
        if i + 1 < self.n:
            for k, d, e, _, down in self.rows[i]:
                yield f"torque row {k}", (d * v[i + 1] + down) // e

    def number(self, sheet, i):
        """What the sheet's limit allows at a sample; -1 where nothing fits."""
        return max(-1, min([TOPS[sheet]] + [most for _, most in self.limits(sheet, i)]))

    def bounds(self, sheet, i):
        """Everything that bounds a sample, in the order in which the program names it, with what it allows."""
        yield "cap", self.caps[sheet][i]
        if sheet == SPEEDS:
            yield "class", TABLE[self.values[CLASSES][i]]
        for name, most in self.limits(sheet, i):
            yield name, max(-1, min(TOPS[sheet], most))

    def held_by(self, sheet, i):
        """The first bound that allows just the value."""
        return next(name for name, most in self.bounds(sheet, i) if most == self.values[sheet][i])

    def clash(self):
        """The first bound below the floor, where an impossible job was found so: its sheet, name, what it allows, the floor."""
        i = self.found
        return next((sheet, name, most, self.floors[sheet][i]) for sheet in (CLASSES, SPEEDS) for name, most in self.bounds(sheet, i)
                    if most < self.floors[sheet][i])

    def evaluate(self):
        """Visits the sweep's next sample; whether that lowered it."""
        sheet = WORKING.index(self.state)
        i = self.visited if self.rising else self.n - 1 - self.visited
        number = self.number(sheet, i)
        if number < self.floors[sheet][i]:
            self.stop(i, f"{self.state} at a limit")
            return False
        lowers = number < self.values[sheet][i]
        if lowers:
            self.values[sheet][i] = number
            self.marked = True
        self.visited += 1
        if self.visited == self.n:
            self.end_sweep()
        return lowers

    def end_sweep(self):
        if self.marked:
            self.rising, self.marked, self.visited = not self.rising, False, 0
        elif self.state == "classes":
            self.pour()
        else:
            self.state = "settled"

    def pour(self):
        for i in range(self.n):
            entry = TABLE[self.values[CLASSES][i]]
            if entry < self.floors[SPEEDS][i]:
                self.stop(i, "a pour")
                return
            self.values[SPEEDS][i] = min(self.values[SPEEDS][i], entry)
        self.begin("speeds")

    def advance(self, allowance):
        """The evaluations and lowerings of a call."""
        if self.state == "impossible":
            raise Refused(62)
        evaluations = lowerings = 0
        while evaluations < allowance and not self.is_over():
            lowerings += self.evaluate()
            evaluations += 1
        return evaluations, lowerings

    def ask(self, sheet, i, value):
        if i >= self.n:
            raise Refused(60)
        if value > TOPS[sheet]:
            raise Refused(61)
        if self.state == "impossible":
            raise Refused(62)

    def cut(self, sheet, i, value):
        self.ask(sheet, i, value)
        self.caps[sheet][i] = min(self.caps[sheet][i], value)
        if value >= self.values[sheet][i]:
            return
        if value < self.floors[sheet][i]:
            self.stop(i, f"a cut of {WORKING[sheet]}")
            return
        self.values[sheet][i] = value
        if self.state == WORKING[sheet]:
            self.marked = True
        elif sheet == CLASSES or self.state == "settled":
            self.begin(WORKING[sheet])

    def lift(self, sheet, i, value):
        self.ask(sheet, i, value)
        self.floors[sheet][i] = max(self.floors[sheet][i], value)
        if self.floors[sheet][i] > self.values[sheet][i]:
            self.stop(i, f"a lift of {WORKING[sheet]}")

    def setpoints(self):
        """The setpoint frame."""
        body = struct.pack(">H", self.n) + b"".join(struct.pack(">BH", c, isqrt(w)) for c, w in zip(*self.values))
        return b"\x01" + struct.pack(">I", len(body)) + body


def bits(number):
    """The binary32 pattern of a number."""
    return struct.unpack(">I", struct.pack(">f", number))[0]


def some_sample(rng, tight, floored, harsh, end):
    """A sample; at the given chances with low caps, with floors, and with an offset that standing still breaks."""
    is_low = rng.random() < tight
    kind, first, second = rng.choice([0, 1, 2, 3, 3, 3]), 0, 0
    if kind in (1, 2):
        first = bits(rng.choice([0.0, 0.01, 0.1] if is_low else [0.25, 1.0, 2.0, 200.0]))
    if kind == 2:
        second = bits(rng.choice([0.0, -0.0, 3.0, -0.5]))
    if kind == 3:
        first = rng.randint(0, 300) if is_low else rng.choice([rng.randint(300, 100000), rng.choice(TABLE) + rng.choice([-1, 0]) & MOST])
    class_cap = rng.choice([0, 1, 2, 7] if is_low else [3, 5, 7, 7, 7])
    class_floor = rng.choice([1, 1, 2, 3]) if rng.random() < floored else 0
    speed_floor = rng.choice([1, 5, 20, 4096, 4097, 20000]) if rng.random() < floored else 0
    q = 0 if end else rng.choice([-1, -2, -40, -4000]) if rng.random() < harsh else rng.choice([0, 3, 50, 400, 4000, MOST])
    return bytes([kind, class_cap, class_floor, 0]) + struct.pack(">IIIi", first, second, speed_floor, q)


def some_gap(rng, tight):
    """A gap; at the given chance with steps that are small or none."""
    steps, grades = ([0, 1, 30, 100], [0, 1]) if rng.random() < tight else ([100, 3000, MOST, MOST], [1, 2, 7])
    return struct.pack(">BBHII", rng.choice(grades), rng.choice(grades), 0, rng.choice(steps), rng.choice(steps))


def some_row(rng, gap, h, harsh):
    """A row; at the given chance its constant may lie outside of what it allows, so that standing still breaks it."""
    d = rng.choice([1, -1, 3, -7, 20, -50])
    c = rng.choice([0, 0, 1, -1]) if abs(d) > 2 * h else 0
    room = rng.choice([10, 90, 5000])
    lo, hi = rng.randint(-room, 0), rng.randint(0, room)
    g = rng.randint(lo - 5, hi + 5) if rng.random() < harsh else rng.randint(lo, hi)
    return struct.pack(">HHiiiii", gap, 0, d, c, g, lo, hi)


def path(rng, n=None, t=None):
    """The frame of an accepted path with tight limits, of 2 to 8 samples where no count is given."""
    n = n or rng.randint(2, 8)
    t = rng.choice([0, 0, 1, 3]) if t is None else t
    h, tight = rng.choice([1, 1, 2, 5]), rng.choice([0.5, 0.5, 0.2, 2 / n])
    floored, harsh = rng.choice([0, 0, 1 / n, 1 / 3]), rng.choice([0, 1 / n, 1 / 3])
    body = struct.pack(">HHIH", n, h, rng.choice([0, 1000, 131072]), t)
    body += b"".join(some_sample(rng, tight, floored, harsh, i in (0, n - 1)) for i in range(n))
    body += b"".join(some_gap(rng, tight) for _ in range(n - 1))
    body += b"".join(some_row(rng, gap, h, harsh) for gap in sorted(rng.randint(0, n - 2) for _ in range(t)))
    data = b"\x01" + struct.pack(">I", len(body)) + body
    assert refusal(data) is None
    return data
