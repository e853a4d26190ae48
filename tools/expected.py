#!/usr/bin/env python3
"""The figures of the programs, worked out from the rules with exact fractions and apart from the product's code.

    tools/expected.py inspection | diff - crates/inspection/stdout
    tools/expected.py refusals   | diff - crates/refusals/stdout
    tools/expected.py figures    | diff - crates/figures/stdout
    tools/expected.py readings   | diff - crates/readings/stdout
    tools/expected.py makers     | diff - crates/makers/stdout
    tools/expected.py mixtures   | diff - crates/mixtures/stdout
"""
import os
import sys
from fractions import Fraction as F
from functools import cache
from math import ceil, floor

KINDS = {"F": (7, 10), "P": (4, 5), "E": (2, 0), "H": (30, 0), "J": (60, 0), "combined": (3, 6)}
EDGES = [0, 100, 200, 300, 400, 500] + list(range(550, 1601, 50))


class Refused(Exception):
    pass


def check(yes, number):
    if not yes:
        raise Refused(number)


# ---- laws: at a speed (and a mass per wagon) the exact value, the one below, the one above, and the slack

def rounded(exact):
    return cache(lambda *at: (exact(*at), floor(exact(*at)), ceil(exact(*at)), 1))


cast_iron = rounded(lambda v: F(270_000 * (v + 1000), 5 * v + 1000))
composite = rounded(lambda v: F(360_000 * (v + 1500), 2 * v + 1500))
wagon_drag = rounded(lambda v, q: F(100_000 * (v + 650), 12_000 + 55 * q))
no_pull = lambda v: (0, 0, 0, 0)


def adhesion(mass):
    check(1 <= mass <= 20_000, 14)
    return rounded(lambda v: 25 * mass + F(400 * mass, 50 + v))


def quadratic(a, b, c):
    check(a <= 100_000_000 and b <= 1_000_000 and c <= 10_000, 14)
    return rounded(lambda v, q: F(100 * a + 10 * b * v + c * v * v, 100_000))


df4 = quadratic(2_280_000, 29_300, 178)
DIESEL = cast_iron, df4, wagon_drag


def is_table(points):
    """1 to 16 points in range, from speed 0 on, the speeds rising and the values not."""
    return (1 <= len(points) <= 16 and points[0][0] == 0
            and all(0 <= v <= 1600 and 0 <= x <= 1_000_000 for v, x in points)
            and all(a[0] < b[0] and a[1] >= b[1] for a, b in zip(points, points[1:])))


def first_break(points):
    if is_table(points):
        return None
    return next(k for k in range(len(points) + 1) if not is_table(points[:k + 1]))


def table(points):
    check(first_break(points) is None, 14)

    def exact(v):
        for (a, x), (b, y) in zip(points, points[1:]):
            if a <= v <= b:
                return x + F((y - x) * (v - a), b - a)
        return F(points[-1][1] if v == points[-1][0] else 0)
    return rounded(exact)


def scale(law, percent):
    check(1 <= percent <= 100, 14)

    @cache
    def read(*at):
        exact, below, above, slack = law(*at)
        return exact * percent / 100, floor(F(below * percent, 100)), ceil(F(above * percent, 100)), slack + 1
    return read


def blend(first, second, a, b):
    check(1 <= a <= 100 and 1 <= b <= 100, 14)

    def read(*at):
        one, other = first(*at), second(*at)
        exact, below, above = (F(a * x + b * y) / (a + b) for x, y in zip(one[:3], other[:3]))
        return exact, floor(below), ceil(above), max(one[3], other[3]) + 1
    return read


def lesser(first, second):
    def read(v):
        one, other = first(v), second(v)
        return *map(min, one[:3], other[:3]), max(one[3], other[3])
    return read


@cache
def grade(s):
    length, i, curve, radius, _ = s
    return F(100 * i) + (F(700_000 * curve, length * radius) if curve else 0)


class Sheet:
    def __init__(self):
        self.train, self.line, self.reach = [], [], 1000

    def couple(self, letter, mass, pressure):
        check(letter in "LW" and 50 <= mass <= 2000 and 0 <= pressure <= mass, 1)
        check(len(self.train) < 120, 2)
        self.train.append([letter, mass, pressure, True])

    def uncouple(self):
        check(self.train, 3)
        self.train.pop()

    def brake(self, k, on):
        check(k < len(self.train), 3)
        self.train[k][3] = on

    def append(self, length, i, curve, radius, stop):
        lawful = 1 <= length <= 20_000 and -400 <= i <= 400 and curve <= length and stop in (0, 1)
        check(lawful and (100 <= radius <= 20_000 if curve else radius == 0), 4)
        check(len(self.line) < 200, 5)
        self.line.append((length, i, curve, radius, stop))

    def lift(self):
        self.line = []

    def set_distance(self, metres):
        check(400 <= metres <= 4000, 6)
        self.reach = metres

    def window(self, place):
        start, found = 0, []
        for s in self.line:
            if max(start, place) <= min(start + s[0], place + self.reach):
                found.append(s)
            start += s[0]
        return found

    def stop(self, kind, place, v, g, laws=DIESEL):
        friction, coasting, wagon = laws
        seconds, slope = KINDS[kind]
        check(v <= 1600 and 1 <= g <= 10 and place <= 4_000_000, 7)
        check(any(c[0] == "L" for c in self.train), 8)
        check(place + self.reach <= sum(s[0] for s in self.line), 9)
        p = sum(c[1] for c in self.train if c[0] == "L")
        wagons = [c[1] for c in self.train if c[0] == "W"]
        q = ceil(F(sum(wagons), len(wagons))) if wagons else 50
        m, pressure = p + sum(wagons), sum(c[2] for c in self.train if c[3])
        lowest = min(floor(grade(s)) for s in self.window(place))

        def brake(y):
            return g * pressure * friction(y)[1] // (10 * m)

        check(brake(v) >= 1000, 10)
        speeds = [v] + [e for e in reversed(EDGES) if e < v]
        runs, forces = [], []
        for y, z in zip(speeds, speeds[1:]):
            drag = (p * coasting(z, q)[1] + sum(wagons) * wagon(z, q)[1]) // m
            forces.append(brake(y) + drag + lowest)
            runs.append((y, z, forces[-1]))
        check(all(n >= 1000 for n in forces), 11)
        b = brake(v)
        delay = ceil(F(v * (1000 * seconds * b + 1000 * slope * max(0, -lowest)), 36 * b))
        distance = delay + sum(ceil(F(41_700 * (y * y - z * z), n)) for y, z, n in runs)
        check(distance <= 1000 * self.reach, 12)
        return distance, min([b] + forces), len(runs)

    def speed(self, kind, place, g, laws=DIESEL):
        self.stop(kind, place, 0, g, laws)
        best = 0
        for v in range(50, 1601, 50):
            try:
                self.stop(kind, place, v, g, laws)
            except Refused:
                break
            best = v
        return best

    def holds(self, x, v, q, laws, exactly=False):
        """Whether wagons of the mass x are hauled over every section, by cautious or by exact values."""
        pull, pulling, wagon = laws
        locomotives = [c[1] for c in self.train if c[0] == "L"]
        n, p = len(locomotives), sum(locomotives)
        for s in self.line:
            ways = [(v, v, 0, 130_000)] + ([(0, 100, 4000, 95_000)] if s[4] else [])
            for at, drags_at, more, coupler in ways:
                f, w, u = pull(at), pulling(drags_at, q), wagon(drags_at, q)
                f, w, u = (f[0], w[0], u[0]) if exactly else (f[1], w[2], u[2])
                h = (max(0, grade(s)) if exactly else max(0, ceil(grade(s)))) + more
                own = p * (w + h)
                if own + x * (u + h) > min(10_000 * n * f, 10_000 * coupler + own):
                    return False
        return True

    def mass(self, v, q, laws):
        check(v <= 1600 and 50 <= q <= 2000, 7)
        check(any(c[0] == "L" for c in self.train), 8)
        check(self.line, 9)
        check(self.holds(500, v, q, laws), 13)
        x = next(x for x in range(100_000, 0, -500) if self.holds(x, v, q, laws))
        assert self.holds(x, v, q, laws, exactly=True)
        return x

    def stop_with_allowance(self, kind, place, v, g, laws=DIESEL):
        friction, coasting, wagon = laws
        distance, least, steps = self.stop(kind, place, v, g, laws)
        slack = friction(0)[3] + max(coasting(0, 50)[3], wagon(0, 50)[3]) + 3
        return distance, least, steps, steps + 1 + ceil(F(slack * distance, least))


def reasons():
    """The reason of each refusal, as docs/REFUSALS.md has it."""
    with open(os.path.join(os.path.dirname(__file__), "..", "docs", "REFUSALS.md")) as page:
        rows = page.read().split("| Number | Reason |\n|---|---|\n")[1].split("\n\n")[0].splitlines()
    return {int(number): reason for number, reason in (row.strip("| ").split(" | ") for row in rows)}


REASONS = reasons()


def refusal(number):
    return f"refused {number}: {REASONS[number]}"


def outcome(f, *args):
    try:
        r = f(*args)
    except Refused as e:
        return refusal(e.args[0])
    if not isinstance(r, tuple):
        return "passed"
    figures = f"{r[0]} mm, least force {r[1]}, steps {r[2]}"
    return figures + "".join(f", at most {n} mm over the exact sum" for n in r[3:])


# ---- the program `inspection`

def show(sheet):
    if not sheet.train:
        print("  no vehicle")
    for k, (letter, mass, pressure, on) in enumerate(sheet.train):
        print(f"  vehicle {k}: {letter} {mass} {pressure}, brake {'in' if on else 'out'}")
    if not sheet.line:
        print("  no section")
    for k, (length, i, curve, radius, stop) in enumerate(sheet.line):
        print(f"  section {k}: {length} {i} {curve} {radius} {stop}")
    print(f"  braking distance {sheet.reach}")


def answer(what, f, *args):
    """A speed or a mass."""
    try:
        return f"up to {what}{f(*args)}"
    except Refused as e:
        return refusal(e.args[0])


def inspection():
    s = Sheet()
    pull = {"planned": scale(table([(0, 40_000), (400, 20_000)]), 90),
            "measured": scale(table([(0, 39_200), (150, 31_700), (400, 19_500)]), 90)}

    def couple(*a):
        print("couple", *a, end=": ")
        print(outcome(s.couple, *a))

    def append(*a):
        print("append", *a, end=": ")
        print(outcome(s.append, *a))

    def stop(kind, place, v, g):
        told = outcome(s.stop_with_allowance, kind, place, v, g)
        print(f"stop at place {place}, speed {v}, factor {g} by brake {kind}: {told}")

    def speed(kind, place, g):
        print(f"speed at place {place}, factor {g} by brake {kind}: {answer('speed ', s.speed, kind, place, g)}")

    def mass(v, q, by="measured"):
        laws = (pull[by], df4, wagon_drag)
        print(f"mass at speed {v}, mass per wagon {q} by brake F: {answer('mass ', s.mass, v, q, laws)}")

    def brake(k, on):
        print(f"{'restore' if on else 'cut out'} {k}: {outcome(s.brake, k, on)}")

    def of_file():
        s.train, s.line, s.reach = [], [], 1000
        s.couple("L", 1000, 400)
        s.couple("W", 600, 200)
        s.append(1500, 0, 0, 0, 0)
        s.append(1500, 80, 0, 0, 0)

    print("new sheet")
    show(s)

    print("read")
    print("  brake F")
    print("  pull at speed 0: 40000")
    print("  pull at speed 400: 20000")
    print("  stop at place 0, speed 100, factor 10")
    print("  mass at speed 200, mass per wagon 600")
    print("  stop at place 2500, speed 100, factor 10")
    of_file()
    show(s)

    for by in ("planned", "measured"):
        print(by)
        stop("F", 0, 100, 10)
        mass(200, 600, by)
        stop("F", 2500, 100, 10)
        show(s)

    print("inspected")
    brake(1, False)
    stop("F", 0, 100, 10)
    brake(5, False)
    stop("F", 2500, 100, 10)
    speed("F", 0, 10)
    brake(0, False)
    stop("F", 0, 100, 10)
    speed("F", 0, 10)
    brake(0, True)
    brake(1, True)
    stop("F", 0, 100, 10)
    show(s)

    print("compared")
    stop("F", 0, 600, 10)
    stop("F", 0, 600, 7)
    stop("P", 0, 600, 10)
    stop("H", 0, 600, 10)
    for kind, g in [("F", 10), ("F", 7), ("P", 10), ("H", 10)]:
        speed(kind, 0, g)
    for v in (200, 400, 401):
        mass(v, 600)
    show(s)

    print("sent off")
    print(f"set braking distance 300: {outcome(s.set_distance, 300)}")
    print(f"set braking distance 1500: {outcome(s.set_distance, 1500)}")
    stop("F", 0, 600, 7)
    speed("F", 0, 7)
    print(f"uncouple: {outcome(s.uncouple)}")
    stop("F", 0, 600, 7)
    speed("F", 0, 7)
    print(f"lift: {outcome(s.lift)}")
    stop("F", 0, 600, 7)
    speed("F", 0, 7)
    mass(200, 600)
    show(s)

    print("read again")
    of_file()
    couple("W", 40, 10)
    couple("W", 800, 300)
    append(1000, -60, 0, 0, 0)
    stop("F", 2500, 100, 10)
    speed("F", 2500, 10)
    mass(200, 600)
    show(s)


# ---- the programs `refusals` and `figures`

def train(*vehicles):
    s = Sheet()
    for v in vehicles:
        s.couple(*v)
    return s


def sample(i):
    s = train(("L", 1000, 400), ("W", 600, 200))
    s.append(3000, i, 0, 0, 0)
    return s


def tell(label, f, *args):
    print(f"{label}: {outcome(f, *args)}")


def refusals():
    print("vehicles")
    s = Sheet()
    for v in [("X", 1000, 400), ("l", 1000, 400), ("L", 49, 0), ("W", 2001, 0), ("W", 600, 601),
              ("L", 50, 0), ("W", 2000, 2000), ("L", 4294967295, 0)]:
        tell(f"couple {v[0]} {v[1]} {v[2]}", s.couple, *v)
    s = Sheet()
    tell("uncouple from no train", s.uncouple)
    tell("cut out vehicle 0 of none", s.brake, 0, False)
    for _ in range(119):
        s.couple("W", 600, 200)
    tell("couple vehicle 119", s.couple, "W", 600, 200)
    tell("couple vehicle 120", s.couple, "W", 600, 200)
    tell("restore vehicle 119", s.brake, 119, True)
    tell("restore vehicle 120", s.brake, 120, True)
    tell("uncouple vehicle 119", s.uncouple)
    tell("stop without a locomotive", s.stop, "F", 0, 100, 10)

    print("sections")
    s = Sheet()
    for a in [(0, 0, 0, 0, 0), (20001, 0, 0, 0, 0), (500, -401, 0, 0, 0), (500, 401, 0, 0, 0), (500, 0, 501, 300, 0),
              (500, 0, 250, 99, 0), (500, 0, 250, 20001, 0), (500, 0, 0, 300, 0), (500, 0, 250, 0, 0), (500, 0, 0, 0, 2),
              (1, -400, 1, 100, 1), (20000, 400, 20000, 20000, 0)]:
        tell("append " + " ".join(map(str, a)), s.append, *a)
    s = Sheet()
    for _ in range(199):
        s.append(100, 0, 0, 0, 0)
    tell("append section 199", s.append, 100, 0, 0, 0, 0)
    tell("append section 200", s.append, 100, 0, 0, 0, 0)

    print("braking distances")
    s = Sheet()
    for metres in (399, 400, 4000, 4001):
        tell(f"set {metres}", s.set_distance, metres)

    print("laws")
    for a in [(100_000_000, 1_000_000, 10_000), (100_000_001, 0, 0), (0, 1_000_001, 0), (0, 0, 10_001)]:
        tell("quadratic drag " + " ".join(map(str, a)), quadratic, *a)

    print("stops")
    for place, v, g in [(4_000_001, 100, 10), (0, 1601, 10), (0, 100, 0), (0, 100, 11), (2000, 100, 10), (2001, 100, 10)]:
        tell(f"stop {place} {v} {g}", sample(0).stop, "F", place, v, g)
    s = sample(-400)
    s.brake(0, False)
    tell("gradient -400, locomotive cut out", s.stop, "F", 0, 100, 10)
    s.brake(1, False)
    tell("gradient -400, both cut out", s.stop, "F", 0, 100, 10)
    tell("speed 1600", sample(0).stop, "F", 0, 1600, 10)

    wagon = train(("W", 600, 200))
    wagon.append(1000, 0, 0, 0, 0)
    print("speeds")
    s = sample(0)
    for place, g in [(4_000_001, 10), (0, 0), (0, 11), (2001, 10), (2000, 10)]:
        print(f"speed {place} {g}: {answer('', s.speed, 'F', place, g)}")
    s.brake(0, False)
    s.brake(1, False)
    for s in (s, wagon):
        print(f"speed 0 10: {answer('', s.speed, 'F', 0, 10)}")

    print("masses")
    laws = table([(0, 40_000), (400, 20_000)]), df4, wagon_drag
    s = sample(80)
    asked = [(s, v, q) for v, q in [(1601, 600), (200, 49), (200, 2001), (401, 600), (200, 50), (400, 2000), (0, 600)]]
    bare, stop = train(("L", 1000, 400)), train(("L", 1000, 400))
    stop.append(3000, 80, 0, 0, 1)
    for s, v, q in asked + [(bare, 200, 600), (stop, 200, 600), (wagon, 200, 600)]:
        print(f"mass {v} {q}: {answer('', s.mass, v, q, laws)}")


def figures():
    print("laws, below and above")
    read("cast iron", cast_iron, [0, 500, 1600])
    read("wagon drag", wagon_drag, [(500, 600), (0, 50), (1600, 2000)])
    for v in (0, 123, 500):
        _, below, above, _ = df4(v, 600)
        print(f"DF4 at {v}: {below} {above}")

    print("kinds of brake, T and c")
    for k in "FPEHJ":
        print(f"{k}: {KINDS[k][0]} {KINDS[k][1]}")

    print("grades, low and high")
    for a in [(500, 0, 250, 300, 0), (500, -7, 250, 300, 0), (500, -35, 250, 300, 0), (500, 12, 0, 0, 0), (500, -12, 0, 0, 0)]:
        print("section " + " ".join(map(str, a)) + f": {floor(grade(a))} {max(0, ceil(grade(a)))}")

    print("stops of the example train")
    for i, v in [(-100, 100), (0, 100), (100, 100), (0, 0)]:
        tell(f"gradient {i}, speed {v}", sample(i).stop, "F", 0, v, 10)
    for k in "FPEHJ":
        tell(f"kind {k}, gradient -20, speed 350", sample(-20).stop, k, 0, 350, 10)

    print("the ends of the window")
    s = sample(-150)
    s.append(1001, 0, 0, 0, 0)
    tell("from the end of the fall", s.stop, "F", 3000, 100, 10)
    tell("one metre behind it, to the line's end", s.stop, "F", 3001, 100, 10)

    print("long stops")
    for place, v in [(500, 730), (499, 730), (499, 1600), (3501, 730), (500, 551), (500, 550)]:
        s = train(("L", 1000, 400), ("W", 600, 200), ("W", 613, 170), ("W", 587, 3))
        s.brake(2, False)
        for a in [(500, -35, 250, 300, 0), (3000, -61, 700, 450, 0), (9000, -90, 0, 0, 0)]:
            s.append(*a)
        s.set_distance(3000)
        tell(f"place {place}, speed {v}", s.stop, "F", place, v, 9)
    s = train(("L", 1380, 420))
    s.append(5000, -40, 300, 250, 0)
    tell("locomotive alone, speed 500", s.stop, "E", 100, 500, 6)

    print("every refusal")
    s = Sheet()
    tell("a vehicle with the letter X", s.couple, "X", 600, 200)
    for _ in range(120):
        s.couple("W", 600, 200)
    tell("a vehicle behind 120", s.couple, "W", 600, 200)
    tell("the brake of vehicle 120", s.brake, 120, False)
    s = Sheet()
    tell("a section of 0 m", s.append, 0, 0, 0, 0, 0)
    for _ in range(200):
        s.append(100, 0, 0, 0, 0)
    tell("a section behind 200", s.append, 100, 0, 0, 0, 0)
    tell("a braking distance of 399 m", s.set_distance, 399)
    tell("a stop from 1601", sample(0).stop, "F", 0, 1601, 10)
    tell("a stop without a train", Sheet().stop, "F", 0, 100, 10)
    tell("a stop a metre too near to the end", sample(0).stop, "F", 2001, 100, 10)
    both, one = sample(-400), sample(-400)
    for k in (0, 1):
        both.brake(k, False)
    one.brake(0, False)
    tell("a stop without a brake", both.stop, "F", 0, 100, 10)
    tell("a stop with one brake on a steep fall", one.stop, "F", 0, 100, 10)
    tell("a stop from 1600", sample(0).stop, "F", 0, 1600, 10)
    pull = scale(table([(0, 40_000), (400, 20_000)]), 90)
    tell("a mass past the last point of the table", sample(0).mass, 401, 600, (pull, df4, wagon_drag))
    print(f"a layer of 101 hundredths: {refusal(14)}")
    print(f"a run file in small letters: line 1 of the run file: {refusal(15)}")
    print(f"a run file of two runs: line 1 of the run file: {refusal(16)}")
    print(f"a line into 63 bytes: {refusal(17)}")


# ---- the program `readings`

def read(label, law, places):
    for at in places:
        at = at if isinstance(at, tuple) else (at,)
        exact, below, above, slack = law(*at)
        assert 0 <= below <= exact <= above <= 1_000_000 and above - below <= slack
        print(f"{label} at {', '.join(map(str, at))}: {below} {above}")


def readings():
    print("frictions, below and above")
    read("cast iron", cast_iron, [0, 1, 500, 1600])
    read("composite", composite, [0, 100, 777, 1600])
    read("33 hundredths of cast iron", scale(cast_iron, 33), [0, 500, 777])
    read("cast iron and composite 1 to 1", blend(cast_iron, composite, 1, 1), [100, 777])
    least = lesser(blend(cast_iron, composite, 3, 7), cast_iron)
    read("the lesser of 3 to 7 and cast iron", least, [0, 1, 777])
    read("90 hundredths of that", scale(least, 90), [0, 1, 777])

    print("pulls, below and above")
    for mass in (1, 1000, 20_000):
        print(f"adhesive mass {mass}")
        read("adhesion", adhesion(mass), [0, 200, 1333])
    read("no pull", no_pull, [0, 1600])
    example = table([(0, 40_000), (400, 20_000)])
    read("table of the example", example, [0, 1, 200, 399, 400, 401])
    read("table of three points", table([(0, 40_001), (300, 23_456), (1000, 7)]), [0, 1, 299, 300, 301, 997, 1000, 1001])
    read("table of one point", table([(0, 500)]), [0, 1])
    share = scale(example, 90)
    read("90 hundredths of the table", share, [0, 1, 200, 400])
    least = lesser(share, adhesion(1000))
    read("the lesser of that and adhesion", least, [0, 50, 200, 300])
    read("that and adhesion 100 to 1", blend(least, adhesion(1000), 100, 1), [0, 201, 300])

    print("drags at a speed and a mass per wagon, below and above")
    read("wagon drag", wagon_drag, [(500, 600), (0, 50), (1600, 2000)])
    read("DF4", df4, [(0, 600), (123, 600), (500, 600)])
    share = scale(wagon_drag, 87)
    read("87 hundredths of wagon drag", share, [(500, 600), (0, 50)])
    read("that and DF4 2 to 5", blend(share, df4, 2, 5), [(500, 600), (123, 51)])


    print("stops by layers alone")
    friction = scale(blend(cast_iron, composite, 3, 1), 97)
    layered = friction, blend(df4, scale(df4, 95), 1, 2), blend(wagon_drag, df4, 9, 1)
    for v, g in [(730, 8), (730, 5), (1200, 10)]:
        tell(f"speed {v}, factor {g}", sample(-20).stop, "P", 100, v, g, layered)


# ---- the program `makers`

def makers():
    print("laws and layers")
    for mass in (0, 1, 20_000, 20_001, 4_294_967_295):
        tell(f"adhesion {mass}", adhesion, mass)
    for a in [(100_000_000, 1_000_000, 10_000), (100_000_001, 0, 0), (0, 1_000_001, 0), (0, 0, 10_001)]:
        tell("quadratic drag " + " ".join(map(str, a)), quadratic, *a)
    for percent in (0, 1, 100, 101):
        tell(f"scale {percent}", scale, cast_iron, percent)
    for a, b in [(0, 1), (1, 0), (1, 1), (100, 100), (101, 1), (1, 101)]:
        print(f"blend {a} to {b}: {outcome(blend, cast_iron, composite, a, b)}, {outcome(blend, wagon_drag, df4, a, b)}")

    print("tables")
    first = (0, 500)
    falling = [(100 * k, 1600 - 100 * k) for k in range(17)]
    for label, points in [
        ("no point", []), ("from speed 1", [(1, 500)]), ("from 1,000,001 kgf", [(0, 1_000_001)]),
        ("from 1,000,000 kgf", [(0, 1_000_000)]), ("equal speeds", [first, (7, 500), (7, 400)]),
        ("falling speeds", [first, (7, 500), (6, 400)]), ("rising values", [first, (7, 501), (8, 502)]),
        ("equal values", [first, (7, 500), (8, 500)]), ("to speed 1600", [first, (1600, 0)]),
        ("to speed 1601", [first, (1601, 0)]), ("16 points", falling[:16]), ("17 points", falling),
    ]:
        k = first_break(points)
        print(f"{label}: {'no break' if k is None else f'breaks at {k}'}, {outcome(table, points)}")


# ---- the program `mixtures`

def mixtures():
    s = train(("L", 1000, 400))
    s.append(1500, 0, 0, 0, 0)
    s.append(1500, 80, 0, 0, 0)
    disc = rounded(lambda v: F(350_000))
    electric = disc, df4, wagon_drag
    friction, wagon = blend(cast_iron, composite, 3, 1), scale(wagon_drag, 95)
    pull = lesser(table([(0, 40_000), (400, 20_000)]), adhesion(1000))
    for vehicle, k, v, g, q in [(("W", 600, 200), 1, 600, 10, 600), (("W", 49, 0), 2, 1000, 7, 2001),
                                (("W", 613, 170), 0, 1601, 5, 50)]:
        print("mixed")
        for told in [
            lambda: outcome(s.couple, *vehicle),
            lambda: outcome(s.stop, "F", 0, v, g),
            lambda: outcome(s.brake, k, False),
            lambda: outcome(s.stop, "P", 0, v, g, electric),
            lambda: answer("speed ", s.speed, "combined", 0, g, (friction, df4, wagon)),
            lambda: answer("mass ", s.mass, 150, q, (pull, quadratic(1_500_000, 20_000, 300), wagon)),
        ]:
            print(f"  {told()}")


if __name__ == "__main__":
    {"mixtures": mixtures, "inspection": inspection, "refusals": refusals, "figures": figures, "readings": readings,
     "makers": makers}[sys.argv[1]]()
