#!/usr/bin/env python3
"""Run files that are too large or too many to be written out. Each comes with what `runsheet` has to print for it, worked out
by `runsheet.py`. The same files come every time.

    tools/run_files.py FOLDER          writes NAME.run and NAME.out for each
    tools/run_files.py FOLDER bench    the files that bench/count.sh measures, without what is to be printed
"""
import os
import sys
from runsheet import LONGEST, printed

EXAMPLE = """RUN 1
F 1000
PUL 2
0 40000
400 20000
VEH 2
L 1000 400 1
W 600 200 1
SEC 2
1500 0 0 0 0
1500 80 0 0 0
ASK 3
S 0 100 10
M 200 600
S 2500 100 10
"""
TABLE = ["0 40000", "400 20000"]
TRAIN = ["L 1000 400 1", "W 600 200 1"]


def written(kind="F 1000", points=TABLE, vehicles=TRAIN, sections=(), questions=()):
    lines = ["RUN 1", kind]
    for name, entries in [("PUL", points), ("VEH", vehicles), ("SEC", sections), ("ASK", questions)]:
        lines += [f"{name} {len(entries)}", *entries]
    return "".join(line + "\n" for line in lines)


def filled(start, size, end="\n"):
    """A text of so many bytes: the start, then nines."""
    return start + "9" * (size - len(start) - len(end)) + end


# ---- a file of any size up to the greatest

def sized(eighths, asked, questions=None):
    """So many eighths of the greatest counts, with questions of the letters asked. The line is always as long, and the train is
    one in which every question is answered: with braking distance 4,000 the window holds about half of the sections."""
    sections = 25 * eighths
    length = 8600 // sections
    last = 2 * eighths - 1
    return written(
        "F 4000",
        [f"{1590 * k // last} {60_000 - 35_175 * k // last}" for k in range(last + 1)],
        [f"L 1380 5{k % 90 + 10} 1" if k % 15 == 0 else f"W {800 + 7 * (k % 17)} {300 + 3 * (k % 13)} 1"
         for k in range(15 * eighths)],
        [f"{length} {k * 7 % 111 - 12} {length - k % 20} {10_000 + k * 37} {k % 2}" for k in range(sections)],
        [question(asked[k % len(asked)], k) for k in range(25 * eighths if questions is None else questions)])


def question(letter, k):
    place, factor = 1000 + k * 997 % 3600, 10 - k % 2
    return {"S": f"S {place} {1599 - k * 13 % 97} 10", "V": f"V {place} {factor}",
            "M": f"M {1000 + k * 29 % 501} {1000 + k * 31 % 1001}"}[letter]


def bench():
    yield "empty", ""
    yield "example", EXAMPLE
    yield "eighth", sized(1, "SVM")
    yield "quarter", sized(2, "SVM")
    yield "half", sized(4, "SVM")
    yield "largest", sized(8, "SVM")
    yield "stops", sized(8, "S")
    yield "speeds", sized(8, "V")
    yield "masses", sized(8, "M")
    yield "unasked", sized(8, "S", 0)
    yield "long line", filled(sized(8, "SVM").rsplit(" ", 1)[0] + " ", LONGEST)


# ---- the others

def files():
    yield "example", EXAMPLE

    # A question of too many digits in a file of the greatest length, and in one a byte longer.
    start = EXAMPLE.rsplit(" ", 1)[0] + " "
    yield "longest text", filled(start, LONGEST)
    yield "text too long", filled(start, LONGEST + 1)
    yield "longest text left over", filled(EXAMPLE, LONGEST)
    yield "text left over too long", filled(EXAMPLE, LONGEST + 1)
    yield "longest text unterminated", filled(start, LONGEST, "")
    yield "longest text of line ends", "\n" * LONGEST
    yield "too many line ends", "\n" * (LONGEST + 1)
    yield "too long from the start", filled("", LONGEST + 1)

    # Every count at its limits.
    yield "all counts greatest", sized(8, "SVM")
    yield "all counts least", written(points=["0 40000"], vehicles=[])
    yield "nothing asked", written(sections=["3000 0 0 0 0"])
    yield "a line left over behind the greatest counts", sized(8, "SVM") + "S 0 100 10\n"
    yield "a question missing from the greatest counts", sized(8, "SVM").rsplit("\n", 2)[0] + "\n"

    # Each kind of brake on a level and on a fall.
    sections = ["2000 0 0 0 0", "3000 -60 700 450 0"]
    asked = [*(f"S {place} {v} {g}" for place in (0, 2000) for v in (0, 100, 350, 600) for g in (10, 6)), "V 0 10", "V 2000 10",
             "V 0 3", "M 200 600"]
    for letter in "FPEHJ":
        yield f"kind {letter}", written(f"{letter} 1000", sections=sections, questions=asked)

    # Every number that refuses a question.
    yield "refused 7", written(sections=["3000 0 0 0 0"], questions=[
        "S 4000001 100 10", "S 4000000 100 10", "S 0 1601 10", "S 0 1600 10", "S 0 100 0", "S 0 100 1", "S 0 100 11",
        "S 9999999 9999999 9999999", "V 4000001 10", "V 4000000 10", "V 0 0", "V 0 1", "V 0 11", "M 1601 600", "M 1600 600",
        "M 200 49", "M 200 50", "M 200 2000", "M 200 2001"])
    for name, vehicles in [("wagons alone", TRAIN[1:]), ("no vehicle", [])]:
        yield f"refused 8 by {name}", written(vehicles=vehicles, sections=["3000 0 0 0 0"],
                                              questions=["S 0 100 10", "V 0 10", "M 200 600", "S 0 1601 10", "S 3000 100 10"])
    yield "refused 7 before 8, 8 before 9", written(vehicles=[], questions=["S 0 100 10", "V 0 10", "M 200 600", "M 1601 600"])
    yield "refused 9", written(sections=["1000 0 0 0 0", "1500 0 0 0 0"], questions=[
        "S 1500 100 10", "S 1501 100 10", "V 1500 10", "V 1501 10", "S 4000000 100 10"])
    yield "refused 9 without sections", written(questions=["S 0 100 10", "V 0 10", "M 200 600", "M 1601 600"])
    yield "refused 10", written(vehicles=["L 1000 400 0", "W 600 200 0"], sections=["3000 0 0 0 0"],
                                questions=["S 0 100 10", "S 0 0 10", "V 0 10", "M 200 600"])
    yield "refused 11 to 13", written(
        vehicles=["L 1000 50 1", "W 600 0 1"], sections=["3000 0 0 0 0", "1000 -400 0 0 0", "3000 0 0 0 0"],
        questions=["S 0 500 10", "S 0 1600 10", "S 0 1600 2", "S 0 0 1", "S 0 0 2", "S 3000 100 10", "S 3000 0 10", "V 3000 10",
                   "V 0 10", "V 0 2", "V 0 1", "S 6001 100 10", "M 401 600", "M 400 600", "M 0 50"])
    yield "refused 7 to 13", written(
        vehicles=["L 1000 50 1", "W 600 0 1"], sections=["3000 0 0 0 0", "1000 -400 0 0 0", "3000 80 0 0 1"],
        questions=["S 0 1601 10", "S 6001 100 10", "S 0 1600 2", "S 3000 100 10", "S 0 1600 10", "M 401 600", "S 0 300 10"])

    # Brake forces of 1,001 to 997 milli; holding forces and distances to the unit, by curves that add from 0 to 199 milli.
    yield "brakes that just suffice", written(vehicles=["L 1000 178 1", "W 600 0 1"], sections=["20000 0 0 0 0"],
                                              questions=[f"S 0 {v} 1" for v in range(998, 1012)])
    yield "forces that just suffice", written(sections=[f"2000 -382 {k} 350 0" for k in range(1, 200)],
                                              questions=["V 500 5", *(f"S {2000 * k + 500} 100 5" for k in range(199))])
    yield "distances that just suffice", written("J 400", vehicles=["L 2000 519 1"],
                                                 sections=[f"1000 0 {k} 700 0" for k in range(1, 200)],
                                                 questions=[f"S {1000 * k + 300} 215 10" for k in range(199)])

    # Speeds at and beside every edge; windows that touch a section; braking distances at their limits.
    edges = [0, 100, 200, 300, 400, 500, *range(550, 1601, 50)]
    yield "edges", written("P 4000", vehicles=["L 1000 800 1", "W 600 500 1"], sections=["20000 -13 777 345 0"], questions=[
        f"S 123 {v} 9" for e in edges for v in (e - 1, e, e + 1) if 0 <= v <= 1600])
    sections = ["500 0 0 0 0", "1 -400 0 0 0", "500 0 0 0 0", "400 100 300 250 0", "500 -3 0 0 0"]
    places = [99, 500, 600, 1000, 1400, 1500]
    yield "windows", written("F 400", sections=sections, questions=[
        f"{s} {end + k} {'100 10' if s == 'S' else '10'}" for s in "SV" for end in places for k in range(-1, 4)])
    for metres in (400, 4000):
        yield f"braking distance {metres}", written(f"F {metres}", sections=["5000 -20 0 0 0"], questions=[
            *(f"V 1000 {g}" for g in range(1, 11)), "S 1000 1000 10", "S 1000 1001 10", "S 1001 100 10"])

    # Trains: without wagons, of many locomotives, with brakes in and out, the mass per wagon raised.
    asked = ["S 0 730 9", "V 0 9", "M 200 600", "M 0 50", "M 400 2000"]
    sections = ["3000 17 250 300 0", "2000 -35 0 0 1"]
    trains = [("a locomotive alone", ["L 1380 420 1"]),
              ("a raised mass per wagon", ["L 1000 400 1", "W 600 200 1", "W 601 170 1"]),
              ("many locomotives", ["L 2000 2000 1"] * 120), ("light vehicles", ["L 50 50 1", "W 50 0 0"]),
              ("heavy vehicles", ["L 2000 0 0", *["W 2000 900 1"] * 119]),
              ("brakes in and out", ["L 1000 400 0", "W 600 200 1", "W 613 170 0", "W 587 3 1", "W 2000 2000 0",
                                     "L 1000 400 1"])]
    for name, vehicles in trains:
        yield name, written("F 2000", vehicles=vehicles, sections=sections, questions=asked)

    # Masses: tables of one and of 16 points, at points and beside them; sections marked as stops; climbs and curves.
    asked = [f"M {v} {q}" for v in (0, 1, 99, 100, 101, 399, 400, 401, 1600) for q in (50, 611, 2000)]
    steep = ["500 0 250 300 0", "500 400 0 0 0"]
    stairs = [f"{100 * k} {1_000_000 - 60_000 * (k // 2)}" for k in range(16)]
    long = ["0 98765", "1 98765", "2 98764", "399 40001", "401 39999", "1600 1"]
    for name, points, sections in [
        ("one point", ["0 1000000"], ["500 0 0 0 0"]), ("a table of 0", ["0 0"], ["500 0 0 0 0"]),
        ("stairs", stairs, ["500 12 3 299 1"]), ("a stop", TABLE, ["1500 80 0 0 1"]),
        ("a stop on a fall", TABLE, ["1500 -300 0 0 1"]), ("a climb", stairs, steep),
        ("a long table", long, ["700 3 699 12345 0"]),
    ]:
        yield f"masses by {name}", written(points=points, sections=sections, questions=asked)
    yield "masses by many weak locomotives", written(points=["0 640", "100 620"], vehicles=["L 2000 0 1"] * 120,
                                                     sections=["500 0 0 0 0"], questions=[f"M {v} 611" for v in range(101)])


def main(folder, which=None):
    os.makedirs(folder, exist_ok=True)
    for name, text in bench() if which == "bench" else files():
        base = os.path.join(folder, name.replace(" ", "_"))
        with open(base + ".run", "wb") as f:
            f.write(text.encode())
        if which != "bench":
            with open(base + ".out", "w") as f:
                f.writelines(line + "\n" for line in printed(text.encode()))


if __name__ == "__main__":
    main(*sys.argv[1:])
