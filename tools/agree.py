#!/usr/bin/env python3
"""Compares what a program prints for run files with `runsheet.py`: for every case of `damages.py`, every file of `run_files.py`
and so many random files, sound and damaged. The same seed gives the same files.

    tools/agree.py PROGRAM [COUNT [SEED]]
"""
import subprocess
import sys
from collections import Counter
from random import Random
from damages import outcomes
from run_files import bench, files, written
from runsheet import printed


def near(r, least, most):
    """A figure of a range: mostly inside, often at its ends."""
    return r.choice([least, most, *(r.randint(least, most) for _ in range(4))])


def few(r, most):
    """A count up to most, seldom great."""
    return r.choice([0, 1, 1, 2, 2, 3, 4, r.randint(0, 12), r.randint(0, most)])


def points(r):
    speeds = sorted(r.sample(range(1, 1601), few(r, 15)))
    values = sorted((r.choice([r.randint(0, 60_000), near(r, 0, 1_000_000)]) for _ in range(len(speeds) + 1)), reverse=True)
    return [f"{v} {x}" for v, x in zip([0, *speeds], values)]


def vehicle(r, braked):
    mass = near(r, 50, 2000)
    pressure = r.randint(0, mass) if r.random() < braked else 0
    return f"{r.choice('LWWW')} {mass} {pressure} {int(r.random() < braked)}"


def section(r, longest, steepest):
    length = near(r, 1, longest)
    curve = r.choice([0, r.randint(1, length)])
    return f"{length} {r.randint(-steepest, steepest)} {curve} {near(r, 100, 20_000) if curve else 0} {r.randint(0, 1)}"


def question(r, length):
    place, factor = near(r, 0, max(0, length)), near(r, 1, 10)
    speed = r.choice([near(r, 0, 1600), 50 * r.randint(0, 32), r.randint(0, 500)])
    odd = r.random()
    if odd < 0.04:
        place = r.choice([4_000_000, 4_000_001, 9_999_999])
    elif odd < 0.08:
        factor = r.choice([0, 11, 9_999_999])
    elif odd < 0.12:
        speed = r.choice([1601, 9_999_999])
    q = r.choice([near(r, 50, 2000), near(r, 50, 2000), near(r, 49, 2001)])
    return r.choice([f"S {place} {speed} {factor}", f"V {place} {factor}", f"M {speed} {q}"])


def sound(r):
    distance = near(r, 400, 4000)
    braked = r.choice([1, 0.9, 0.5, 0.1])
    longest, steepest = r.choice([20, 500, 5000, 20_000]), r.choice([0, 20, 60, 400])
    sections = [section(r, longest, steepest) for _ in range(few(r, 200))]
    if r.random() < 0.8:
        while sum(int(s.split()[0]) for s in sections) < distance and len(sections) < 200:
            sections.append(section(r, 20_000, steepest))
    length = sum(int(s.split()[0]) for s in sections) - distance
    vehicles = [vehicle(r, braked) for _ in range(few(r, 120))]
    if r.random() < 0.8 and len(vehicles) < 120:
        vehicles.insert(0, f"L {r.randint(500, 1500)} {r.randint(200, 500)} 1")
    questions = [question(r, length) for _ in range(r.choice([0, 1, 3, 6, 10]))]
    return written(f"{r.choice('FPEHJ')} {distance}", points(r), vehicles, sections, questions).encode()


FIELDS = (b"0 1 2 3 16 17 120 121 200 201 -1 -0 00 49 399 401 -401 1600 1601 2001 4001 20001 1000000 1000001 9999999 10000000 "
          b"-9999999 +1  L W S V M F X").split(b" ")


def damaged(r, text):
    """The text with one damage."""
    lines = text.split(b"\n")
    k, at = r.randrange(len(lines)), r.randrange(len(text) + 1)
    sort = r.randrange(10)
    if sort == 0:
        return text[:at] + text[at + 1:]
    if sort == 1:
        return text[:at] + bytes([r.choice([*b"0123456789 -+\n\r\t\0LWSVMx.", r.randrange(256)])]) + text[at:]
    if sort == 2:
        return text[:at] + bytes([r.choice([*b"0123456789 -\n", r.randrange(256)])]) + text[at + 1:]
    if sort == 3:
        return text[:at]
    if sort == 4:
        return b"\n".join(lines[:k] + lines[k + 1:])
    if sort == 5:
        return b"\n".join(lines[:k] + [lines[k]] + lines[k:])
    if sort == 6:
        other = r.randrange(len(lines))
        lines[k], lines[other] = lines[other], lines[k]
        return b"\n".join(lines)
    if sort == 7:
        return text + r.choice([b"\n", b" ", b"S 0 100 10\n", b"x", bytes(r.randrange(256) for _ in range(5))])
    fields = lines[k].split(b" ")
    fields[r.randrange(len(fields))] = r.choice(FIELDS)
    lines[k] = b" ".join(fields)
    return b"\n".join(lines)


def random_files(count, seed):
    for k in range(count):
        r = Random(f"{seed} {k}")
        text = sound(r)
        for _ in range(r.choice([0, 0, 1, 1, 2])):
            text = damaged(r, text)
        yield f"random {k}", text


def main(program, count="2000", seed="1"):
    told, bad = Counter(), 0
    fixed = [*((name, text) for name, text, _ in outcomes("all")),
             *((name, text.encode()) for name, text in [*files(), *bench()])]
    for name, text in [*fixed, *random_files(int(count), seed)]:
        expected = "".join(line + "\n" for line in printed(text)).encode()
        done = subprocess.run([program], input=text, capture_output=True)
        if (done.stdout, done.stderr, done.returncode) != (expected, b"", 0):
            bad += 1
            print(f"{name}: {text[:200]!r}\n  expected {expected[:100]!r}\n  printed {done.stdout[:100]!r}, status "
                  f"{done.returncode}, {done.stderr[:100]!r}")
        for words in map(str.split, expected.decode().splitlines()):
            if words[0] == "FAULT":
                told[f"FAULT {words[1]} {words[3]}"] += 1
            else:
                told["OK" if words[1] == "OK" else f"NO {words[2]}"] += 1
    print(", ".join(f"{what} {n}" for what, n in sorted(told.items())))
    print(f"{len(fixed)} fixed and {count} random files, {bad} not as expected")
    sys.exit(bad > 0)


if __name__ == "__main__":
    main(*sys.argv[1:])
