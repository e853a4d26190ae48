#!/usr/bin/env python3
"""What the program `runsheet` prints for the run file on standard input, worked out apart from the product's code: the file
by one pattern for each sort of line, the figures by the rules in `expected.py`.

    tools/runsheet.py < FILE
"""
import re
import sys
from expected import Refused, Sheet, cast_iron, check, df4, is_table, scale, table, wagon_drag

NUMBER = rb"(0|[1-9][0-9]{0,6})"
GRADIENT = rb"(0|-?[1-9][0-9]{0,6})"
LONGEST = 65_536


class Fault(Exception):
    """A line and the number of a refusal."""


def spaced(*fields):
    return b" ".join(fields)


class Run:
    """What an accepted file gives: the sheet, and beside it the kind of brake, the points of the pull and the questions."""

    def __init__(self, text):
        if len(text) > LONGEST:
            raise Fault(1, 16)
        *self.lines, self.rest = text.split(b"\n")
        self.line = 0
        self.sheet, self.kind, self.points, self.questions = Sheet(), None, [], []
        self.section(b"RUN", 1, 1, spaced(b"([FPEHJ])", NUMBER), self.brake)
        self.section(b"PUL", 1, 16, spaced(NUMBER, NUMBER), self.point)
        self.section(b"VEH", 0, 120, spaced(b"([LW])", NUMBER, NUMBER, b"([01])"), self.vehicle)
        self.section(b"SEC", 0, 200, spaced(NUMBER, GRADIENT, NUMBER, NUMBER, NUMBER), self.sheet.append)
        self.section(b"ASK", 0, 200, spaced(b"(S)", NUMBER, NUMBER, NUMBER) + b"|" + spaced(b"([VM])", NUMBER, NUMBER),
                     self.question)
        if self.line < len(self.lines) or self.rest:
            raise Fault(self.line + 1, 16)

    def fields(self, pattern):
        """The fields of the next line: letters as text, numbers as numbers."""
        self.line += 1
        if self.line > len(self.lines):
            raise Fault(self.line, 15 if self.rest else 16)
        form = re.fullmatch(pattern, self.lines[self.line - 1])
        if not form:
            raise Fault(self.line, 15)
        told = [field.decode() for field in form.groups() if field is not None]
        return [field if field.isalpha() else int(field) for field in told]

    def section(self, name, least, most, pattern, entry):
        count, = self.fields(spaced(name, NUMBER))
        if not least <= count <= most:
            raise Fault(self.line, 16)
        for _ in range(count):
            fields = self.fields(pattern)
            try:
                entry(*fields)
            except Refused as refusal:
                raise Fault(self.line, refusal.args[0]) from None

    def brake(self, letter, distance):
        self.sheet.set_distance(distance)
        self.kind = letter

    def point(self, *point):
        self.points.append(point)
        check(is_table(self.points), 14)

    def vehicle(self, letter, mass, pressure, on):
        self.sheet.couple(letter, mass, pressure)
        self.sheet.brake(len(self.sheet.train) - 1, on == 1)

    def question(self, *fields):
        self.questions.append(fields)

    def answer(self, letter, *figures):
        if letter == "S":
            return self.sheet.stop(self.kind, *figures)
        if letter == "V":
            return self.sheet.speed(self.kind, *figures),
        return self.sheet.mass(*figures, (self.pull, df4, wagon_drag)),

    def answers(self):
        self.pull = scale(table(self.points), 90)
        for number, question in enumerate(self.questions, 1):
            try:
                yield " ".join(map(str, [number, "OK", *self.answer(*question)]))
            except Refused as refusal:
                yield f"{number} NO {refusal.args[0]}"


def printed(text):
    """The lines that `runsheet` prints for a text."""
    try:
        return list(Run(text).answers())
    except Fault as fault:
        line, number = fault.args
        layer = {14: "LAW", 15: "TEXT", 16: "TEXT"}.get(number, "SHEET")
        return [f"FAULT {layer} {line} {number}"]


if __name__ == "__main__":
    for line in printed(sys.stdin.buffer.read()):
        print(line)
