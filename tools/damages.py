#!/usr/bin/env python3
"""Small run files, nearly all damaged, and what becomes of each. The outcomes are written here by the rules of the run file;
`runsheet.py` has to work out the same.

    tools/damages.py          a line of name and outcome for each
    tools/damages.py all      besides, every form of line that is none, in every section
"""
import sys
from runsheet import printed

# The lines of the file that is damaged, numbered from 1 as faults are.
WHOLE = [b"RUN 1", b"F 1000", b"PUL 2", b"0 40000", b"400 20000", b"VEH 1", b"L 1000 400 1", b"SEC 1", b"2000 -8 0 0 0",
         b"ASK 1", b"S 0 100 10"]
ANSWER = "1 OK 24895 79200 1"


def joined(lines):
    return b"".join(line + b"\n" for line in lines)


def put(changes):
    """The file with other lines, or none, in the place of some."""
    return joined(line for k, old in enumerate(WHOLE, 1) for line in changes.get(k, [old]))


def at(line, *others):
    return put({line: list(others)})


def both(first, one, second, other):
    return put({first: [one], second: [other]})


def first(count, end=b""):
    """The first lines of the file, and what then ends it."""
    return joined(WHOLE[:count]) + end


def cases():
    yield "whole", put({}), ANSWER

    # The text as such.
    yield "no text", b"", "TEXT 1 16"
    yield "a line end alone", b"\n", "TEXT 1 15"
    yield "no line end", b"RUN 1", "TEXT 1 15"
    yield "a word without line end", b"sheet", "TEXT 1 15"
    yield "a zero byte first", b"\0" + put({}), "TEXT 1 15"
    yield "a zero byte in a field", at(7, b"L 10\x0000 400 1"), "TEXT 7 15"
    yield "a byte order mark first", b"\xef\xbb\xbf" + put({}), "TEXT 1 15"
    yield "a byte of 255 for a letter", at(2, b"\xff 1000"), "TEXT 2 15"
    yield "a digit of another script", at(5, b"400 2000\xd9\xa0"), "TEXT 5 15"
    yield "line ends CR LF", put({}).replace(b"\n", b"\r\n"), "TEXT 1 15"
    yield "line ends CR", put({}).replace(b"\n", b"\r"), "TEXT 1 15"

    # Lines missing and left over.
    for count, what in [(1, "the kind"), (2, "PUL"), (3, "the points"), (4, "a point"), (5, "VEH"), (6, "the vehicle"),
                        (7, "SEC"), (8, "the section"), (9, "ASK"), (10, "the question")]:
        yield f"ends before {what}", first(count), f"TEXT {count + 1} 16"
    yield "last line unterminated", put({})[:-1], "TEXT 11 15"
    yield "a heading unterminated", first(7, b"SEC 1"), "TEXT 8 15"
    yield "a point unterminated", first(3, b"0 40000"), "TEXT 4 15"
    yield "a line left over", put({}) + b"S 0 100 10\n", "TEXT 12 16"
    yield "a line left over, unterminated", put({}) + b"S 0 100 10", "TEXT 12 16"
    yield "an empty line left over", put({}) + b"\n", "TEXT 12 16"
    yield "a space left over", put({}) + b" ", "TEXT 12 16"
    yield "two lines left over", put({}) + b"END\nEND\n", "TEXT 12 16"
    yield "a line left over behind no question", put({10: [b"ASK 0"]}), "TEXT 11 16"
    yield "a point too few", at(5), "TEXT 5 15"
    yield "a point too many", at(5, b"400 20000", b"500 0"), "TEXT 6 15"
    yield "a vehicle too few", at(7), "TEXT 7 15"
    yield "a vehicle too many", at(7, b"L 1000 400 1", b"W 600 200 1"), "TEXT 8 15"
    yield "a section too few", at(9), "TEXT 9 15"
    yield "a section too many", at(9, b"2000 -8 0 0 0", b"2000 -8 0 0 0"), "TEXT 10 15"
    yield "a kind too many", at(2, b"F 1000", b"F 1000"), "TEXT 3 15"

    # Headings and counts.
    yield "sections exchanged", put({6: [], 7: [], 9: [WHOLE[8], WHOLE[5], WHOLE[6]]}), "TEXT 6 15"
    yield "another name", at(1, b"RUM 1"), "TEXT 1 15"
    yield "a longer name", at(3, b"PULL 2"), "TEXT 3 15"
    yield "a name in small letters", at(6, b"veh 1"), "TEXT 6 15"
    yield "a name alone", at(8, b"SEC"), "TEXT 8 15"
    yield "no space behind a name", at(10, b"ASK1"), "TEXT 10 15"
    yield "no kind", at(1, b"RUN 0"), "TEXT 1 16"
    yield "two kinds", put({1: [b"RUN 2"], 2: [b"F 1000", b"P 1000"]}), "TEXT 1 16"
    yield "no point", put({3: [b"PUL 0"], 4: [], 5: []}), "TEXT 3 16"
    yield "17 points", at(3, b"PUL 17"), "TEXT 3 16"
    yield "121 vehicles", at(6, b"VEH 121"), "TEXT 6 16"
    yield "201 sections", at(8, b"SEC 201"), "TEXT 8 16"
    yield "201 questions", at(10, b"ASK 201"), "TEXT 10 16"
    yield "a count of seven digits", at(8, b"SEC 9999999"), "TEXT 8 16"
    yield "a count of eight digits", at(8, b"SEC 10000000"), "TEXT 8 15"
    yield "a count with a zero before it", at(6, b"VEH 01"), "TEXT 6 15"
    yield "a count below 0", at(10, b"ASK -1"), "TEXT 10 15"
    yield "no vehicle", put({6: [b"VEH 0"], 7: []}), "1 NO 8"
    yield "no section", put({8: [b"SEC 0"], 9: []}), "1 NO 9"
    yield "no question", put({10: [b"ASK 0"], 11: []}), None

    # Numbers, letters and spaces.
    yield "a zero before a number", at(4, b"0 040000"), "TEXT 4 15"
    yield "two zeros", at(4, b"00 40000"), "TEXT 4 15"
    yield "minus 0", at(9, b"2000 -0 0 0 0"), "TEXT 9 15"
    yield "minus and a zero before", at(9, b"2000 -08 0 0 0"), "TEXT 9 15"
    yield "minus alone", at(9, b"2000 - 0 0 0"), "TEXT 9 15"
    yield "minus twice", at(9, b"2000 --8 0 0 0"), "TEXT 9 15"
    yield "minus before a length", at(9, b"-2000 8 0 0 0"), "TEXT 9 15"
    yield "minus before a place", at(11, b"S -1 100 10"), "TEXT 11 15"
    yield "plus", at(9, b"2000 +8 0 0 0"), "TEXT 9 15"
    yield "a point in a number", at(2, b"F 1000.0"), "TEXT 2 15"
    yield "eight digits", at(11, b"S 10000000 100 10"), "TEXT 11 15"
    yield "seven digits", at(11, b"S 9999999 100 10"), "1 NO 7"
    yield "seven digits and a minus", at(9, b"2000 -9999999 0 0 0"), "SHEET 9 4"
    yield "eight digits and a minus", at(9, b"2000 -10000000 0 0 0"), "TEXT 9 15"
    yield "two spaces", at(7, b"L 1000  400 1"), "TEXT 7 15"
    yield "a space behind", at(11, b"S 0 100 10 "), "TEXT 11 15"
    yield "a space before", at(2, b" F 1000"), "TEXT 2 15"
    yield "a tab", at(9, b"2000\t-8 0 0 0"), "TEXT 9 15"
    yield "a CR", at(4, b"0 40000\r"), "TEXT 4 15"
    yield "an empty line", at(6, b"", b"VEH 1"), "TEXT 6 15"
    yield "a field too few", at(9, b"2000 -8 0 0"), "TEXT 9 15"
    yield "a field too many", at(7, b"L 1000 400 1 0"), "TEXT 7 15"
    yield "a kind outside its list", at(2, b"G 1000"), "TEXT 2 15"
    yield "a small kind", at(2, b"f 1000"), "TEXT 2 15"
    yield "a vehicle outside its list", at(7, b"X 1000 400 1"), "TEXT 7 15"
    yield "a vehicle of two letters", at(7, b"LW 1000 400 1"), "TEXT 7 15"
    yield "a question outside its list", at(11, b"Q 0 100 10"), "TEXT 11 15"
    yield "a stop without factor", at(11, b"S 0 100"), "TEXT 11 15"
    yield "a speed with one number more", at(11, b"V 0 10 10"), "TEXT 11 15"
    yield "a brake field of 2", at(7, b"L 1000 400 2"), "TEXT 7 15"
    yield "a brake field of 01", at(7, b"L 1000 400 01"), "TEXT 7 15"

    # Tables of pull.
    yield "first point at 1", at(4, b"1 40000"), "LAW 4 14"
    yield "first value too great", at(4, b"0 1000001"), "LAW 4 14"
    yield "greatest value", at(4, b"0 1000000"), ANSWER
    yield "equal speeds", at(5, b"0 20000"), "LAW 5 14"
    yield "a rising value", at(5, b"400 40001"), "LAW 5 14"
    yield "equal values", at(5, b"400 40000"), ANSWER
    yield "a speed of 1601", at(5, b"1601 20000"), "LAW 5 14"
    yield "a speed of 1600", at(5, b"1600 20000"), ANSWER
    yield "a falling speed", put({3: [b"PUL 3"], 5: [b"400 20000", b"399 10000"]}), "LAW 6 14"

    # What the sheet refuses.
    for line, number, lines in [(2, 6, [b"F 399", b"F 4001"]),
                                (7, 1, [b"L 49 0 1", b"W 2001 0 1", b"L 1000 1001 0"]),
                                (9, 4, [b"0 -8 0 0 0", b"20001 -8 0 0 0", b"2000 -401 0 0 0", b"2000 401 0 0 0",
                                        b"2000 -8 2001 300 0", b"2000 -8 100 99 0", b"2000 -8 100 20001 0",
                                        b"2000 -8 100 0 0", b"2000 -8 0 300 0", b"2000 -8 0 0 2"])]:
        for changed in lines:
            yield changed.decode(), at(line, changed), f"SHEET {line} {number}"
    yield "vehicles at their limits", put({6: [b"VEH 3"], 7: [WHOLE[6], b"W 50 50 0", b"W 2000 0 1"]}), "1 OK 36006 25967 1"
    yield "sections at their limits", put({8: [b"SEC 3"], 9: [WHOLE[8], b"1 -400 1 100 1", b"20000 400 20000 20000 0"]}), ANSWER
    yield "a line as long as L", put({2: [b"F 400"], 9: [b"400 -8 0 0 0"]}), ANSWER
    yield "L a metre longer than the line", put({2: [b"F 2001"]}), "1 NO 9"

    # Two faults on two lines: the earlier one is told.
    yield "SHEET 2, LAW 4", both(2, b"F 399", 4, b"1 40000"), "SHEET 2 6"
    yield "SHEET 2, TEXT 5", both(2, b"F 399", 5, b"400"), "SHEET 2 6"
    yield "TEXT 4, LAW 5", both(4, b"0 40000 ", 5, b"400 40001"), "TEXT 4 15"
    yield "LAW 4, TEXT 5", both(4, b"1 40000", 5, b"400"), "LAW 4 14"
    yield "LAW 5, SHEET 7", both(5, b"400 40001", 7, b"L 49 0 1"), "LAW 5 14"
    yield "LAW 4, LAW 5", both(4, b"1 40000", 5, b"400 40001"), "LAW 4 14"
    yield "TEXT 6, SHEET 7", both(6, b"VEH 121", 7, b"L 49 0 1"), "TEXT 6 16"
    yield "SHEET 7, SHEET 9", both(7, b"L 49 0 1", 9, b"0 -8 0 0 0"), "SHEET 7 1"
    yield "SHEET 9, TEXT 11", both(9, b"0 -8 0 0 0", 11, b"S 0 100"), "SHEET 9 4"
    yield "SHEET 9, a line left over", at(9, b"0 -8 0 0 0") + b"\n", "SHEET 9 4"
    yield "SHEET 7, lines missing", joined(WHOLE[:6] + [b"L 49 0 1"]), "SHEET 7 1"

    # Two faults on one line: the text is told.
    yield "name and count", at(6, b"VHE 121"), "TEXT 6 15"
    yield "count and a space", at(10, b"ASK 201 "), "TEXT 10 15"
    yield "kind and L", at(2, b"G 399"), "TEXT 2 15"
    yield "point and a space", at(4, b"1 40000 "), "TEXT 4 15"
    yield "point and its line end", first(3, b"1 40000"), "TEXT 4 15"
    yield "mass and brake field", at(7, b"L 49 0 2"), "TEXT 7 15"
    yield "letter and mass", at(7, b"X 49 0 1"), "TEXT 7 15"
    yield "length and a zero before", at(9, b"0 -08 0 0 0"), "TEXT 9 15"
    yield "stop mark and eight digits", at(9, b"10000000 -8 0 0 2"), "TEXT 9 15"


# Each section: its heading, its first line, and in these a number that takes no minus.
SECTIONS = [("RUN", 1, 2, b"1000", "SHEET 2 6"), ("PUL", 3, 4, b"40000", "LAW 4 14"), ("VEH", 6, 7, b"1000", "SHEET 7 1"),
            ("SEC", 8, 9, b"2000", "SHEET 9 4"), ("ASK", 10, 11, b"100", "1 NO 7")]


def every_form():
    """Every damage to a number or to the spaces of a line, in the heading and in the first line of every section."""
    for name, heading, line, number, in_range in SECTIONS:
        for k, what, old, seven in [(heading, "count", WHOLE[heading - 1][4:], f"TEXT {heading} 16"),
                                    (line, "line", number, in_range)]:
            good = WHOLE[k - 1]
            forms = {"a zero before": b"0" + old, "minus 0": b"-0", "minus": b"-" + old, "plus": b"+" + old,
                     "eight digits": b"10000000", "a letter": old + b"x", "no digit": b""}
            damaged = {form: good.replace(old, new) for form, new in forms.items()}
            damaged |= {"a space before": b" " + good, "a space behind": good + b" ",
                        "two spaces": good.replace(b" ", b"  ", 1), "a tab": good.replace(b" ", b"\t", 1),
                        "a CR": good + b"\r", "an empty line": b"",
                        "a field too few": good.rsplit(b" ", 1)[0], "a field too many": good + b" 0",
                        "a zero byte": good + b"\0", "a byte of 128": good + b"\x80"}
            for form, new in damaged.items():
                yield f"{name} {what}: {form}", at(k, new), f"TEXT {k} 15"
            yield f"{name} {what}: seven digits", at(k, good.replace(old, b"9999999")), seven
            yield f"{name} {what}: missing", first(k - 1), f"TEXT {k} 16"
            yield f"{name} {what}: unterminated", first(k - 1, good), f"TEXT {k} 15"


def outcomes(which="most"):
    """Name, text and printed lines of each case, once it is sure that `runsheet.py` works out the same."""
    names = set()
    for name, text, outcome in [*cases(), *(every_form() if which == "all" else [])]:
        lines = [] if outcome is None else [outcome if outcome[0] == "1" else f"FAULT {outcome}"]
        assert printed(text) == lines, (name, text, lines, printed(text))
        assert name not in names, name
        names.add(name)
        yield name, text, lines


def main(which="most"):
    for name, _, lines in outcomes(which):
        print(f"{name}: {lines[0] if lines else 'nothing'}")


if __name__ == "__main__":
    main(*sys.argv[1:])
