"""Cases of the call that writes a weighted sheet (document 02, W-201). Each input is a book with a matching and
weights after it.

The expected sheets are literals that follow by hand, those of Table 1 and between two rotations as said in
weighted_calls.py. Line one is that of W-204.
"""
from cases.books import FIRSTS, NOBODY, ONE, ONE_FIXED, ROUNDS, SAME, TABLE_1, TWO, TWO_ROTATIONS, put, shift
from cases.form import WEIGHTED_SHEET
from cases.sheet_calls import TABLE_1_SHEET, sheet
from cases.weighted_calls import BETWEEN, EQUAL, FIRST, HEAVY, M, OWN, TURNED

ONES = [1] * 7
TABLE_1_TURNED = ["7 6 0 270", "0 4 D 15", "1 5 U 110", "2 6 D 250", "3 3 D 310", "4 1 D 15", "5 2 U 40", "6 0 U 110"]
TABLE_1_HEAVY = ["7 6 0 257", "0 4 U 2", "1 5 U 4", "2 6 D 256", "3 3 D 258", "4 1 D 2", "5 2 U 2", "6 0 U 4"]
TABLE_1_EQUAL = ["7 6 0 17", "0 4 D 2", "1 5 U 15", "2 6 D 15", "3 3 D 17", "4 1 D 2", "5 2 U 4", "6 0 U 15"]
TABLE_1_OWN = ["7 6 0 200", "0 4 D 100", "1 5 U 200", "2 6 D 0", "3 3 D 255", "4 1 D 100", "5 2 U 200", "6 0 D 0"]
TABLE_1_ZERO = ["7 6 0 0", "0 4 U 0", "1 5 U 0", "2 6 D 0", "3 3 D 0", "4 1 D 0", "5 2 U 0", "6 0 U 0"]


def rounds_sheet(place, grade, letter, total):
    """The lines of 64 rounds in which all have the mentor at one place; every repair moves all."""
    return [f"64 63 0 {grade}"] + [f"{i} {(i + place) % 64} {letter} {total}" for i in range(64)]


# (what is tried, bytes, lines); the room is two bytes more than the sheet has
SHEETS = [
    # Table 1
    ("U into D, D into U", TABLE_1 + M + TURNED, TABLE_1_TURNED),
    ("student 2 is heavy", TABLE_1 + M + HEAVY, TABLE_1_HEAVY),
    ("equal totals for student 6", TABLE_1 + M + EQUAL, TABLE_1_EQUAL),
    ("the asking student's weight is left out of the grade", TABLE_1 + M + OWN, TABLE_1_OWN),
    ("all 0", TABLE_1 + M + [0] * 7, TABLE_1_ZERO),
    ("all 1: document 01's sheet", TABLE_1 + M + ONES, TABLE_1_SHEET),
    # A grade of 0 with a repair of weight 1, and one beside a fixed pair
    ("between two rotations", TWO_ROTATIONS + BETWEEN + FIRST, ["3 2 0 0", "0 2 U 1", "1 0 D 0", "2 1 D 0"]),
    ("one of three is fixed", ONE_FIXED + [0, 1, 2, 0, 0, 0], ["3 1 1 0", "0 0 D 0", "1 1 D 0", "2 2 F 0"]),
    # The small books of document 01
    ("n = 0", NOBODY, ["0 0 0 -"]),
    ("n = 1", ONE + [0, 255], ["1 0 1 -", "0 0 F 0"]),
    ("n = 1, weight 0", ONE + [0, 0], ["1 0 1 -", "0 0 F 0"]),
    ("two by two, 0 1", TWO + [0, 1, 255, 7], ["2 1 0 255", "0 0 D 262", "1 1 D 262"]),
    ("two by two, 1 0", TWO + [1, 0, 0, 7], ["2 1 0 7", "0 1 U 7", "1 0 U 7"]),
    ("the other two by two, 0 1", SAME + [0, 1, 7, 9], ["2 0 2 -", "0 0 F 0", "1 1 F 0"]),
    # The largest n: totals of five digits, one student heavy, and the weights 0 to 63, of which 0 is left out of 2,016
    ("64 rounds, place 0, all 255", ROUNDS + shift(64, 0) + [255] * 64, rounds_sheet(0, 16065, "D", 16320)),
    ("64 rounds, place 40, all 255", ROUNDS + shift(64, 40) + [255] * 64, rounds_sheet(40, 16065, "U", 16320)),
    ("64 rounds, 63 is heavy", ROUNDS + shift(64, 40) + [0] * 63 + [255], rounds_sheet(40, 255, "U", 255)),
    ("64 rounds, 0 to 63", ROUNDS + shift(64, 63) + [*range(64)], rounds_sheet(63, 2016, "U", 2016)),
    ("64 firsts, all 255", FIRSTS + shift(64, 0) + [255] * 64, ["64 0 64 -"] + [f"{i} {i} F 0" for i in range(64)]),
    # 1 short, 2 edition, 3 crowd, 5 directory, 6 stranger, 7 repeat
    ("no bytes", [], ["refused 1"]),
    ("one byte", [1], ["refused 1"]),
    ("Table 1, 155 bytes", TABLE_1[:155], ["refused 1"]),
    ("edition 0", put(TABLE_1 + M + ONES, {0: 0}), ["refused 2"]),
    ("n = 65", put(TABLE_1 + M + ONES, {1: 65}), ["refused 3"]),
    ("first offset one more", put(TABLE_1 + M + ONES, {2: 59}), ["refused 5"]),
    ("last entry is 7", put(TABLE_1 + M + ONES, {155: 7}), ["refused 6"]),
    ("last entry is the one before", put(TABLE_1 + M + ONES, {155: 0}), ["refused 7"]),
    # 8 length: under n bytes after the book
    ("Table 1 alone", TABLE_1, ["refused 8"]),
    ("Table 1, one byte of the matching", TABLE_1 + M[:1], ["refused 8"]),
    ("Table 1, one byte of the matching short", TABLE_1 + M[:6], ["refused 8"]),
    ("n = 1, the book alone", ONE, ["refused 8"]),
    ("n = 64, one byte of the matching short", ROUNDS + shift(64, 0)[:63], ["refused 8"]),
    # 9 clash, 10 unstable
    ("mentor 7", TABLE_1 + put(M, {0: 7}) + ONES, ["refused 9"]),
    ("mentor 6 twice", TABLE_1 + put(M, {6: 6}) + ONES, ["refused 9"]),
    ("two alike, exchanged", SAME + [1, 0, 1, 1], ["refused 10"]),
    # 17 weights: not n bytes after the matching
    ("Table 1, no weights", TABLE_1 + M, ["refused 17"]),
    ("Table 1, six weights", TABLE_1 + M + ONES[:6], ["refused 17"]),
    ("Table 1, eight weights", TABLE_1 + M + ONES + [1], ["refused 17"]),
    ("n = 0, one weight", NOBODY + [0], ["refused 17"]),
    ("n = 1, no weight", ONE + [0], ["refused 17"]),
    ("n = 1, two weights", ONE + [0, 1, 1], ["refused 17"]),
    ("n = 64, 63 weights: 8,833 bytes", ROUNDS + shift(64, 0) + [1] * 63, ["refused 17"]),
    ("n = 64, 65 weights: 8,835 bytes", ROUNDS + shift(64, 0) + [1] * 65, ["refused 17"]),
    # Two rules broken: the order of the checks decides
    ("7 before 8", put(TABLE_1, {59: 0}), ["refused 7"]),
    ("7 before 17", put(TABLE_1 + M, {59: 0}), ["refused 7"]),
    ("9 before 17", TABLE_1 + [0, 1, 2, 3, 4, 5, 5], ["refused 9"]),
    ("10 before 17, no weights", SAME + [1, 0], ["refused 10"]),
    ("10 before 17, three weights", SAME + [1, 0, 1, 1, 1], ["refused 10"]),
]

# (what is tried, bytes, room, lines): 14 is the call's one refusal
ROOMS = [
    ("Table 1, no room to spare", TABLE_1 + M + TURNED, 77, TABLE_1_TURNED),
    ("Table 1, one byte too few", TABLE_1 + M + TURNED, 76, []),
    ("Table 1, no room", TABLE_1 + M + TURNED, 0, []),
    ("refused 17, no room to spare", TABLE_1 + M, 11, ["refused 17"]),
    ("refused 17, one byte too few", TABLE_1 + M, 10, []),
    ("1,024 bytes are always enough", TABLE_1 + M + HEAVY, 1024, TABLE_1_HEAVY),
]

CASES = [sheet(given, lines, call=WEIGHTED_SHEET) for _, given, lines in SHEETS]
CASES += [sheet(given, lines, room, WEIGHTED_SHEET) for _, given, room, lines in ROOMS]
