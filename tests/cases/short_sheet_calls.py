"""Cases of the sheet and the weighted sheet of books of edition 2 (document 02, W-203): the line of a student without a
mentor, who does not count as fixed (W-204), how an input is parted, and refusals.

The expected sheets are literals that follow by hand: of the six, students 0 and 1 exchange and the pairs of 2 and 3 are
fixed; SHORT_TABLE_1 has the lines of Table 1; of 64 with lists of 8 the matchings are those of `rounds`.
"""
from cases.books import LONE, LONE_TWO, ONE_BESIDE, ONE_SHORT, SHORT_ROUNDS, SHORT_TABLE_1, SIX, TWO
from cases.books import mentors, put, shift, short_book_of
from cases.form import MENTOR_BEST, ROTATION_COUNT, STUDENT_BEST, WEIGHTED_SHEET, case, fine
from cases.sheet_calls import TABLE_1_SHEET, sheet

M, WORST = mentors("0123--"), mentors("1023--")
M5 = mentors("4563120-")
ONES = [1] * 6
SIX_SHEET = ["6 1 2 1", "0 0 D 2", "1 1 D 2", "2 2 F 0", "3 3 F 0", "4 - N 0", "5 - N 0"]
SIX_UP = ["6 1 2 1", "0 1 U 2", "1 0 U 2", *SIX_SHEET[3:]]
SIX_WEIGHTED = ["6 1 2 30", "0 0 D 37", "1 1 D 37", *SIX_SHEET[3:]]
SIX_ZERO = ["6 1 2 0", "0 0 D 0", "1 1 D 0", *SIX_SHEET[3:]]
SHORT_TABLE_1_SHEET = ["8 6 0 3", *TABLE_1_SHEET[1:], "7 - N 0"]
# Weights 1 1 9 1 1 3 1, as README.md has them for Table 1
TABLE_1_TOTALS = ["0 4 D 2", "1 5 U 6", "2 6 D 10", "3 3 D 12", "4 1 D 2", "5 2 U 4", "6 0 U 6"]

# (what is tried, bytes, lines)
SHEETS = [
    ("n = 0", [2, 0], ["0 0 0 -"]),
    ("n = 1", ONE_SHORT + [0], ["1 0 1 -", "0 0 F 0"]),
    ("n = 1, alone", LONE + [255], ["1 0 0 -", "0 - N 0"]),
    ("n = 2, both alone", LONE_TWO + [255, 255], ["2 0 0 -", "0 - N 0", "1 - N 0"]),
    ("n = 2, one fixed and one alone", ONE_BESIDE + [0, 255], ["2 0 1 -", "0 0 F 0", "1 - N 0"]),
    ("six, student-best", SIX + M, SIX_SHEET),
    ("six, mentor-best", SIX + WORST, SIX_UP),
    ("Table 1, shortened", SHORT_TABLE_1 + M5, SHORT_TABLE_1_SHEET),
    ("two by two, full lists", short_book_of("01 10 10 01") + [0, 1], ["2 1 0 1", "0 0 D 2", "1 1 D 2"]),
    ("64, lists of 8, place 0", SHORT_ROUNDS + shift(64, 0), ["64 7 0 63"] + [f"{i} {i} D 64" for i in range(64)]),
    ("64, place 7", SHORT_ROUNDS + shift(64, 7), ["64 7 0 63"] + [f"{i} {(i + 7) % 64} U 64" for i in range(64)]),
    # The book's rules
    ("six, the directory does not fit", SIX[:49], ["refused 1"]),
    ("six, 69 bytes", SIX[:69], ["refused 1"]),
    ("edition 3", put(SIX + M, {0: 3}), ["refused 2"]),
    ("n = 65", put(SIX + M, {1: 65}), ["refused 3"]),
    ("length n + 1", put(SIX + M, {4: 7}), ["refused 5"]),
    ("last entry is 6", put(SIX + M, {69: 6}), ["refused 6"]),
    ("student 0's second entry is the first", put(SIX + M, {51: 0}), ["refused 7"]),
    ("a student's entry is not returned", short_book_of("0 -") + [255], ["refused 18"]),
    ("a mentor's entry is not returned", short_book_of("- 0") + [255], ["refused 18"]),
    ("18 after a later 7", short_book_of("0 - - 11") + [255, 255], ["refused 7"]),
    ("18 before 8", short_book_of("0 -"), ["refused 18"]),
    # Where the book ends is what the last directory pair says, and not before the directory: a wrong one is 5
    ("the last offset is 0", put(SIX + M, {46: 0}), ["refused 5"]),
    ("the last offset is 0, and no list", put(SIX, {46: 0})[:50], ["refused 5"]),
    ("the last offset is 65,350", put(SIX + M, {47: 255}), ["refused 5"]),
    ("the last length is 65,280", put(SIX + M, {49: 255}), ["refused 5"]),
    ("the first byte of the matching on mentor 5's list", put(SIX + M, {48: 1}), ["refused 18"]),
    ("the whole matching on mentor 5's list: 255 is no student", put(SIX + M, {48: 6}), ["refused 6"]),
    # The matching's
    ("six with no matching", SIX, ["refused 8"]),
    ("one byte of the matching short", SIX + M[:5], ["refused 8"]),
    ("one byte more", SIX + M + [255], ["refused 8"]),
    ("n = 0, one byte more", [2, 0, 255], ["refused 8"]),
    ("mentor 6", SIX + mentors("01236-"), ["refused 9"]),
    ("mentor 3 twice", SIX + mentors("0123-3"), ["refused 9"]),
    ("edition 1: 255 is a clash", TWO + [0, 255], ["refused 9"]),
    ("student 4 and mentor 4 do not list each other", SIX + mentors("01234-"), ["refused 19"]),
    ("9 before 19", SIX + mentors("5123-5"), ["refused 9"]),
    ("all alone", SIX + mentors("------"), ["refused 10"]),
    ("mentor 4 is alone and student 2 prefers her", SIX + mentors("0132--"), ["refused 10"]),
]

# The weighted sheet
WEIGHTED = [
    ("n = 0", [2, 0], ["0 0 0 -"]),
    ("n = 1", ONE_SHORT + [0, 0], ["1 0 1 -", "0 0 F 0"]),
    ("n = 1, alone", LONE + [255, 9], ["1 0 0 -", "0 - N 0"]),
    ("n = 2, both alone", LONE_TWO + [255, 255, 0, 0], ["2 0 0 -", "0 - N 0", "1 - N 0"]),
    ("n = 2, one fixed and one alone", ONE_BESIDE + [0, 255, 7, 30], ["2 0 1 -", "0 0 F 0", "1 - N 0"]),
    ("six: only those who are alone weigh something", SIX + M + [0, 0, 0, 0, 255, 255], SIX_ZERO),
    ("six: those who are alone weigh most", SIX + M + [7, 30, 1, 1, 255, 255], SIX_WEIGHTED),
    ("six, all 1", SIX + WORST + ONES, SIX_UP),
    ("Table 1, shortened", SHORT_TABLE_1 + M5 + [1, 1, 9, 1, 1, 3, 1, 255], ["8 6 0 11", *TABLE_1_TOTALS, "7 - N 0"]),
    ("six, 69 bytes", SIX[:69], ["refused 1"]),
    ("the last offset is 0", put(SIX + M + ONES, {46: 0}), ["refused 5"]),
    ("a mentor's entry is not returned", short_book_of("- 0") + [255, 1], ["refused 18"]),
    ("one byte of the matching short", SIX + M[:5], ["refused 8"]),
    ("student 4 and mentor 4 do not list each other", SIX + mentors("01234-") + ONES, ["refused 19"]),
    ("all alone", SIX + mentors("------") + ONES, ["refused 10"]),
    ("no weights", SIX + M, ["refused 17"]),
    ("five weights", SIX + M + ONES[:5], ["refused 17"]),
    ("seven weights", SIX + M + ONES + [1], ["refused 17"]),
    ("19 before 17", SIX + mentors("01234-"), ["refused 19"]),
]

CASES = [sheet(given, lines) for _, given, lines in SHEETS]
CASES += [sheet(given, lines, call=WEIGHTED_SHEET) for _, given, lines in WEIGHTED]
# 14: the room is one byte too few, and exact
CASES += [sheet(SIX + M, [], 55), sheet(SIX + M, SIX_SHEET, 56)]
# The extremes and the number of rotations of 64 with lists of 8
CASES += [case(STUDENT_BEST, fine(64), SHORT_ROUNDS, room=64, out=shift(64, 0))]
CASES += [case(MENTOR_BEST, fine(64), SHORT_ROUNDS, room=64, out=shift(64, 7))]
CASES += [case(ROTATION_COUNT, fine(7), SHORT_ROUNDS)]
