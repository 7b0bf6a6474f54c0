"""Cases of the call that writes a sheet. Each input is a book with a matching after it.

The expected sheets are literals: those that document 01 gives, with the line one of W-204 of document 02, and others
that follow by hand, as said beside them.
"""
from cases.books import FIRSTS, M5, NOBODY, ONE, ONE_FIXED, ROUNDS, SAME, TABLE_1, TWO, TWO_ROTATIONS
from cases.books import digits, put, rounds, shift
from cases.form import SHEET, case, fine, refused

M = digits(M5)
R3 = rounds(3)
TABLE_1_SHEET = ["7 6 0 3", "0 4 U 2", "1 5 U 4", "2 6 D 2", "3 3 D 4", "4 1 D 2", "5 2 U 2", "6 0 D 2"]

# (what is tried, bytes, lines); the room is two bytes more than the sheet has
SHEETS = [
    # Sheets that documents 01 and 02 give
    ("n = 0", NOBODY, ["0 0 0 -"]),
    ("n = 1", ONE + [0], ["1 0 1 -", "0 0 F 0"]),
    ("two by two, 0 1", TWO + [0, 1], ["2 1 0 1", "0 0 D 2", "1 1 D 2"]),
    ("two by two, 1 0", TWO + [1, 0], ["2 1 0 1", "0 1 U 2", "1 0 U 2"]),
    ("the other two by two, 1 0", SAME + [1, 0], ["refused 10"]),
    ("Table 1", TABLE_1 + M, TABLE_1_SHEET),
    # All rank 0 above 1: the stable matching is 0 1 alone
    ("the other two by two, 0 1", SAME + [0, 1], ["2 0 2 -", "0 0 F 0", "1 1 F 0"]),
    # Students 0 and 1 exchange their mentors. Between two rotations the first student goes up, the second down, and the
    # third, who moves in both, up
    ("one pair of three is fixed", ONE_FIXED + [0, 1, 2], ["3 1 1 1", "0 0 D 2", "1 1 D 2", "2 2 F 0"]),
    ("between two rotations", TWO_ROTATIONS + [2, 0, 1], ["3 2 0 1", "0 2 U 2", "1 0 D 2", "2 1 U 2"]),
    # Down alone, both as near and so up, up alone
    ("three rounds, place 0", R3 + shift(3, 0), ["3 2 0 2", "0 0 D 3", "1 1 D 3", "2 2 D 3"]),
    ("three rounds, place 1", R3 + shift(3, 1), ["3 2 0 2", "0 1 U 3", "1 2 U 3", "2 0 U 3"]),
    ("three rounds, place 2", R3 + shift(3, 2), ["3 2 0 2", "0 2 U 3", "1 0 U 3", "2 1 U 3"]),
    # The largest n: two digits in every field but the letter
    ("64 firsts", FIRSTS + shift(64, 0), ["64 0 64 -"] + [f"{i} {i} F 0" for i in range(64)]),
    ("64 rounds, place 0", ROUNDS + shift(64, 0), ["64 63 0 63"] + [f"{i} {i} D 64" for i in range(64)]),
    ("64 rounds, place 40", ROUNDS + shift(64, 40), ["64 63 0 63"] + [f"{i} {(i + 40) % 64} U 64" for i in range(64)]),
    # 1 short
    ("no bytes", [], ["refused 1"]),
    ("one byte", [1], ["refused 1"]),
    ("Table 1, 155 bytes", TABLE_1[:155], ["refused 1"]),
    # 2 edition, 3 crowd
    ("edition 0", put(TABLE_1 + M, {0: 0}), ["refused 2"]),
    ("edition 3", put(TABLE_1 + M, {0: 3}), ["refused 2"]),
    ("n = 65", put(TABLE_1 + M, {1: 65}), ["refused 3"]),
    # 5 directory, 6 stranger, 7 repeat
    ("first offset one more", put(TABLE_1 + M, {2: 59}), ["refused 5"]),
    ("last entry is 7", put(TABLE_1 + M, {155: 7}), ["refused 6"]),
    ("last entry is the one before", put(TABLE_1 + M, {155: 0}), ["refused 7"]),
    # 8 length; bytes past the book are the matching, so 4 does not occur
    ("Table 1 with no matching", TABLE_1, ["refused 8"]),
    ("Table 1, one byte of the matching short", TABLE_1 + M[:6], ["refused 8"]),
    ("Table 1, one byte more", TABLE_1 + M + [0], ["refused 8"]),
    ("n = 0, one byte more", NOBODY + [0], ["refused 8"]),
    ("n = 64, one byte more: 8,771 bytes", ROUNDS + shift(64, 0) + [0], ["refused 8"]),
    # 9 clash
    ("mentor 7", TABLE_1 + put(M, {0: 7}), ["refused 9"]),
    ("mentor 6 twice", TABLE_1 + put(M, {6: 6}), ["refused 9"]),
    ("n = 1, mentor 255", ONE + [255], ["refused 9"]),
    # 10 unstable: mentor 0 ranks student 2 first, and he ranks her above mentor 2
    ("Table 1, 0 1 2 3 4 5 6", TABLE_1 + [0, 1, 2, 3, 4, 5, 6], ["refused 10"]),
    # Two rules broken: the order of the checks decides
    ("2 before 3", put(TABLE_1 + M, {0: 3, 1: 65}), ["refused 2"]),
    ("5 before 6", put(TABLE_1 + M, {54: 148, 58: 7}), ["refused 5"]),
    ("7 before 8", put(TABLE_1, {59: 0}), ["refused 7"]),
    ("7 before 9", put(TABLE_1 + M, {59: 0, 162: 4}), ["refused 7"]),
    ("8 before 9", TABLE_1 + [9] + M, ["refused 8"]),
    ("9 before 10", TABLE_1 + [0, 1, 2, 3, 4, 5, 5], ["refused 9"]),
]

# (what is tried, bytes, room, lines): 14 is the call's one refusal
ROOMS = [
    ("Table 1, no room to spare", TABLE_1 + M, 64, TABLE_1_SHEET),
    ("Table 1, one byte too few", TABLE_1 + M, 63, []),
    ("Table 1, no room", TABLE_1 + M, 0, []),
    ("n = 1, no room to spare", ONE + [0], 16, ["1 0 1 -", "0 0 F 0"]),
    ("n = 1, one byte too few", ONE + [0], 15, []),
    ("refused, no room to spare", [], 10, ["refused 1"]),
    ("refused, one byte too few", [], 9, []),
    ("refused 10, no room to spare", SAME + [1, 0], 11, ["refused 10"]),
    ("refused 10, one byte too few", SAME + [1, 0], 10, []),
    ("1,024 bytes are always enough", TABLE_1 + M, 1024, TABLE_1_SHEET),
]


def sheet(given, lines, room=None, call=SHEET):
    """A case with its sheet, or with 14 where there are no lines. The value is the number of bytes written."""
    out = "".join(line + "\n" for line in lines).encode()
    reply = fine(len(out)) if out else refused(14)
    return case(call, reply, given, room=len(out) + 2 if room is None else room, out=out)


CASES = [sheet(given, lines) for _, given, lines in SHEETS]
CASES += [sheet(given, lines, room) for _, given, room, lines in ROOMS]
