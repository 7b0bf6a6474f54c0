"""Cases of the call that writes a sheet with moves. Each input is a book with a matching after it.

The texts of Table 1 of document 000 with its matching M5, of the six short lists and of 64 are literals that follow by
hand, from Tables 2 and 3 and the places on the lists; those of Table 1 and of the six have to be as defined. All other
texts are those of definitions.py, found among all matchings. The refusals are literals.
"""
from cases.books import M5, NOBODY, ONE, SAME, SHORT_TABLE_1, SIX, TABLE_1, TWO
from cases.books import digits, mentors, put, short_book, short_book_of
from cases.form import MOVES
from cases.mentor_calls import TABLE_1_MARKET
from cases.sheet_calls import TABLE_1_SHEET, sheet
from cases.short_lists import MARKETS
from cases.short_sheet_calls import SIX_SHEET, SIX_UP

M = digits(M5)
# The moves of each student's line of TABLE_1_SHEET. By Table 3 the repairs are M2, M1, M6, M7, M8, M2 and M6
M2 = [" 0 4 2 +1", " 5 2 4 +1"]
M1 = [" 0 4 2 +1", " 1 5 4 +1", " 5 2 0 +4", " 6 0 5 +1"]
M6 = [" 2 6 0 -1", " 6 0 6 -1"]
M7 = [" 1 5 3 -3", " 2 6 0 -1", " 3 3 5 -6", " 6 0 6 -1"]
M8 = [" 0 4 1 -1", " 4 1 4 -4"]


def under(lines, moves):
    """The lines of a sheet, and under each but the first the moves of that student."""
    return [lines[0]] + [line for own, those in zip(lines[1:], moves, strict=True) for line in [own, *those]]


TABLE_1_MOVES = under(TABLE_1_SHEET, [M2, M1, M6, M7, M8, M2, M6])
DOWN, UP = [" 0 0 1 -1", " 1 1 0 -1"], [" 0 1 0 +1", " 1 0 1 +1"]
SIX_MOVES = {
    (0, 1, 2, 3, 255, 255): under(SIX_SHEET, [DOWN, DOWN, [], [], [], []]),
    (1, 0, 2, 3, 255, 255): under(SIX_UP, [UP, UP, [], [], [], []]),
}
assert TABLE_1_MARKET.moves(tuple(M)) == TABLE_1_MOVES
assert {m: MARKETS[0].moves(m) for m in MARKETS[0].all_stable} == SIX_MOVES

# 64 students of edition 2, of whom each two, 2k and 2k + 1, can exchange mentors 2k and 2k + 1: lists of two, in which
# the student of the same number is the mentor's second
EXCHANGES = short_book([[k, k ^ 1] for k in range(64)] + [[k ^ 1, k] for k in range(64)])
EXCHANGES_MOVES = under(
    ["64 32 0 1"] + [f"{s} {s} D 2" for s in range(64)],
    [[f" {k} {k} {k ^ 1} -1" for k in (s & ~1, s | 1)] for s in range(64)],
)

# (what is tried, bytes, lines); the room is two bytes more than the text has
TEXTS = [
    ("n = 0", NOBODY, ["0 0 0 -"]),
    ("n = 1", ONE + [0], ["1 0 1 -", "0 0 F 0"]),
    ("two by two, 0 1", TWO + [0, 1], under(["2 1 0 1", "0 0 D 2", "1 1 D 2"], [DOWN, DOWN])),
    ("two by two, 1 0", TWO + [1, 0], under(["2 1 0 1", "0 1 U 2", "1 0 U 2"], [UP, UP])),
    ("Table 1", TABLE_1 + M, TABLE_1_MOVES),
    ("Table 1, edition 2", put(TABLE_1 + M, {0: 2}), TABLE_1_MOVES),
    ("64, each two exchange", EXCHANGES + [*range(64)], EXCHANGES_MOVES),
    # Refusals of the book and of the matching
    ("no bytes", [], ["refused 1"]),
    ("one byte", [1], ["refused 1"]),
    ("Table 1, 155 bytes", TABLE_1[:155], ["refused 1"]),
    ("edition 3", put(TWO + [0, 1], {0: 3}), ["refused 2"]),
    ("n = 65", put(TWO + [0, 1], {1: 65}), ["refused 3"]),
    ("first offset one more", put(TWO + [0, 1], {2: 19}), ["refused 5"]),
    ("six, the last offset is 0", put(SIX + mentors("0123--"), {46: 0}), ["refused 5"]),
    ("an entry is 2", put(TWO + [0, 1], {18: 2}), ["refused 6"]),
    ("an entry twice", put(TWO + [0, 1], {19: 0}), ["refused 7"]),
    ("a student's entry is not returned", short_book_of("0 -") + [255], ["refused 18"]),
    ("Table 1 with no matching", TABLE_1, ["refused 8"]),
    ("two by two, one byte more", TWO + [0, 1, 0], ["refused 8"]),
    ("mentor 1 twice", TWO + [1, 1], ["refused 9"]),
    ("edition 1: 255 is a clash", TWO + [0, 255], ["refused 9"]),
    ("student 4 and mentor 4 do not list each other", SIX + mentors("01234-"), ["refused 19"]),
    ("all rank 0 first, 1 0", SAME + [1, 0], ["refused 10"]),
]

# (what is tried, bytes, room, lines): 14 is the call's one refusal
ROOMS = [
    ("Table 1, no room to spare", TABLE_1 + M, 244, TABLE_1_MOVES),
    ("Table 1, one byte too few", TABLE_1 + M, 243, []),
    ("Table 1, enough for the sheet without moves", TABLE_1 + M, 64, []),
    ("Table 1, no room", TABLE_1 + M, 0, []),
    ("n = 1, no room to spare", ONE + [0], 16, ["1 0 1 -", "0 0 F 0"]),
    ("n = 1, one byte too few", ONE + [0], 15, []),
    ("refused, no room to spare", [], 10, ["refused 1"]),
    ("refused, one byte too few", [], 9, []),
]


def defined(market, b, given):
    """The texts of these stable matchings of a book."""
    return [sheet(b + [*m], market.moves(m), call=MOVES) for m in given]


CASES = [sheet(given, lines, call=MOVES) for _, given, lines in TEXTS]
CASES += [sheet(given, lines, room, MOVES) for _, given, room, lines in ROOMS]
CASES += defined(TABLE_1_MARKET, TABLE_1, [m for m in TABLE_1_MARKET.all_stable if m != tuple(M)])
CASES += defined(MARKETS[1], SHORT_TABLE_1, MARKETS[1].all_stable[::3])
for MARKET in [MARKETS[0], *MARKETS[2:]]:
    CASES += defined(MARKET, short_book(MARKET.lists), MARKET.all_stable)
