"""Cases of the weighted repair of a pair and of the weighted grade (document 02, W-201).

The expected replies and buffers are literals. For Table 1 of document 000 and its matching they follow by hand from
its Tables 2 and 3: repair up of students 0 and 5 moves 0 and 5, of 1 and 6 it moves 0, 1, 5 and 6; repair down of 0
and 4 moves 0 and 4, of 2 and 6 it moves 2 and 6, of 1 and 3 it moves 1, 2, 3 and 6; the others have no such repair.
For the small books of document 01 and for `rounds`, in which every repair moves all, they follow by hand too. For the
books FOUR and FIVE they are those of tests/listing. Where no pair can be repaired there is no grade; else a grade of 0
is a number (W-204).
"""
from cases.books import FIRSTS, M5, NOBODY, ONE, ONE_FIXED, ROUNDS, SAME, TABLE_1, TWO, TWO_ROTATIONS
from cases.books import digits, put, shift
from cases.form import WEIGHTED_GRADE, WEIGHTED_REPAIR, case, graded, moved, refused
from cases.repair_calls import FIVE, FOUR

M = digits(M5)
# Student 0, plain U, is D: 10 + 5 is less than 10 + 30. Student 6, plain D, is U: 10 + 20 + 30 + 50 is less than
# 200 + 50
TURNED = [10, 20, 200, 40, 5, 30, 50]
# Student 6: up weighs 1 + 2 + 3 + 9, as much as down, 6 + 9
EQUAL = [1, 2, 6, 0, 1, 3, 9]
# Student 2 is heavy
HEAVY = [1, 1, 255, 1, 1, 1, 1]
# The largest total, that of student 3, is his own weight; the largest without the asking student is that of student 1
OWN = [100, 0, 0, 255, 0, 100, 0]
# Three students between two rotations: repair up of 0 and 2 moves both and weighs 1, repair down of 1 and 2 moves both
# and weighs 0. Student 0 has no repair down and student 1 none up. The grade is 0: the weight of student 0 is his own
BETWEEN, FIRST = [2, 0, 1], [1, 0, 0]
# The mentors in each repair of Table 1 and the places gained
UP_0, UP_1 = ("2563140", [1, 0, 0, 0, 0, 1, 0]), ("2463105", [1, 1, 0, 0, 0, 4, 1])
DOWN_0, DOWN_2 = ("1563420", [-1, 0, 0, 0, -4, 0, 0]), ("4503126", [0, 0, -1, 0, 0, 0, -1])
DOWN_1 = ("4305126", [0, -3, -1, -6, 0, 0, -1])
NONE = ("", [])

# A repair: (what is tried, bytes of the book, matching, weights, request, reply, repaired matching and gains); the
# buffers have n entries
REPAIRED = [
    # Table 1
    ("up 40, down 15", TABLE_1, M5, TURNED, [0, 4], moved("D", 15), DOWN_0),
    ("up 110, down 310", TABLE_1, M5, TURNED, [1, 5], moved("U", 110), UP_1),
    ("no repair up", TABLE_1, M5, TURNED, [2, 6], moved("D", 250), DOWN_2),
    ("no repair up, over 255", TABLE_1, M5, TURNED, [3, 3], moved("D", 310), DOWN_1),
    ("no repair up", TABLE_1, M5, TURNED, [4, 1], moved("D", 15), DOWN_0),
    ("no repair down", TABLE_1, M5, TURNED, [5, 2], moved("U", 40), UP_0),
    ("up 110, down 250", TABLE_1, M5, TURNED, [6, 0], moved("U", 110), UP_1),
    ("equal: up", TABLE_1, M5, EQUAL, [6, 0], moved("U", 15), UP_1),
    ("down 1 less", TABLE_1, M5, put(EQUAL, {2: 5}), [6, 0], moved("D", 14), DOWN_2),
    ("all 1: as without weights", TABLE_1, M5, [1] * 7, [6, 0], moved("D", 2), DOWN_2),
    ("all 0: up", TABLE_1, M5, [0] * 7, [6, 0], moved("U", 0), UP_1),
    ("all 0, no repair up", TABLE_1, M5, [0] * 7, [2, 6], moved("D", 0), DOWN_2),
    ("all 255", TABLE_1, M5, [255] * 7, [3, 3], moved("D", 1020), DOWN_1),
    # The small books
    ("n = 1: fixed, whatever he weighs", ONE, "0", [255], [0, 0], moved("F", 0), NONE),
    ("two alike: fixed", SAME, "01", [7, 9], [1, 1], moved("F", 0), NONE),
    ("two by two: down", TWO, "01", [255, 255], [0, 0], moved("D", 510), ("10", [-1, -1])),
    ("two by two: up", TWO, "10", [0, 7], [1, 0], moved("U", 7), ("01", [1, 1])),
    # Between two rotations
    ("up 1, his own", TWO_ROTATIONS, "201", FIRST, [0, 2], moved("U", 1), ("102", [1, 0, 1])),
    ("down 0", TWO_ROTATIONS, "201", FIRST, [1, 0], moved("D", 0), ("210", [0, -1, -1])),
    ("up 1, down 0", TWO_ROTATIONS, "201", FIRST, [2, 1], moved("D", 0), ("210", [0, -1, -1])),
    # Up moves more and weighs less; up moves all five, down two, and both weigh 12
    ("up 3, down 10", FOUR, "0321", [9, 1, 1, 1], [1, 3], moved("U", 3), ("0213", [0, 1, 1, 1])),
    ("up moves five", FIVE, "14302", [0, 0, 5, 0, 7], [2, 3], moved("U", 12), ("32014", [3, 2, 1, 1, 1])),
    ("down moves two", FIVE, "14302", [0, 0, 5, 1, 7], [2, 3], moved("D", 12), ("14203", [0, 0, -1, 0, -1])),
]

# The same with other room: (what is tried, bytes, matching, weights, request, rooms of the two buffers, reply,
# matching and gains)
ROOMS = [
    # Nothing past n entries is written
    ("room for more", TWO, "01", [3, 4], [0, 0], (4, 3), moved("D", 7), ("10", [-1, -1])),
    ("fixed, room for more", ONE, "0", [5], [0, 0], (2, 3), moved("F", 0), NONE),
    # 14 sheet
    ("room for one byte", TWO, "01", [3, 4], [0, 0], (1, 2), refused(14), NONE),
    ("room for one gain", TWO, "01", [3, 4], [0, 0], (2, 1), refused(14), NONE),
    ("fixed, no room for a byte", ONE, "0", [5], [0, 0], (0, 1), refused(14), NONE),
    ("fixed, no room for a gain", ONE, "0", [5], [0, 0], (1, 0), refused(14), NONE),
]

# Refused, with nothing written: (what is tried, bytes of the book, matching, weights, request, room of each buffer,
# reply)
REFUSED = [
    # The book's rules and the matching's
    ("no bytes", [], "01", [1, 1], [0, 0], 2, refused(1)),
    ("one byte short", TWO[:25], "01", [1, 1], [0, 0], 2, refused(1, 25)),
    ("edition 0", put(TWO, {0: 0}), "01", [1, 1], [0, 0], 2, refused(2)),
    ("n = 65", put(TWO, {1: 65}), "01", [1, 1], [0, 0], 2, refused(3, 1)),
    ("one byte more", TWO + [0], "01", [1, 1], [0, 0], 2, refused(4, 26)),
    ("second directory pair", put(TWO, {8: 3}), "01", [1, 1], [0, 0], 2, refused(5, 6)),
    ("first entry is 2", put(TWO, {18: 2}), "01", [1, 1], [0, 0], 2, refused(6, 18)),
    ("second entry is the first", put(TWO, {19: 0}), "01", [1, 1], [0, 0], 2, refused(7, 19)),
    ("a matching of one byte", TWO, "0", [1, 1], [0, 0], 2, refused(8)),
    ("a mentor twice", TWO, "00", [1, 1], [0, 0], 2, refused(9, 1)),
    ("student 0 and mentor 0 block", SAME, "10", [1, 1], [0, 1], 2, refused(10, 0, 0)),
    # 17 weights
    ("no weights", TWO, "01", [], [0, 0], 2, refused(17)),
    ("one weight of two", TWO, "01", [1], [0, 0], 2, refused(17)),
    ("three weights for two", TWO, "01", [1, 1, 1], [0, 0], 2, refused(17)),
    ("six weights of seven", TABLE_1, M5, [1] * 6, [0, 4], 7, refused(17)),
    ("eight weights for seven", TABLE_1, M5, [1] * 8, [0, 4], 7, refused(17)),
    ("n = 0, one weight", NOBODY, "", [0], [0, 0], 0, refused(17)),
    # The request's
    ("no request", TWO, "01", [1, 1], [], 2, refused(13)),
    ("three bytes", TWO, "01", [1, 1], [0, 0, 0], 2, refused(13)),
    ("no student 2", TWO, "01", [1, 1], [2, 0], 2, refused(11)),
    ("no mentor 2", TWO, "01", [1, 1], [0, 2], 2, refused(11)),
    ("n = 0: no student", NOBODY, "", [], [0, 0], 0, refused(11)),
    ("not together", TWO, "01", [1, 1], [0, 1], 2, refused(12)),
    # In this order: the book, 8, 9, 10, 17, 13, 11, 12, 14
    ("7 before 17", put(TWO, {19: 0}), "01", [1], [0], 1, refused(7, 19)),
    ("8 before 17", TWO, "0", [1], [0], 1, refused(8)),
    ("9 before 17", TWO, "00", [1], [0], 1, refused(9, 1)),
    ("10 before 17", SAME, "10", [1], [0], 1, refused(10, 0, 0)),
    ("17 before 13", TWO, "01", [1], [0], 1, refused(17)),
    ("17 before 11", TWO, "01", [1], [2, 0], 1, refused(17)),
    ("17 before 12", TWO, "01", [1, 1, 1], [0, 1], 1, refused(17)),
    ("17 before 14", TWO, "01", [1, 1, 1], [0, 0], 1, refused(17)),
    ("13 before 11", TWO, "01", [1, 1], [2], 1, refused(13)),
    ("11 before 12", TWO, "01", [1, 1], [0, 2], 1, refused(11)),
    ("12 before 14", TWO, "01", [1, 1], [0, 1], 1, refused(12)),
]

# The grade: (what is tried, bytes of the book, matching, weights, reply)
GRADED = [
    ("student 3: 310 less 40", TABLE_1, M, TURNED, graded(270)),
    ("student 3: 258 less 1", TABLE_1, M, HEAVY, graded(257)),
    ("student 1: 200 less 0", TABLE_1, M, OWN, graded(200)),
    ("all 1: as without weights", TABLE_1, M, [1] * 7, graded(3)),
    ("all 0", TABLE_1, M, [0] * 7, graded(0)),
    ("student 0: 1 less 1", TWO_ROTATIONS, BETWEEN, FIRST, graded(0)),
    ("one pair of three is fixed, all 0", ONE_FIXED, [0, 1, 2], [0, 0, 0], graded(0)),
    ("one pair of three is fixed and heavy", ONE_FIXED, [1, 0, 2], [3, 5, 255], graded(5)),
    ("n = 0: no pair", NOBODY, [], [], graded(None)),
    ("n = 1: the pair is fixed", ONE, [0], [255], graded(None)),
    ("n = 1: the pair is fixed, weight 0", ONE, [0], [0], graded(None)),
    ("two alike: both pairs are fixed", SAME, [0, 1], [7, 9], graded(None)),
    ("two by two: 262 less 7", TWO, [0, 1], [255, 7], graded(255)),
    ("64 rounds: 64 times 255 less 255", ROUNDS, shift(64, 40), [255] * 64, graded(16065)),
    ("64 firsts: all pairs are fixed", FIRSTS, shift(64, 0), [255] * 64, graded(None)),
    ("edition 0", put(TWO, {0: 0}), [0, 1], [1, 1], refused(2)),
    ("a matching of one byte", TWO, [0], [1, 1], refused(8)),
    ("a mentor twice", TWO, [1, 1], [1, 1], refused(9, 1)),
    ("student 0 and mentor 0 block", SAME, [1, 0], [1, 1], refused(10, 0, 0)),
    ("no weights", TWO, [0, 1], [], refused(17)),
    ("six weights of seven", TABLE_1, M, [1] * 6, refused(17)),
    ("eight weights for seven", TABLE_1, M, [1] * 8, refused(17)),
    ("n = 0, one weight", NOBODY, [], [0], refused(17)),
    ("7 before 17", put(TWO, {19: 0}), [0, 1], [1], refused(7, 19)),
    ("8 before 17", TWO, [0], [1], refused(8)),
    ("9 before 17", TWO, [0, 0], [1], refused(9, 1)),
    ("10 before 17", SAME, [1, 0], [1], refused(10, 0, 0)),
]

# The repair for the largest n, where all weigh 255: (place of all in the matching, request, reply, place of all in the
# repaired one, places gained by each)
LARGEST = [
    (0, [63, 63], moved("D", 16320), 1, -1),
    (40, [0, 40], moved("U", 16320), 39, 1),
]


def repair(b, m, weights, request, rooms, reply, repaired=NONE):
    """A case of a repair; the matchings are digits."""
    (room, gains_room), (new, gains) = rooms, repaired
    parts = b, digits(m), weights, request
    return case(WEIGHTED_REPAIR, reply, *parts, room=room, out=digits(new), gains_room=gains_room, gains=gains)


def largest_repair(place, request, reply, new_place, gain):
    """A case of a repair for n = 64."""
    parts = ROUNDS, shift(64, place), [255] * 64, request
    out, gains = shift(64, new_place), [gain] * 64
    return case(WEIGHTED_REPAIR, reply, *parts, room=64, out=out, gains_room=64, gains=gains)


CASES = [repair(b, m, w, q, (len(m), len(m)), reply, repaired) for _, b, m, w, q, reply, repaired in REPAIRED]
CASES += [repair(*given) for _, *given in ROOMS]
CASES += [repair(b, m, w, q, (room, room), reply) for _, b, m, w, q, room, reply in REFUSED]
CASES += [largest_repair(*given) for given in LARGEST]
CASES += [case(WEIGHTED_GRADE, reply, b, m, w) for _, b, m, w, reply in GRADED]
