"""Cases of the calls on repairs: the repair of a pair and the grade.

The expected replies and buffers are literals. For Table 1 of document 000 and its matching they are those of Tables 2
and 3: which repair, its distance, and the matching of the closed set that Table 2 gives; the grade is the largest b of
Table 3. For the two-by-two book and the empty and the one-student book they are those of document 01, section 'Checked
by hand', with the gains read off the lists. For the books FOUR and FIVE they were worked out by listing all matchings.
Where no pair can be repaired there is no grade (document 02, W-204).
"""
from cases.books import FIRSTS, M5, NOBODY, ONE, ONE_FIXED, SAME, TABLE_1, TWO, TWO_ROTATIONS
from cases.books import book_of, digits, put, shift
from cases.form import GRADE, REPAIR, case, graded, moved, refused

# For the matching 0321 student 1 has a repair up that moves three, 0213, and one down that moves two, 3021
FOUR = book_of("0312 2301 1203 3102 1230 3021 2031 0132")
# For the matching 14302 student 2 has a repair up that moves five, 32014; the matching 04213, in which students 0 and 3
# are better off and 2 and 4 worse, moves four; the repair down, 14203, moves two
FIVE = book_of("43021 20431 03214 10432 42310 34012 02143 23410 14230 14320")

# A repair: (what is tried, bytes of the book, matching, request, reply, repaired matching, gains); the buffers have n
# entries
REPAIRED = [
    # Tables 2 and 3
    ("S_UP = {0, 1}", TABLE_1, M5, [0, 4], moved("U", 2), "2563140", [1, 0, 0, 0, 0, 1, 0]),
    ("S_UP = {0}", TABLE_1, M5, [1, 5], moved("U", 4), "2463105", [1, 1, 0, 0, 0, 4, 1]),
    ("S_DOWN = {0, 1, 2, 4}", TABLE_1, M5, [2, 6], moved("D", 2), "4503126", [0, 0, -1, 0, 0, 0, -1]),
    ("S_DOWN = {0, 1, 2, 4, 5}", TABLE_1, M5, [3, 3], moved("D", 4), "4305126", [0, -3, -1, -6, 0, 0, -1]),
    ("S_DOWN = {0, 1, 2, 3}", TABLE_1, M5, [4, 1], moved("D", 2), "1563420", [-1, 0, 0, 0, -4, 0, 0]),
    ("S_UP = {0, 1}", TABLE_1, M5, [5, 2], moved("U", 2), "2563140", [1, 0, 0, 0, 0, 1, 0]),
    ("S_DOWN = {0, 1, 2, 4}, nearer than up", TABLE_1, M5, [6, 0], moved("D", 2), "4503126", [0, 0, -1, 0, 0, 0, -1]),
    # Document 01's small cases
    ("n = 1: fixed, and nothing is written", ONE, "0", [0, 0], moved("F", 0), "", []),
    ("two by two: down", TWO, "01", [0, 0], moved("D", 2), "10", [-1, -1]),
    ("two by two: down", TWO, "01", [1, 1], moved("D", 2), "10", [-1, -1]),
    ("two by two: up", TWO, "10", [0, 1], moved("U", 2), "01", [1, 1]),
    ("two by two: up", TWO, "10", [1, 0], moved("U", 2), "01", [1, 1]),
    # One stable matching: every pair is fixed
    ("two alike: fixed", SAME, "01", [0, 0], moved("F", 0), "", []),
    ("two alike: fixed", SAME, "01", [1, 1], moved("F", 0), "", []),
    # Down is nearer although up exists
    ("no repair up", FOUR, "0321", [0, 0], moved("D", 2), "3021", [-1, -1, 0, 0]),
    ("up moves three, down two", FOUR, "0321", [1, 3], moved("D", 2), "3021", [-1, -1, 0, 0]),
    ("no repair down", FOUR, "0321", [2, 2], moved("U", 3), "0213", [0, 1, 1, 1]),
    ("no repair down", FOUR, "0321", [3, 1], moved("U", 3), "0213", [0, 1, 1, 1]),
    # An incomparable matching is nearer than up
    ("up", FIVE, "14302", [0, 1], moved("U", 2), "04312", [2, 0, 0, 1, 0]),
    ("up", FIVE, "14302", [1, 4], moved("U", 2), "12304", [0, 2, 0, 0, 1]),
    ("up moves five, incomparable four, down two", FIVE, "14302", [2, 3], moved("D", 2), "14203", [0, 0, -1, 0, -1]),
]

# The same with other room: (what is tried, bytes, matching, request, rooms of the two buffers, reply, matching, gains)
ROOMS = [
    # Nothing past n entries is written
    ("room for more", TWO, "01", [0, 0], (4, 3), moved("D", 2), "10", [-1, -1]),
    ("fixed, room for more", ONE, "0", [0, 0], (2, 3), moved("F", 0), "", []),
    # 14 sheet
    ("room for one byte", TWO, "01", [0, 0], (1, 2), refused(14), "", []),
    ("room for one gain", TWO, "01", [0, 0], (2, 1), refused(14), "", []),
    ("fixed, no room for a byte", ONE, "0", [0, 0], (0, 1), refused(14), "", []),
    ("fixed, no room for a gain", ONE, "0", [0, 0], (1, 0), refused(14), "", []),
]

# Refused, with nothing written: (what is tried, bytes of the book, matching, request, room of each buffer, reply)
REFUSED = [
    # The book's rules
    ("no bytes", [], "01", [0, 0], 2, refused(1)),
    ("one byte short", TWO[:25], "01", [0, 0], 2, refused(1, 25)),
    ("edition 0", put(TWO, {0: 0}), "01", [0, 0], 2, refused(2)),
    ("n = 65", put(TWO, {1: 65}), "01", [0, 0], 2, refused(3, 1)),
    ("one byte more", TWO + [0], "01", [0, 0], 2, refused(4, 26)),
    ("second directory pair", put(TWO, {8: 3}), "01", [0, 0], 2, refused(5, 6)),
    ("first entry is 2", put(TWO, {18: 2}), "01", [0, 0], 2, refused(6, 18)),
    ("second entry is the first", put(TWO, {19: 0}), "01", [0, 0], 2, refused(7, 19)),
    # The matching's
    ("a matching of one byte", TWO, "0", [0, 0], 2, refused(8)),
    ("a mentor twice", TWO, "00", [0, 0], 2, refused(9, 1)),
    ("a mentor with number 2", TWO, "20", [0, 0], 2, refused(9)),
    ("student 0 and mentor 0 block", SAME, "10", [0, 1], 2, refused(10, 0, 0)),
    # The request's
    ("no request", TWO, "01", [], 2, refused(13)),
    ("one byte", TWO, "01", [0], 2, refused(13)),
    ("three bytes", TWO, "01", [0, 0, 0], 2, refused(13)),
    ("no student 2", TWO, "01", [2, 0], 2, refused(11)),
    ("no mentor 2", TWO, "01", [0, 2], 2, refused(11)),
    ("n = 0: no student", NOBODY, "", [0, 0], 0, refused(11)),
    ("not together", TWO, "01", [0, 1], 2, refused(12)),
    # In this order: the book, 8, 9, 10, 13, 11, 12, 14
    ("7 before 8", put(TWO, {19: 0}), "0", [0], 1, refused(7, 19)),
    ("8 before 13", TWO, "0", [0], 1, refused(8)),
    ("9 before 13", TWO, "00", [0], 1, refused(9, 1)),
    ("10 before 13", SAME, "10", [0], 1, refused(10, 0, 0)),
    ("13 before 11", TWO, "01", [2], 1, refused(13)),
    ("11 before 12", TWO, "01", [0, 2], 1, refused(11)),
    ("12 before 14", TWO, "01", [0, 1], 1, refused(12)),
]

# The grade: (what is tried, bytes of the book, matching, reply)
GRADED = [
    ("the largest b of Table 3", TABLE_1, M5, graded(3)),
    ("n = 0: no pair", NOBODY, "", graded(None)),
    ("n = 1: the pair is fixed", ONE, "0", graded(None)),
    ("two by two, student-best", TWO, "01", graded(1)),
    ("two by two, mentor-best", TWO, "10", graded(1)),
    ("two alike: both pairs are fixed", SAME, "01", graded(None)),
    ("one pair of three is fixed", ONE_FIXED, "012", graded(1)),
    ("between two rotations", TWO_ROTATIONS, "201", graded(1)),
    ("two besides the asking student", FOUR, "0321", graded(2)),
    ("one besides the asking student", FIVE, "14302", graded(1)),
    ("edition 0", put(TWO, {0: 0}), "01", refused(2)),
    ("a matching of one byte", TWO, "0", refused(8)),
    ("a mentor twice", TWO, "11", refused(9, 1)),
    ("student 0 and mentor 0 block", SAME, "10", refused(10, 0, 0)),
]


def repair(b, m, request, rooms, reply, new="", gains=()):
    room, gains_room = rooms
    return case(REPAIR, reply, b, digits(m), request, room=room, out=digits(new), gains_room=gains_room, gains=gains)


CASES = [repair(b, m, q, (len(m), len(m)), reply, new, gains) for _, b, m, q, reply, new, gains in REPAIRED]
CASES += [repair(*given) for _, *given in ROOMS]
CASES += [repair(b, m, q, (room, room), reply) for _, b, m, q, room, reply in REFUSED]
CASES += [case(GRADE, reply, b, digits(m)) for _, b, m, reply in GRADED]
# 64 pairs, all fixed
CASES += [case(GRADE, graded(None), FIRSTS, shift(64, 0))]
