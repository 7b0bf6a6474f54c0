"""Cases of the calls on matchings: the two extremes and the check.

The expected matchings are those of document 01, section 'Checked by hand', and those of small books worked out by hand;
so are the blocking pairs. The refusals are those of document 01's table.
"""
from cases.books import NOBODY, ONE, SAME, TABLE_1, TWO, book_of, digits, put
from cases.form import CHECK_MATCHING, MENTOR_BEST, STUDENT_BEST, case, fine, refused

# Student 2 and mentor 1 rank each other first
THREE = book_of("012 120 120 012 210 120")
# Mentors 1 and 2 both rank student 0 first, and he ranks 2 above 1 above 0
CHOICE = book_of("210 012 012 012 012 021")

# The extremes: (what is tried, call, bytes of the book, room, reply, matching); the value is n
EXTREMES = [
    # Table 1's extremes, document 01
    ("Table 1, student-best", STUDENT_BEST, TABLE_1, 7, fine(7), "5463102"),
    ("Table 1, mentor-best", MENTOR_BEST, TABLE_1, 7, fine(7), "1305426"),
    # Small books
    ("n = 0, student-best", STUDENT_BEST, NOBODY, 0, fine(0), ""),
    ("n = 0, mentor-best", MENTOR_BEST, NOBODY, 0, fine(0), ""),
    ("n = 1, student-best", STUDENT_BEST, ONE, 1, fine(1), "0"),
    ("n = 1, mentor-best", MENTOR_BEST, ONE, 1, fine(1), "0"),
    ("two by two: each student has his first mentor", STUDENT_BEST, TWO, 2, fine(2), "01"),
    ("two by two: each mentor has her first student", MENTOR_BEST, TWO, 2, fine(2), "10"),
    ("two alike: one stable matching", STUDENT_BEST, SAME, 2, fine(2), "01"),
    ("two alike: one stable matching", MENTOR_BEST, SAME, 2, fine(2), "01"),
    # Nothing past the result is written
    ("n = 0, room for three", STUDENT_BEST, NOBODY, 3, fine(0), ""),
    ("n = 1, room for two", MENTOR_BEST, ONE, 2, fine(1), "0"),
    ("Table 1, student-best, room for eight", STUDENT_BEST, TABLE_1, 8, fine(7), "5463102"),
    ("Table 1, mentor-best, room for nine", MENTOR_BEST, TABLE_1, 9, fine(7), "1305426"),
    # 14 sheet: the buffer is too short, and nothing is written
    ("n = 1, no room", STUDENT_BEST, ONE, 0, refused(14), ""),
    ("two by two, room for one", MENTOR_BEST, TWO, 1, refused(14), ""),
    ("Table 1, room for six", STUDENT_BEST, TABLE_1, 6, refused(14), ""),
    ("Table 1, room for six", MENTOR_BEST, TABLE_1, 6, refused(14), ""),
    # The book's rules come before 14, and nothing is written
    ("no bytes", STUDENT_BEST, [], 2, refused(1), ""),
    ("two by two, one byte short", STUDENT_BEST, TWO[:25], 2, refused(1, 25), ""),
    ("edition 0", MENTOR_BEST, put(TWO, {0: 0}), 2, refused(2), ""),
    ("n = 65", STUDENT_BEST, put(TWO, {1: 65}), 2, refused(3, 1), ""),
    ("one byte more", MENTOR_BEST, TWO + [0], 2, refused(4, 26), ""),
    ("second directory pair", STUDENT_BEST, put(TWO, {8: 3}), 2, refused(5, 6), ""),
    ("first entry is 2", MENTOR_BEST, put(TWO, {18: 2}), 2, refused(6, 18), ""),
    ("second entry is the first", STUDENT_BEST, put(TWO, {19: 0}), 2, refused(7, 19), ""),
    ("7 before 14", MENTOR_BEST, put(TWO, {19: 0}), 1, refused(7, 19), ""),
    ("1 before 14", STUDENT_BEST, [1, 2], 0, refused(1, 2), ""),
]

# The check: (what is tried, bytes of the book, matching, reply)
CHECKED = [
    # Stable
    ("n = 0, empty matching", NOBODY, "", fine(0)),
    ("n = 1", ONE, "0", fine(0)),
    ("two by two, each student has his first mentor", TWO, "01", fine(0)),
    ("two by two, each mentor has her first student", TWO, "10", fine(0)),
    ("two alike", SAME, "01", fine(0)),
    ("Table 1, the sheet's matching", TABLE_1, "4563120", fine(0)),
    ("Table 1, student-best", TABLE_1, "5463102", fine(0)),
    ("Table 1, mentor-best", TABLE_1, "1305426", fine(0)),
    # 8 length
    ("n = 0, one byte", NOBODY, "0", refused(8)),
    ("n = 1, none", ONE, "", refused(8)),
    ("Table 1, six bytes", TABLE_1, "456312", refused(8)),
    ("Table 1, eight bytes", TABLE_1, "45631207", refused(8)),
    # 9 clash
    ("n = 1, mentor 1", ONE, "1", refused(9)),
    ("mentor 2 of two", TWO, "20", refused(9)),
    ("mentor 2 of two, second", TWO, "02", refused(9, 1)),
    ("mentor 0 twice", TWO, "00", refused(9, 1)),
    ("Table 1, the last byte repeats the first", TABLE_1, "4563124", refused(9, 6)),
    ("Table 1, two clashes", TABLE_1, "4463127", refused(9, 1)),
    # 10 unstable: the lowest blocking student, his best-ranked blocking mentor
    ("two alike, exchanged", SAME, "10", refused(10, 0, 0)),
    ("student 2 and mentor 1 alone block", THREE, "012", refused(10, 2, 1)),
    ("student 0 blocks with mentors 1 and 2", CHOICE, "012", refused(10, 0, 2)),
    ("Table 1, student-best with students 0 and 1 exchanged", TABLE_1, "4563102", refused(10, 0, 2)),
    ("Table 1, mentor-best with students 3 and 4 exchanged", TABLE_1, "1304526", refused(10, 0, 4)),
    # The order of the rules
    ("8 before 9", TWO, "5", refused(8)),
    ("9 before 10", SAME, "11", refused(9, 1)),
    ("1 before 8", TWO[:25], "0", refused(1, 25)),
    ("7 before 9", put(TWO, {19: 0}), "00", refused(7, 19)),
    ("6 before 10", put(SAME, {18: 2}), "10", refused(6, 18)),
]

CASES = [case(call, reply, b, room=room, out=digits(m)) for _, call, b, room, reply, m in EXTREMES]
CASES += [case(CHECK_MATCHING, reply, b, digits(m)) for _, b, m, reply in CHECKED]
