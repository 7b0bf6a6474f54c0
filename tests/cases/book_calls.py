"""Cases of the calls on books: the check, the size, the writer, one person's list.

The expected replies are literals, from reading document 01's table of refusals and its order of checks; what the writer
writes is the book of books.py.
"""
from cases.books import FIRSTS, NOBODY, ONE, TABLE_1, TWO, book, firsts, put
from cases.form import BOOK_SIZE, CHECK_BOOK, MENTOR_LIST, STUDENT_LIST, WRITE_BOOK, case, fine, refused

# The check: (what is tried, bytes, reply); the value is n
CHECKED = [
    # Read
    ("n = 0", NOBODY, fine(0)),
    ("n = 1", [1, 1, 10, 0, 1, 0, 11, 0, 1, 0, 0, 0], fine(1)),
    ("n = 2", [1, 2, 18, 0, 2, 0, 20, 0, 2, 0, 22, 0, 2, 0, 24, 0, 2, 0, 0, 1, 1, 0, 1, 0, 0, 1], fine(2)),
    ("Table 1", TABLE_1, fine(7)),
    ("n = 64", FIRSTS, fine(64)),
    # 1 short
    ("no bytes", [], refused(1)),
    ("one byte", [1], refused(1, 1)),
    ("n = 1, one byte short", [1, 1, 10, 0, 1, 0, 11, 0, 1, 0, 0], refused(1, 11)),
    ("Table 1, 155 bytes", TABLE_1[:155], refused(1, 155)),
    ("Table 1, the first two bytes", TABLE_1[:2], refused(1, 2)),
    ("n = 64, one byte short", FIRSTS[:8705], refused(1, 8705)),
    # 2 edition
    ("edition 0", put(TABLE_1, {0: 0}), refused(2)),
    ("edition 3", put(TABLE_1, {0: 3}), refused(2)),
    ("edition 255, n = 0", [255, 0], refused(2)),
    # 3 crowd
    ("n = 65", put(TABLE_1, {1: 65}), refused(3, 1)),
    ("n = 255", [1, 255] + TABLE_1[2:], refused(3, 1)),
    # 4 overlong
    ("n = 0, one byte more", [1, 0, 0], refused(4, 2)),
    ("n = 1, one byte more", [1, 1, 10, 0, 1, 0, 11, 0, 1, 0, 0, 0, 0], refused(4, 12)),
    ("Table 1, 157 bytes", TABLE_1 + [0], refused(4, 156)),
    ("Table 1 twice", TABLE_1 + TABLE_1, refused(4, 156)),
    ("n = 64, one byte more", FIRSTS + [0], refused(4, 8706)),
    # 5 directory
    ("first offset one more", put(TABLE_1, {2: 59}), refused(5, 2)),
    ("first offset, high byte", put(TABLE_1, {3: 1}), refused(5, 2)),
    ("length of list 3 is 8", put(TABLE_1, {16: 8}), refused(5, 14)),
    ("length of list 3, high byte", put(TABLE_1, {17: 1}), refused(5, 14)),
    ("offset of the last list one less", put(TABLE_1, {54: 148}), refused(5, 54)),
    ("length of the last list is 6", put(TABLE_1, {56: 6}), refused(5, 54)),
    ("pairs 2 and 3 exchanged", put(TABLE_1, {10: 79, 14: 72}), refused(5, 10)),
    ("list 5 has 8 and list 6 starts one later", put(TABLE_1, {24: 8, 26: 101}), refused(5, 22)),
    ("n = 1, the second list lies on the first", [1, 1, 10, 0, 1, 0, 10, 0, 1, 0, 0, 0], refused(5, 6)),
    ("n = 16, offset of the last list, high byte", put(firsts(16), {127: 1}), refused(5, 126)),
    # 6 stranger
    ("first entry is 7", put(TABLE_1, {58: 7}), refused(6, 58)),
    ("last entry is 255", put(TABLE_1, {155: 255}), refused(6, 155)),
    ("n = 1, the student's entry is 1", [1, 1, 10, 0, 1, 0, 11, 0, 1, 0, 1, 0], refused(6, 10)),
    ("n = 64, last entry is 64", put(FIRSTS, {8705: 64}), refused(6, 8705)),
    # 7 repeat
    ("second entry is the first", put(TABLE_1, {59: 0}), refused(7, 59)),
    ("the last entry of student 0 is the first", put(TABLE_1, {64: 0}), refused(7, 64)),
    ("the last entry is the one before", put(TABLE_1, {155: 0}), refused(7, 155)),
    ("mentor 0's third entry is the second", put(TABLE_1, {109: 1}), refused(7, 109)),
    ("n = 64, last entry is the first of its list", put(FIRSTS, {8705: 63}), refused(7, 8705)),
    # Two rules broken: the order of the checks decides
    ("1 under 2 bytes before 2", [9], refused(1, 1)),
    ("2 before 3", [3, 65], refused(2)),
    ("2 before 1 under the size", [3, 7], refused(2)),
    ("2 before 4", [0, 0, 0], refused(2)),
    ("3 before 1", [1, 65], refused(3, 1)),
    ("3 before 4", firsts(65) + [0], refused(3, 1)),
    ("1 before 5", put(TABLE_1, {2: 0})[:155], refused(1, 155)),
    ("1 before 6", put(TABLE_1, {58: 7})[:100], refused(1, 100)),
    ("4 before 5", put(TABLE_1, {2: 0}) + [0], refused(4, 156)),
    ("4 before 7", put(TABLE_1, {59: 0}) + [0], refused(4, 156)),
    ("5 in the last pair before 6 in the first entry", put(TABLE_1, {56: 6, 58: 7}), refused(5, 54)),
    ("5 before 7", put(TABLE_1, {54: 148, 59: 0}), refused(5, 54)),
    ("two pairs, the first is given", put(TABLE_1, {20: 0, 40: 0}), refused(5, 18)),
    ("6 and 7 at one byte: the first such byte is a stranger", put(TABLE_1, {58: 7, 59: 7}), refused(6, 58)),
    ("6, then 7 in the same list", put(TABLE_1, {60: 9, 61: 0}), refused(6, 60)),
    ("7, then 6 in the same list", put(TABLE_1, {60: 6, 61: 9}), refused(7, 60)),
    ("7 in list 0 before 6 in list 1", put(TABLE_1, {64: 0, 65: 7}), refused(7, 64)),
    ("6 in list 0 before 7 in list 1", put(TABLE_1, {64: 7, 66: 6}), refused(6, 64)),
    ("7 of a student before 6 of a mentor", put(TABLE_1, {106: 2, 107: 200}), refused(7, 106)),
]

# The size of a book: (n, reply)
SIZES = [
    (0, fine(2)),
    (1, fine(12)),
    (2, fine(26)),
    (7, fine(156)),
    (64, fine(8706)),
    (65, refused(3, 1)),
    (65535, refused(3, 1)),
]

# The list bytes of Table 1, 7 for each student and then 7 for each mentor
T = TABLE_1[58:]

# The writer, whose rules go 3, then 1 and 4, then 6 and 7, then 14: (what is tried, n, list bytes, room, reply); the
# value is the size of the book
WRITTEN = [
    # Written, with no room to spare and with some
    ("n = 0", 0, [], 2, fine(2)),
    ("n = 0, room to spare", 0, [], 9, fine(2)),
    ("n = 1", 1, [0, 0], 12, fine(12)),
    ("n = 1, room to spare", 1, [0, 0], 13, fine(12)),
    ("n = 2", 2, [0, 1, 1, 0, 1, 0, 0, 1], 26, fine(26)),
    ("Table 1", 7, T, 156, fine(156)),
    ("Table 1, room to spare", 7, T, 300, fine(156)),
    ("n = 64", 64, FIRSTS[514:], 8706, fine(8706)),
    # 3 crowd
    ("n = 65", 65, [], 20, refused(3, 1)),
    ("n = 65535", 65535, [], 20, refused(3, 1)),
    # 1 short
    ("n = 1, no list byte", 1, [], 20, refused(1)),
    ("n = 1, one list byte", 1, [0], 20, refused(1, 1)),
    ("Table 1, 97 list bytes", 7, T[:97], 200, refused(1, 97)),
    # 4 overlong
    ("n = 0, one list byte", 0, [0], 20, refused(4)),
    ("n = 1, three list bytes", 1, [0, 0, 0], 20, refused(4, 2)),
    ("Table 1, 99 list bytes", 7, T + [0], 200, refused(4, 98)),
    # 6 stranger
    ("n = 1, the student's entry is 1", 1, [1, 0], 20, refused(6)),
    ("Table 1, first entry is 7", 7, put(T, {0: 7}), 200, refused(6)),
    ("Table 1, last entry is 255", 7, put(T, {97: 255}), 200, refused(6, 97)),
    # 7 repeat
    ("Table 1, second entry is the first", 7, put(T, {1: 0}), 200, refused(7, 1)),
    ("Table 1, the last entry of student 0 is the first", 7, put(T, {6: 0}), 200, refused(7, 6)),
    ("Table 1, the last entry is the one before", 7, put(T, {97: 0}), 200, refused(7, 97)),
    # 14 sheet
    ("n = 0, no room", 0, [], 0, refused(14)),
    ("n = 0, room for one byte", 0, [], 1, refused(14)),
    ("n = 1, one byte too few", 1, [0, 0], 11, refused(14)),
    ("Table 1, one byte too few", 7, T, 155, refused(14)),
    # Two rules stand against it: their order decides
    ("3 before 1", 65, [0], 200, refused(3, 1)),
    ("3 before 6", 65, [255] * 8450, 2, refused(3, 1)),
    ("1 before 6", 7, put(T, {0: 7})[:97], 200, refused(1, 97)),
    ("4 before 7", 7, put(T, {1: 0}) + [0], 200, refused(4, 98)),
    ("6 before 14", 7, put(T, {97: 7}), 155, refused(6, 97)),
    ("7 before 14", 7, put(T, {97: 0}), 0, refused(7, 97)),
    ("6, then 7 in the same list", 7, put(T, {2: 9, 3: 0}), 200, refused(6, 2)),
    ("7, then 6 in the same list", 7, put(T, {2: 6, 3: 9}), 200, refused(7, 2)),
    ("7 in list 0 before 6 in list 1", 7, put(T, {6: 0, 7: 7}), 200, refused(7, 6)),
    ("6 in list 0 before 7 in list 1", 7, put(T, {6: 7, 8: 6}), 200, refused(6, 6)),
]

# One person's list: (what is tried, call, bytes, person, reply); the place is its offset, the value its number of bytes
LISTS = [
    ("n = 1", STUDENT_LIST, ONE, 0, fine(1, 10)),
    ("n = 1", MENTOR_LIST, ONE, 0, fine(1, 11)),
    ("Table 1, the first", STUDENT_LIST, TABLE_1, 0, fine(7, 58)),
    ("Table 1, the last", STUDENT_LIST, TABLE_1, 6, fine(7, 100)),
    ("Table 1, the first", MENTOR_LIST, TABLE_1, 0, fine(7, 107)),
    ("Table 1, the last", MENTOR_LIST, TABLE_1, 6, fine(7, 149)),
    ("n = 64, the last", STUDENT_LIST, FIRSTS, 63, fine(64, 4546)),
    ("n = 64, the last", MENTOR_LIST, FIRSTS, 63, fine(64, 8642)),
    # 11 unknown
    ("n = 0, nobody", STUDENT_LIST, NOBODY, 0, refused(11)),
    ("n = 0, nobody", MENTOR_LIST, NOBODY, 0, refused(11)),
    ("Table 1, number 7", STUDENT_LIST, TABLE_1, 7, refused(11)),
    ("Table 1, number 7", MENTOR_LIST, TABLE_1, 7, refused(11)),
    ("Table 1, number 255", STUDENT_LIST, TABLE_1, 255, refused(11)),
    ("Table 1, number 255", MENTOR_LIST, TABLE_1, 255, refused(11)),
    # A number that no byte holds is not another's: 256 is not 0, nor 65,286 6
    ("Table 1, number 256", STUDENT_LIST, TABLE_1, 256, refused(11)),
    ("Table 1, number 256", MENTOR_LIST, TABLE_1, 256, refused(11)),
    ("Table 1, number 65286", STUDENT_LIST, TABLE_1, 65286, refused(11)),
    ("Table 1, number 65286", MENTOR_LIST, TABLE_1, 65286, refused(11)),
    ("n = 64, number 319", STUDENT_LIST, FIRSTS, 319, refused(11)),
    ("n = 64, number 319", MENTOR_LIST, FIRSTS, 319, refused(11)),
    # The book before 11
    ("no bytes", STUDENT_LIST, [], 0, refused(1)),
    ("edition 0", MENTOR_LIST, put(TWO, {0: 0}), 2, refused(2)),
    ("n = 65", STUDENT_LIST, put(TWO, {1: 65}), 66, refused(3, 1)),
    ("n = 65, number 256", MENTOR_LIST, put(TWO, {1: 65}), 256, refused(3, 1)),
    ("second directory pair", MENTOR_LIST, put(TWO, {8: 3}), 0, refused(5, 6)),
    ("second entry is the first", STUDENT_LIST, put(TWO, {19: 0}), 2, refused(7, 19)),
]

CASES = [case(CHECK_BOOK, reply, b) for _, b, reply in CHECKED]
CASES += [case(BOOK_SIZE, reply, numbers=(n, 0)) for n, reply in SIZES]
CASES += [
    case(WRITE_BOOK, reply, entries, numbers=(n, 0), room=room, out=[] if reply[0] else book(n, entries))
    for _, n, entries, room, reply in WRITTEN
]
CASES += [case(call, reply, b, numbers=(person, 0)) for _, call, b, person, reply in LISTS]
