"""Cases of the calls on books of edition 2 (document 02, W-203): the check and one person's list.

The expected replies are literals, from reading W-203 and document 01's table of refusals.
"""
from cases.books import LONE, LONE_TWO, ONE_SHORT, SHORT_ROUNDS, SHORT_TABLE_1, SIX, TABLE_1, firsts, put, short_book_of
from cases.form import CHECK_BOOK, MENTOR_LIST, STUDENT_LIST, case, fine, refused

# Table 1 as a book of edition 2, whose lists are full
FULL = put(TABLE_1, {0: 2})

# The check: (what is tried, bytes, reply); the value is n
CHECKED = [
    # Read
    ("n = 0", [2, 0], fine(0)),
    ("n = 1, two empty lists", [2, 1, 10, 0, 0, 0, 10, 0, 0, 0], fine(1)),
    ("n = 1, full lists", [2, 1, 10, 0, 1, 0, 11, 0, 1, 0, 0, 0], fine(1)),
    ("n = 2, each lists one", [2, 2, 18, 0, 1, 0, 19, 0, 1, 0, 20, 0, 1, 0, 21, 0, 1, 0, 1, 0, 1, 0], fine(2)),
    ("n = 2, empty lists", LONE_TWO, fine(2)),
    ("six", SIX, fine(6)),
    ("Table 1, shortened", SHORT_TABLE_1, fine(8)),
    ("Table 1, full lists", FULL, fine(7)),
    ("n = 64, lists of 8", SHORT_ROUNDS, fine(64)),
    # 1 short: under 2 bytes, under the directory, under the end of the last list
    ("one byte", [2], refused(1, 1)),
    ("two bytes", [2, 1], refused(1, 2)),
    ("the directory lacks one byte", LONE[:9], refused(1, 9)),
    ("six, the directory lacks one byte", SIX[:49], refused(1, 49)),
    ("six, no list byte", SIX[:50], refused(1, 50)),
    ("six, 69 bytes", SIX[:69], refused(1, 69)),
    ("six, the last list has all six", put(SIX, {48: 6}), refused(1, 70)),
    ("Table 1, full lists, 155 bytes", FULL[:155], refused(1, 155)),
    ("n = 64, one byte short", SHORT_ROUNDS[:-1], refused(1, 1537)),
    ("edition 1 with short lists", put(SIX, {0: 1}), refused(1, 70)),
    # 3 crowd
    ("n = 65", [2, 65], refused(3, 1)),
    ("n = 65, full lists", put(firsts(65), {0: 2}), refused(3, 1)),
    ("n = 255", [2, 255, 0], refused(3, 1)),
    # 4 overlong
    ("n = 0, one byte more", [2, 0, 0], refused(4, 2)),
    ("n = 1, empty lists, one byte more", LONE + [0], refused(4, 10)),
    ("six, one byte more", SIX + [0], refused(4, 70)),
    ("six, a last list one byte earlier", put(SIX, {44: 0, 46: 69}), refused(4, 69)),
    ("Table 1, full lists, 157 bytes", FULL + [0], refused(4, 156)),
    ("n = 64, one byte more", SHORT_ROUNDS + [0], refused(4, 1538)),
    # 5 directory: the offset, or a length over n
    ("first offset one more", put(SIX, {2: 51}), refused(5, 2)),
    ("first offset, high byte", put(SIX, {3: 1}), refused(5, 2)),
    ("offset of list 5 one less", put(SIX, {22: 59}), refused(5, 22)),
    ("offset of the last list is 0", put(SIX, {46: 0}), refused(5, 46)),
    ("length n + 1 of list 0", put(SIX, {4: 7}), refused(5, 2)),
    ("length n + 1 of the last list", put(SIX, {48: 7}), refused(5, 46)),
    ("length of list 3, high byte", put(SIX, {17: 1}), refused(5, 14)),
    ("length n of list 0: the next offset is wrong", put(SIX, {4: 6}), refused(5, 6)),
    ("length of list 2 one less: the next offset is wrong", put(SIX, {12: 2}), refused(5, 14)),
    ("n = 1, length 2", [2, 1, 10, 0, 2, 0, 12, 0, 0, 0, 0, 0], refused(5, 2)),
    ("n = 1, the second list lies on the first", [2, 1, 10, 0, 1, 0, 10, 0, 1, 0, 0], refused(5, 6)),
    # 6 stranger, 7 repeat
    ("first entry is 6", put(SIX, {50: 6}), refused(6, 50)),
    ("last entry is 255", put(SIX, {69: 255}), refused(6, 69)),
    ("student 0's second entry is the first", put(SIX, {51: 0}), refused(7, 51)),
    ("student 2's third entry is the first", put(SIX, {56: 2}), refused(7, 56)),
    ("mentor 1's third entry is the second", put(SIX, {64: 1}), refused(7, 64)),
    ("one byte of student 1's list goes to student 0", put(SIX, {4: 3, 6: 53, 8: 1}), refused(7, 52)),
    # 18 one-sided: a student's entry, a mentor's
    ("n = 1, the student lists", short_book_of("0 -"), refused(18)),
    ("n = 1, the mentor lists", short_book_of("- 0"), refused(18)),
    ("six, mentor 4 does not list student 2", short_book_of("01 10 243 32 1 - 10 014 32 23 - -"), refused(18)),
    ("six, student 2 does not list mentor 4", short_book_of("01 10 23 32 1 - 10 014 32 23 2 -"), refused(18)),
    ("student 0 lists mentor 1, she student 1", short_book_of("1 - - 1"), refused(18)),
    ("the last entry of lists of 8 is another student", put(SHORT_ROUNDS, {1537: 7}), refused(18)),
    # Two rules broken: the order of the checks decides
    ("2 before 3", [4, 65], refused(2)),
    ("3 before 1", [2, 65, 0], refused(3, 1)),
    ("1 for the directory before 5", put(SIX, {2: 51})[:49], refused(1, 49)),
    ("5 before 1 for the lists", put(SIX, {46: 0})[:60], refused(5, 46)),
    ("5 before 4", put(SIX, {46: 0}) + [0], refused(5, 46)),
    ("two pairs, the first is given", put(SIX, {10: 0, 46: 0}), refused(5, 10)),
    ("1 for the lists before 6", put(SIX, {50: 6})[:69], refused(1, 69)),
    ("4 before 7", put(SIX, {51: 0}) + [0], refused(4, 70)),
    ("7, then 6", put(SIX, {51: 0, 69: 6}), refused(7, 51)),
    ("6, then 7", put(SIX, {50: 6, 64: 1}), refused(6, 50)),
    ("18 for the first entry, 7 for the last", short_book_of("0 - - 11"), refused(7, 20)),
    ("18 for the first entry, 6 for the last", short_book_of("0 - - 2"), refused(6, 19)),
    ("4 before 18", short_book_of("0 -") + [0], refused(4, 11)),
]

# Where each list of the six begins, and how many entries it has
OFFSETS = [50, 52, 54, 57, 59, 60, 60, 62, 65, 67, 69, 70]
LENGTHS = [2, 2, 3, 2, 1, 0, 2, 3, 2, 2, 1, 0]

# One person's list: (what is tried, call, bytes, person, reply); the place is its offset, the value its number of bytes
LISTS = [("six", STUDENT_LIST, SIX, k, fine(LENGTHS[k], OFFSETS[k])) for k in range(6)]
LISTS += [("six", MENTOR_LIST, SIX, k, fine(LENGTHS[6 + k], OFFSETS[6 + k])) for k in range(6)]
LISTS += [
    ("n = 1, full lists", MENTOR_LIST, ONE_SHORT, 0, fine(1, 11)),
    ("n = 1, empty lists", STUDENT_LIST, LONE, 0, fine(0, 10)),
    ("n = 1, empty lists", MENTOR_LIST, LONE, 0, fine(0, 10)),
    ("lists of 8, the last", STUDENT_LIST, SHORT_ROUNDS, 63, fine(8, 1018)),
    ("lists of 8, the last", MENTOR_LIST, SHORT_ROUNDS, 63, fine(8, 1530)),
    ("Table 1, full lists", STUDENT_LIST, FULL, 6, fine(7, 100)),
    # 11 unknown, after the book
    ("number 6", STUDENT_LIST, SIX, 6, refused(11)),
    ("number 255", MENTOR_LIST, SIX, 255, refused(11)),
    ("number 256", STUDENT_LIST, SIX, 256, refused(11)),
    ("18 before 11", STUDENT_LIST, short_book_of("- 0"), 1, refused(18)),
    ("5 before 11", MENTOR_LIST, put(SIX, {46: 0}), 6, refused(5, 46)),
]

CASES = [case(CHECK_BOOK, reply, b) for _, b, reply in CHECKED]
CASES += [case(call, reply, b, numbers=(person, 0)) for _, call, b, person, reply in LISTS]
