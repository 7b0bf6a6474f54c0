"""Cases of the calls on books of edition 2 that take a matching or a request (document 02, W-203): 8, 9, 19 and 10 of
the check, what 255 is in each, the order of the rules of the other calls, and the grade where no pair can be repaired
(W-204).

The expected replies are literals; the blocking pairs of the books SIX and of small ones are found by hand.
"""
from cases.books import LONE, LONE_TWO, ONE, ONE_BESIDE, ONE_SHORT, SIX, TWO, mentors, put, short_book_of
from cases.form import CHECK_MATCHING, GRADE, MATCHING_TO_SET, MENTOR_BEST, REPAIR, SET_TO_MATCHING, STUDENT_BEST
from cases.form import ROTATION_COUNT, ROTATIONS, WEIGHTED_GRADE, WEIGHTED_REPAIR
from cases.form import PRECEDES, case, fine, graded, moved, refused

# Both students list mentor 0 alone, who prefers student 0
RIVALS = short_book_of("0 0 01 -")
# Mentor 0 prefers student 1, whose only mentor she is; mentor 1 lists student 0 alone
SECOND = short_book_of("01 0 10 0")
# The book that breaks 18 alone
ONE_SIDED = short_book_of("0 - - -")

# The check: (what is tried, bytes of the book, matching, reply)
CHECKED = [
    # Stable
    ("n = 0", [2, 0], "", fine(0)),
    ("n = 1, nobody lists anybody", LONE, "-", fine(0)),
    ("n = 1", ONE_SHORT, "0", fine(0)),
    ("255 twice", LONE_TWO, "--", fine(0)),
    ("six, student-best", SIX, "0123--", fine(0)),
    ("six, mentor-best", SIX, "1023--", fine(0)),
    ("the rival is alone", RIVALS, "0-", fine(0)),
    ("the first has his second mentor", SECOND, "10", fine(0)),
    # 8 length
    ("five bytes", SIX, "0123-", refused(8)),
    ("seven bytes", SIX, "0123---", refused(8)),
    ("n = 0, one byte", [2, 0], "-", refused(8)),
    # 9 clash
    ("mentor 6", SIX, "01236-", refused(9, 4)),
    ("mentor 0 twice", SIX, "0023--", refused(9, 1)),
    ("mentor 3 again after 255", SIX, "0123-3", refused(9, 5)),
    ("mentor 6 between 255 and 255", SIX, "-6--6-", refused(9, 1)),
    ("edition 1: 255 is a clash", ONE, "-", refused(9)),
    ("edition 1: 255 is a clash", TWO, "0-", refused(9, 1)),
    ("edition 1: 255 twice", TWO, "--", refused(9)),
    # 19 unlisted
    ("student 4 and mentor 4", SIX, "01234-", refused(19)),
    ("student 5 and mentor 5 list nobody", SIX, "0123-5", refused(19)),
    ("students 0 and 2 have each other's", SIX, "2103--", refused(19)),
    ("n = 1", LONE, "0", refused(19)),
    # 10 unstable
    ("both are alone", SIX, "--23--", refused(10, 0, 0)),
    ("both are alone", ONE_SHORT, "-", refused(10, 0, 0)),
    ("the student alone is: she prefers him to hers", SIX, "0-231-", refused(10, 1, 1)),
    ("the student alone is: she prefers him to hers", RIVALS, "-0", refused(10, 0, 0)),
    ("the mentor alone is: he prefers her to his", SIX, "0132--", refused(10, 2, 4)),
    ("the mentor alone is: he prefers her to his", SIX, "0143--", refused(10, 2, 2)),
    ("the best of his list prefers hers, the second is alone", SECOND, "-0", refused(10, 0, 1)),
    ("the last student who may have a mentor", SIX, "102---", refused(10, 3, 3)),
    # The order of the rules
    ("18 before 8", ONE_SIDED, "", refused(18)),
    ("18 before 10", ONE_SIDED, "--", refused(18)),
    ("8 before 19", SIX, "5123-", refused(8)),
    ("9 before 19: the later byte is a mentor's again", SIX, "5123-5", refused(9, 5)),
    ("9 before 19: the later byte is 6", SIX, "5123-6", refused(9, 5)),
    ("9 before 10", SIX, "--2344", refused(9, 5)),
    ("19 before 10", SIX, "--23-4", refused(19)),
]

BEST = mentors("0123--")
BAD_MATCHINGS = [("8", "0123-", refused(8)), ("9", "01236-", refused(9, 4)), ("19", "01234-", refused(19))]
BAD_MATCHINGS += [("10", "0132--", refused(10, 2, 4))]

# Requests of the six, with room for 6 entries: (what is tried, request, reply)
REQUESTS = [
    ("student 4 is alone, and mentor 1 lists him", [4, 1], refused(12)),
    ("students 4 and mentor 4 are alone", [4, 4], refused(12)),
    ("student 5 and mentor 5 list nobody", [5, 5], refused(12)),
    ("mentor 4 is alone", [2, 4], refused(12)),
    ("student 4 has nobody, and that is no mentor", [4, 255], refused(11)),
    ("student 0 and nobody", [0, 255], refused(11)),
    ("no student 6", [6, 255], refused(11)),
    ("13 before 11", [4, 255, 0], refused(13)),
    ("13 before 12", [4], refused(13)),
    ("fixed", [2, 2], moved("F", 0)),
    ("fixed", [3, 3], moved("F", 0)),
]

# No pair can be repaired: (what is tried, bytes of the book, matching, weights)
NOT_GRADED = [
    ("n = 0: no pair", [2, 0], "", []),
    ("n = 1: the pair is fixed", ONE_SHORT, "0", [0]),
    ("n = 1, alone: no pair", LONE, "-", [9]),
    ("n = 2, both alone: no pair", LONE_TWO, "--", [0, 0]),
    ("n = 2, one fixed and one alone", ONE_BESIDE, "0-", [7, 30]),
]


def repairs(b, matching, request, reply, weights=(1,) * 6, room=6):
    """The plain and the weighted case of a repair that writes nothing."""
    rooms = {"room": room, "gains_room": room}
    plain = case(REPAIR, reply, b, matching, request, **rooms)
    return [plain, case(WEIGHTED_REPAIR, reply, b, matching, list(weights), request, **rooms)]


CASES = [case(CHECK_MATCHING, reply, b, mentors(m)) for _, b, m, reply in CHECKED]
CASES += [c for _, request, reply in REQUESTS for c in repairs(SIX, BEST, request, reply)]
# 12 before 14, and 14 for a fixed pair
CASES += repairs(SIX, BEST, [4, 1], refused(12), room=5) + repairs(SIX, BEST, [2, 2], refused(14), room=5)
for _, m, reply in BAD_MATCHINGS:
    # 8, 9, 19 and 10 before 13, 14 and 17
    CASES += repairs(SIX, mentors(m), [4], reply, room=5)
    CASES += [case(WEIGHTED_REPAIR, reply, SIX, mentors(m), [1] * 7, [0, 0], room=6, gains_room=6)]
    CASES += [case(WEIGHTED_GRADE, reply, SIX, mentors(m), [1] * 5), case(GRADE, reply, SIX, mentors(m))]
    CASES += [case(MATCHING_TO_SET, reply, SIX, mentors(m), room=room) for room in (0, 1)]
CASES += [case(GRADE, graded(None), b, mentors(m)) for _, b, m, _ in NOT_GRADED]
CASES += [case(WEIGHTED_GRADE, graded(None), b, mentors(m), weights) for _, b, m, weights in NOT_GRADED]
# The two who exchange weigh nothing
CASES += [case(WEIGHTED_GRADE, graded(0), SIX, BEST, [0, 0, 0, 0, 255, 255])]
# 17 before 13
CASES += [case(WEIGHTED_REPAIR, refused(17), SIX, BEST, [1] * 5, [4], room=6, gains_room=6)]
CASES += [case(WEIGHTED_GRADE, refused(17), SIX, BEST, [1] * 7)]
# 18 on each call that takes a book, before what else is wrong, and 5 of edition 2
for b, reply in [(ONE_SIDED, refused(18)), (put(SIX, {48: 7}), refused(5, 46))]:
    CASES += repairs(b, BEST, [9], reply, room=1)
    CASES += [case(call, reply, b, room=1) for call in (STUDENT_BEST, MENTOR_BEST, ROTATION_COUNT, ROTATIONS)]
    CASES += [case(PRECEDES, reply, b, numbers=(9, 9)), case(SET_TO_MATCHING, reply, b, [2], room=1)]
    CASES += [case(call, reply, b, [7], [7]) for call in (MATCHING_TO_SET, GRADE, WEIGHTED_GRADE)]
