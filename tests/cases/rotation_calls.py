"""Cases of the calls on rotations: their number, their list, their order, sets and matchings each from the other.

Table 1's rotations, its set 0, 1, 2 and set 2 alone are those of document 01, section 'Checked by hand'; small books
are worked out by hand; the table of precedence and the eleven matchings of the closed sets are from tests/independent,
which goes another way; the list of the large book is worked out here by document 01's definition.
"""
import itertools

from cases.books import NOBODY, ONE, SAME, TABLE_1, TWO, book, book_of, digits, put
from cases.form import MATCHING_TO_SET, PRECEDES, ROTATION_COUNT, ROTATIONS, SET_TO_MATCHING, case, fine, refused

# Two pairs of students who exchange their mentors, apart from each other: two rotations, neither before the other
APART = book_of("0123 1032 2301 3210 1023 0132 3210 2301")

# n = 64: student i lists i xor k at place k, mentor w lists w xor (63 - k). Each step of all students is 32 exchanges
# of two: 63 * 32 rotations
N = 64
STUDENTS = [[i ^ k for k in range(N)] for i in range(N)]
MENTORS = [[w ^ (63 - k) for k in range(N)] for w in range(N)]
LARGE = book(N, sum(STUDENTS + MENTORS, []))


def next_mentor(m, s):
    """The first mentor below his own who ranks the student above her own student, or None."""
    for t in STUDENTS[s][STUDENTS[s].index(m[s]) + 1 :]:
        if MENTORS[t].index(s) < MENTORS[t].index(m.index(t)):
            return t
    return None


def lowest_exposed(m):
    """The students of the exposed rotation that holds the lowest student, from him on, or none."""
    after = [None if t is None else m.index(t) for t in (next_mentor(m, s) for s in range(N))]
    for s in range(N):
        cycle, at = [s], after[s]
        while at is not None and at not in cycle:
            cycle.append(at)
            at = after[at]
        if at == s:
            return cycle
    return []


def rotations():
    """The list of the large book. Each student's first mentor is another one, so that is the student-best matching."""
    m, out = [row[0] for row in STUDENTS], []
    while cycle := lowest_exposed(m):
        mentors = [m[s] for s in cycle]
        out += [len(cycle), *itertools.chain(*zip(cycle, mentors))]
        for s, t in zip(cycle, mentors[1:] + mentors[:1]):
            m[s] = t
    return out


# Table 1's rotations, in document 01's way of writing them
TABLE_1_LIST = [
    *[2, 0, 5, 6, 2],
    *[3, 1, 4, 6, 5, 5, 0],
    *[2, 0, 2, 5, 4],
    *[2, 0, 4, 4, 1],
    *[2, 2, 6, 6, 0],
    *[2, 1, 5, 3, 3],
]
LARGE_LIST = rotations()
assert len(LARGE_LIST) == 10080 and sum(LARGE_LIST) == 258048  # as tests/independent has it

# How many: (bytes of the book, reply); the value is the number of rotations
COUNTED = [
    (TABLE_1, fine(6)),
    (NOBODY, fine(0)),
    (ONE, fine(0)),
    (TWO, fine(1)),
    (SAME, fine(0)),
    (APART, fine(2)),
    (LARGE, fine(2016)),
    # The book's rules
    ([], refused(1)),
    (put(TWO, {0: 0}), refused(2)),
    (put(TWO, {1: 65}), refused(3, 1)),
    (TWO + [0], refused(4, 26)),
    (put(TWO, {8: 3}), refused(5, 6)),
    (put(TWO, {18: 2}), refused(6, 18)),
    (put(TWO, {19: 0}), refused(7, 19)),
]

# The list: (bytes of the book, room, reply, bytes written); the value is the number of rotations
LISTED = [
    (TABLE_1, 32, fine(6), TABLE_1_LIST),
    (TABLE_1, 34, fine(6), TABLE_1_LIST),
    (NOBODY, 0, fine(0), []),
    (NOBODY, 2, fine(0), []),
    (ONE, 1, fine(0), []),
    (TWO, 5, fine(1), [2, 0, 0, 1, 1]),
    (SAME, 1, fine(0), []),
    (APART, 10, fine(2), [2, 0, 0, 1, 1, 2, 2, 2, 3, 3]),
    # n = 64: 2,016 rotations of two pairs each, 10,080 bytes
    (LARGE, 10080, fine(2016), LARGE_LIST),
    (LARGE, 10240, fine(2016), LARGE_LIST),
    # 14: one byte short, and nothing is written
    (TABLE_1, 31, refused(14), []),
    (TABLE_1, 0, refused(14), []),
    (TWO, 4, refused(14), []),
    (LARGE, 10079, refused(14), []),
    # The book comes first, and nothing is written
    (put(TWO, {0: 0}), 5, refused(2), []),
    (put(TWO, {19: 0}), 1, refused(7, 19), []),
]

# Which rotation of Table 1 precedes which
BEFORE = {0: [1, 2, 3, 4, 5], 1: [2, 3, 4, 5], 2: [3], 3: [], 4: [5], 5: []}

# Precedence: (bytes of the book, two rotations, reply); the value is 1 for yes. In Table 1 all pairs, then 11
ORDER = [(TABLE_1, (j, k), fine(int(k in BEFORE[j]))) for j in range(6) for k in range(6)]
ORDER += [(TABLE_1, pair, refused(11)) for pair in [(6, 0), (0, 6), (255, 255), (256, 0), (0, 65535)]]
ORDER += [
    (APART, (0, 1), fine(0)),
    (APART, (1, 0), fine(0)),
    (TWO, (0, 0), fine(0)),
    (ONE, (0, 0), refused(11)),
    (NOBODY, (0, 0), refused(11)),
    (put(TWO, {1: 65}), (9, 9), refused(3, 1)),
]

# The closed sets of Table 1, by their members, and their matchings
CLOSED = {
    "": "5463102",
    "0": "2463105",
    "01": "2563140",
    "012": "4563120",
    "0123": "1563420",
    "014": "2503146",
    "0124": "4503126",
    "01234": "1503426",
    "0145": "2305146",
    "01245": "4305126",
    "012345": "1305426",
}
SETS = ["".join(str(k) for k in range(6) if marks[k]) for marks in itertools.product([0, 1], repeat=6)]


def marks(members):
    """The bytes of a set of Table 1's rotations."""
    return [int(str(k) in members) for k in range(6)]


# From a set to its matching: (bytes of the book, set, room, reply, matching); the value is n. Of the 64 sets of Table 1
# eleven are closed, the others refused 16
TO_MATCHING = [
    (TABLE_1, marks(s), 8, fine(7) if s in CLOSED else refused(16), digits(CLOSED.get(s, ""))) for s in SETS
]
TO_MATCHING += [
    (APART, [0, 0], 4, fine(4), [0, 1, 2, 3]),
    (APART, [1, 0], 4, fine(4), [1, 0, 2, 3]),
    (APART, [0, 1], 4, fine(4), [0, 1, 3, 2]),
    (APART, [1, 1], 4, fine(4), [1, 0, 3, 2]),
    (NOBODY, [], 1, fine(0), []),
    (ONE, [], 1, fine(1), [0]),
    # The book, then 15 before 16 before 14
    (TWO[:25], [0, 7], 1, refused(1, 25), []),
    (TABLE_1, [0] * 5, 7, refused(15), []),
    (TABLE_1, [0] * 7, 7, refused(15), []),
    (TABLE_1, [1, 0, 0, 0, 0, 2], 7, refused(15), []),
    (TABLE_1, [0, 0, 255, 0, 0, 0], 0, refused(15), []),
    (TABLE_1, [0, 0, 1, 0, 0, 0], 6, refused(16), []),
    (TABLE_1, [1, 1, 1, 0, 0, 0], 6, refused(14), []),
    (NOBODY, [0], 1, refused(15), []),
    (ONE, [], 0, refused(14), []),
]

# From a matching to its set: (bytes of the book, matching, room, reply, set); the value is the number of rotations
TO_SET = [(TABLE_1, m, 7, fine(6), marks(s)) for s, m in CLOSED.items()]
TO_SET += [
    (APART, "0132", 3, fine(2), [0, 1]),
    (SAME, "01", 1, fine(0), []),
    (NOBODY, "", 1, fine(0), []),
    # The book, then 8, 9 and 10 before 14
    (TWO + [0], "5", 1, refused(4, 26), []),
    (TABLE_1, "546310", 6, refused(8), []),
    (TABLE_1, "5463100", 6, refused(9, 6), []),
    (TABLE_1, "5763102", 0, refused(9, 1), []),
    (SAME, "10", 1, refused(10, 0, 0), []),
    (TABLE_1, "5463102", 5, refused(14), []),
]

CASES = [case(ROTATION_COUNT, reply, b) for b, reply in COUNTED]
CASES += [case(ROTATIONS, reply, b, room=room, out=out) for b, room, reply, out in LISTED]
CASES += [case(PRECEDES, reply, b, numbers=pair) for b, pair, reply in ORDER]
CASES += [case(SET_TO_MATCHING, reply, b, s, room=room, out=out) for b, s, room, reply, out in TO_MATCHING]
CASES += [case(MATCHING_TO_SET, reply, b, digits(m), room=room, out=out) for b, m, room, reply, out in TO_SET]
