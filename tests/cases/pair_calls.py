"""Cases of the repair of two pairs at one go, plain and with weights (document 02, W-207).

The answers are those of definitions.py, found among all matchings; for the matching of Table 1 of document 000 the
letters and distances are literals too, by its Tables 2 and 3, and have to be as defined. The answers for n = 64 follow
by hand, as every repair of `rounds` moves all. The refusals are literals.
"""
from cases import short_lists, weighted_calls
from cases.books import FIRSTS, LONE, M5, NOBODY, ONE, ROUNDS, SAME, SHORT_ROUNDS, SIX, TABLE_1, TWO
from cases.books import book, digits, mentors, put, shift, short_book
from cases.definitions import NOBODY as ALONE
from cases.definitions import Market
from cases.form import REPAIR, WEIGHTED_REPAIR, case, moved, refused
from cases.mentor_calls import TABLE_1_MARKET
from cases.short_matching_calls import ONE_SIDED

# Table 1 with M5: the letters and the distance of the pairs of every two students; on the diagonal those of one pair
TABLE_1_DUE = """
U2  UU4 UD4 UD6 DD2 UU2 UU4
UU4 U4  DD4 DD4 DD6 UU4 UU4
DU4 DD4 D2  DD4 DD4 DU4 DD2
DU6 DD4 DD4 D4  DD6 DU6 DD4
DD2 DD6 DD4 DD6 D2  F0  DD4
UU2 UU4 UD4 UD6 F0  U2  UU4
UU4 UU4 DD2 DD4 DD4 UU4 D2
""".split()

# Books with a matching and two students: (edition, lists, matching, students, letters, distance)
SMALL = [
    # The repair up of the first pair and the one down of the second move a student both: no UD, but UU
    (1, "102 012 201 021 210 120", "012", (0, 1), "UU", 2),
    # Each pair has a repair, both together none
    (1, "102 012 201 021 210 120", "012", (0, 2), "F", 0),
    (2, "021 201 12 10 012 201", "201", (1, 2), "F", 0),
    # The repairs 0321 up and 2103 down move others, but 0123 is not stable; the same in edition 2
    (1, "0213 3210 3201 1032 2130 0213 3021 3012", "2301", (0, 1), "F", 0),
    (2, "3021 1203 2031 023 0321 021 1032 3102", "3210", (1, 0), "F", 0),
    # One sort alone
    (1, "0123 1023 2103 3210 3102 0312 0321 2301", "0132", (2, 0), "UD", 4),
    (1, "0123 1023 2103 3210 3102 0312 0321 2301", "0132", (0, 2), "DU", 4),
    (2, "130 230 02 231 012 30 213 031", "1023", (1, 0), "UD", 4),
    # A student without a mentor
    (2, "143 14203 3201 23140 3421 321 42130 2341 32401 1340", "-1234", (2, 1), "UD", 4),
    (2, "143 14203 3201 23140 3421 321 42130 2341 32401 1340", "-1234", (1, 2), "DU", 4),
]

# Two books of three with two rotations, side by side: in 201534 the pairs of students 2 and 5 have repairs of all four
# sorts. UU moves 0 2 3 5, UD 0 2 4 5, DU 1 2 3 5 and DD 1 2 4 5: (weights, letters, total)
SIDE_BY_SIDE = Market("012 012 210 345 345 543 210 120 012 543 453 345")
WEIGHED = [
    ([1, 1, 1, 1, 1, 1], "UU", 4),
    ([2, 1, 1, 1, 1, 1], "DU", 4),
    ([1, 1, 1, 2, 1, 1], "UD", 4),
    ([2, 1, 1, 2, 1, 1], "DD", 4),
    ([9, 8, 255, 0, 0, 255], "DU", 518),
    ([0, 0, 1, 255, 254, 1], "UD", 256),
    ([0, 0, 0, 0, 0, 0], "UU", 0),
]

# Refused before the request, with nothing written: (what is tried, bytes of the book, matching, reply). Tried with the
# pairs of students 0 and 1 and room for all, and with bytes of nobody, no weights and no room
EARLY = [
    ("no bytes", [], "01", refused(1)),
    ("one byte short", TWO[:25], "01", refused(1, 25)),
    ("edition 0", put(TWO, {0: 0}), "01", refused(2)),
    ("n = 65", put(TWO, {1: 65}), "01", refused(3, 1)),
    ("one byte more", TWO + [0], "01", refused(4, 26)),
    ("second directory pair", put(TWO, {8: 3}), "01", refused(5, 6)),
    ("first entry is 2", put(TWO, {18: 2}), "01", refused(6, 18)),
    ("second entry is the first", put(TWO, {19: 0}), "01", refused(7, 19)),
    ("an entry is not returned", ONE_SIDED, "--", refused(18)),
    ("a matching of one byte", TWO, "0", refused(8)),
    ("a mentor twice", TWO, "00", refused(9, 1)),
    ("student 4 and mentor 4 do not list each other", SIX, "01234-", refused(19)),
    ("student 0 and mentor 0 block", SAME, "10", refused(10, 0, 0)),
]

# Refused for the request, tried with room for all and, as they come before 14, with none: (what is tried, bytes of the
# book, matching, request, reply)
LATE = [
    ("no bytes", TABLE_1, M5, [], refused(13)),
    ("one byte", TABLE_1, M5, [0], refused(13)),
    ("three bytes", TABLE_1, M5, [0, 4, 1], refused(13)),
    ("five bytes", TABLE_1, M5, [0, 4, 1, 5, 2], refused(13)),
    ("six bytes, three pairs", TABLE_1, M5, [0, 4, 1, 5, 2, 6], refused(13)),
    ("eight bytes, four pairs", TABLE_1, M5, [0, 4, 1, 5, 2, 6, 3, 3], refused(13)),
    ("13 before 11", TABLE_1, M5, [7, 7, 7], refused(13)),
    ("first pair: no student 7", TABLE_1, M5, [7, 4, 1, 5], refused(11)),
    ("first pair: no mentor 7", TABLE_1, M5, [0, 7, 1, 5], refused(11)),
    ("first pair: number 255", TABLE_1, M5, [0, 255, 1, 5], refused(11)),
    ("first pair: not together", TABLE_1, M5, [0, 5, 1, 5], refused(12)),
    ("second pair: no student 7", TABLE_1, M5, [0, 4, 7, 5], refused(11)),
    ("second pair: no mentor 7", TABLE_1, M5, [0, 4, 1, 7], refused(11)),
    ("second pair: number 255", TABLE_1, M5, [0, 4, 255, 255], refused(11)),
    ("second pair: not together", TABLE_1, M5, [0, 4, 1, 4], refused(12)),
    ("12 on the first before 11 on the second", TABLE_1, M5, [0, 5, 7, 5], refused(12)),
    ("11 on the first before 12 on the second", TABLE_1, M5, [7, 4, 1, 4], refused(11)),
    ("11 before 12 on the second", TABLE_1, M5, [0, 4, 1, 8], refused(11)),
    ("first student is alone", SIX, "0123--", [4, 1, 0, 0], refused(12)),
    ("second student is alone", SIX, "0123--", [0, 0, 5, 5], refused(12)),
    ("second student has nobody, who is no mentor", SIX, "0123--", [0, 0, 4, 255], refused(11)),
    ("the second pair is the first student with another", TABLE_1, M5, [0, 4, 0, 5], refused(12)),
    ("n = 0", NOBODY, "", [0, 0, 0, 0], refused(11)),
    ("n = 1, alone", LONE, "-", [0, 0, 0, 0], refused(12)),
    ("not together, twice", TWO, "01", [0, 1, 0, 1], refused(12)),
]

# Rooms of the two buffers: (what is tried, bytes, matching, request, rooms, reply, matching, gains). Nothing past n
# entries is written
ROOMS = [
    ("room for more", TWO, "10", [0, 1, 1, 0], (4, 3), moved("UU", 2), "01", [1, 1]),
    ("room for one byte", TWO, "10", [0, 1, 1, 0], (1, 2), refused(14), "", []),
    ("room for one gain", TWO, "10", [0, 1, 1, 0], (2, 1), refused(14), "", []),
    ("the same pair, room for more", TWO, "10", [1, 0, 1, 0], (3, 5), moved("U", 2), "01", [1, 1]),
    ("the same pair, room for one gain", TWO, "10", [1, 0, 1, 0], (2, 1), refused(14), "", []),
    ("fixed, room for more", SAME, "01", [0, 0, 1, 1], (3, 4), moved("F", 0), "", []),
    ("fixed, no room for a byte", SAME, "01", [0, 0, 1, 1], (1, 2), refused(14), "", []),
    ("fixed, no room for a gain", SAME, "01", [0, 0, 1, 1], (2, 1), refused(14), "", []),
    ("n = 1, the pair twice", ONE, "0", [0, 0, 0, 0], (1, 1), moved("F", 0), "", []),
]

# Weights of another length come before 13, 11, 12 and 14: (weights, request, room)
WEIGHTS = [([], [0, 0, 1, 1], 2), ([1], [0, 0, 1, 1], 2), ([1, 1, 1], [0, 0, 1, 1], 2), ([1], [0, 0, 1], 2)]
WEIGHTS += [([1], [2, 0, 1, 1], 2), ([1], [0, 0, 1, 0], 2), ([1, 1, 1], [0, 0, 1, 1], 1)]

# n = 64: (bytes of the book, place of all in the matching, students, letters, place of all in the repaired one)
LARGEST = [(ROUNDS, 0, (63, 5), "DD", 1), (SHORT_ROUNDS, 4, (7, 56), "UU", 3), (SHORT_ROUNDS, 0, (0, 1), "DD", 1)]


def both(b, m, weights, request, rooms, reply, out=(), gains=()):
    """The plain and the weighted case."""
    given = {"room": rooms[0], "out": out, "gains_room": rooms[1], "gains": gains}
    return [case(REPAIR, reply, b, m, request, **given), case(WEIGHTED_REPAIR, reply, b, m, weights, request, **given)]


def pair_case(market, b, m, students, weights=None):
    """The case of two students' pairs as defined; where one is alone, 12."""
    n, request = market.n, [x for s in students for x in (s, s if m[s] == ALONE else m[s])]
    call, given = (REPAIR, []) if weights is None else (WEIGHTED_REPAIR, [weights])
    reply, out, gains = refused(12), [], []
    if all(m[s] != ALONE for s in students):
        letters, total, new = market.repair_both(m, *students, weights or [1] * n)
        reply = moved(letters, total)
        out, gains = ([], []) if new is None else (new, market.gains(m, new))
    return case(call, reply, b, [*m], *given, request, room=n, out=out, gains_room=n, gains=gains)


def pair_cases(market, b, m, weights=None):
    """The pairs of every two students, in both orders, and each pair twice; a student who is alone with student 0."""
    those = [(s, t) for s in market.people for t in market.people]
    those = [x for x in those if 0 in x or all(m[s] != ALONE for s in x)]
    return [pair_case(market, b, m, students, weights) for students in those]


def small_cases(edition, lists, given, students, letters, distance):
    """The pairs of the two students, plain and with weights."""
    market, m = Market(lists), tuple(mentors(given))
    assert market.repair_both(m, *students, [1] * market.n)[:2] == (letters, distance)
    b = short_book(market.lists) if edition == 2 else book(market.n, sum(market.lists, []))
    weights = short_lists.WEIGHTS[: market.n]
    return [pair_case(market, b, m, students), pair_case(market, b, m, students, weights)]


def table_1_cases():
    """M5, plain, as in TABLE_1_DUE, and with weights; the two extremes."""
    market, m5 = TABLE_1_MARKET, tuple(digits(M5))
    answers = [market.repair_both(m5, s, t, [1] * 7) for s in market.people for t in market.people]
    assert [f"{letters}{distance}" for letters, distance, _ in answers] == TABLE_1_DUE
    yield from pair_cases(market, TABLE_1, m5)
    yield from pair_cases(market, TABLE_1, m5, weighted_calls.TURNED)
    for m in (market.student_best(), market.mentor_best()):
        yield from (pair_case(market, TABLE_1, m, (s, t)) for s in market.people for t in range(s))


def weighed_cases():
    """The two books side by side."""
    market, m = SIDE_BY_SIDE, (2, 0, 1, 5, 3, 4)
    for weights, letters, total in WEIGHED:
        assert market.repair_both(m, 2, 5, weights)[:2] == (letters, total)
        yield pair_case(market, short_book(market.lists), m, (2, 5), weights)
        yield pair_case(market, short_book(market.lists), m, (5, 2), weights)
    yield from pair_cases(market, short_book(market.lists), m)


def short_cases():
    """Of the books of edition 2 the first matching plainly, the last weighted."""
    for market in short_lists.MARKETS:
        b, given = short_book(market.lists), short_lists.matchings_of(market)
        yield from pair_cases(market, b, given[0])
        yield from pair_cases(market, b, given[-1], short_lists.WEIGHTS[: market.n])


def largest_cases(b, place, students, letters, new_place):
    """Plainly and where all weigh 255."""
    m, out, gains = shift(64, place), shift(64, new_place), [place - new_place] * 64
    request = [x for s in students for x in (s, m[s])]
    rooms = {"room": 64, "out": out, "gains_room": 64, "gains": gains}
    yield case(REPAIR, moved(letters, 64), b, m, request, **rooms)
    yield case(WEIGHTED_REPAIR, moved(letters, 16320), b, m, [255] * 64, request, **rooms)


CASES = [*table_1_cases(), *weighed_cases(), *short_cases()]
CASES += [c for given in SMALL for c in small_cases(*given)] + [c for given in LARGEST for c in largest_cases(*given)]
for _, B, M, REPLY in EARLY:
    CASES += both(B, mentors(M), [1] * len(M), [0, 0, 1, 1], (len(M), len(M)), REPLY)
    CASES += both(B, mentors(M), [], [255] * 4, (0, 0), REPLY)
for _, B, M, REQUEST, REPLY in LATE:
    CASES += both(B, mentors(M), [1] * len(M), REQUEST, (len(M) + 1, len(M)), REPLY)
    CASES += both(B, mentors(M), [1] * len(M), REQUEST, (len(M), 0), REPLY)
for _, B, M, REQUEST, GIVEN, REPLY, NEW, GAINS in ROOMS:
    CASES += both(B, mentors(M), [1] * len(M), REQUEST, GIVEN, REPLY, mentors(NEW), GAINS)
for GIVEN, REQUEST, ROOM in WEIGHTS:
    CASES += both(TWO, [0, 1], GIVEN, REQUEST, (ROOM, ROOM), refused(17))[1:]
# 64 pairs, all fixed
CASES += both(FIRSTS, shift(64, 0), [255] * 64, [63, 63, 8, 8], (64, 64), moved("F", 0))[:1]
