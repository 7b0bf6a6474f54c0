"""Cases of the repair by a mentor's number, plain and with weights (document 02, W-205).

The answers are those of definitions.py, found among all matchings: her student is the one who has her in the matching,
and a mentor whom nobody has is alone. The request of two bytes for her pair stands beside each, here or in the modules
that have it already; what these have by hand is held against the definitions. The refusals are literals.
"""
from cases import repair_calls, short_lists, short_matching_calls, weighted_calls
from cases.books import LONE, LONE_TWO, NOBODY, ONE, ONE_BESIDE, SAME, SIX, TABLE_1, TWO, mentors, put, short_book
from cases.definitions import Market
from cases.form import REPAIR, REPAIR_MENTOR, WEIGHTED_REPAIR, WEIGHTED_REPAIR_MENTOR, case, moved, refused

# Table 1 of document 000, as lists
TABLE_1_MARKET = Market(" ".join("".join(map(str, TABLE_1[at : at + 7])) for at in range(58, 156, 7)))

# Refused before the weights, with nothing written: (what is tried, bytes of the book, matching, reply). Tried with
# mentor 0 and room for all, and with mentor 255, no weights and no room: the rule comes before 17, 11 and 14
EARLY = [
    ("no bytes", [], "01", refused(1)),
    ("one byte short", TWO[:25], "01", refused(1, 25)),
    ("edition 0", put(TWO, {0: 0}), "01", refused(2)),
    ("n = 65", put(TWO, {1: 65}), "01", refused(3, 1)),
    ("one byte more", TWO + [0], "01", refused(4, 26)),
    ("second directory pair", put(TWO, {8: 3}), "01", refused(5, 6)),
    ("edition 2, a list of seven", put(SIX, {48: 7}), "0123--", refused(5, 46)),
    ("first entry is 2", put(TWO, {18: 2}), "01", refused(6, 18)),
    ("second entry is the first", put(TWO, {19: 0}), "01", refused(7, 19)),
    ("an entry is not returned", short_matching_calls.ONE_SIDED, "--", refused(18)),
    ("a matching of one byte", TWO, "0", refused(8)),
    ("three bytes", TWO, "012", refused(8)),
    ("a mentor twice", TWO, "00", refused(9, 1)),
    ("a mentor with number 2", TWO, "20", refused(9)),
    ("edition 1: 255 is a clash", TWO, "0-", refused(9, 1)),
    ("student 4 and mentor 4 do not list each other", SIX, "01234-", refused(19)),
    ("student 0 and mentor 0 block", SAME, "10", refused(10, 0, 0)),
    ("mentor 4, who is alone, blocks", SIX, "0132--", refused(10, 2, 4)),
]

# Refused after the weights: (what is tried, bytes of the book, matching, mentor, reply). Tried with room for all and,
# as 11 and 12 come before 14, with none
LATE = [
    ("no mentor 2", TWO, "01", 2, refused(11)),
    ("number 255", TWO, "01", 255, refused(11)),
    ("n = 0", NOBODY, "", 0, refused(11)),
    ("n = 0, number 255", [2, 0], "", 255, refused(11)),
    ("255 is not the mentor of student 4", SIX, "0123--", 255, refused(11)),
    ("mentor 4 is on a list and alone", SIX, "0123--", 4, refused(12)),
    ("mentor 5 lists nobody", SIX, "1023--", 5, refused(12)),
    ("n = 1, nobody lists anybody", LONE, "-", 0, refused(12)),
    ("n = 2, nobody lists anybody", LONE_TWO, "--", 1, refused(12)),
    ("alone beside a fixed pair", ONE_BESIDE, "0-", 1, refused(12)),
]

# Weights of another length come before 11, 12 and 14: (bytes of the book, matching, weights, mentor, room)
WEIGHTS = [
    (TWO, "01", [], 0, 2),
    (TWO, "01", [1], 0, 2),
    (TWO, "01", [1, 1, 1], 0, 2),
    (NOBODY, "", [0], 0, 0),
    (TWO, "01", [1], 2, 2),
    (TWO, "01", [1, 1, 1], 255, 2),
    (SIX, "0123--", [1] * 5, 4, 6),
    (SIX, "0123--", [1] * 7, 5, 6),
    (TWO, "01", [1], 0, 1),
]

# Rooms of the two buffers: (what is tried, bytes, matching, mentor, rooms, reply, matching and gains). Nothing past n
# entries is written
ROOMS = [
    ("room for more", TWO, "10", 0, (4, 3), moved("U", 2), [0, 1], [1, 1]),
    ("fixed, room for more", ONE, "0", 0, (2, 3), moved("F", 0), [], []),
    ("room for one byte", TWO, "10", 0, (1, 2), refused(14), [], []),
    ("room for one gain", TWO, "10", 0, (2, 1), refused(14), [], []),
    ("fixed, no room for a byte", ONE, "0", 0, (0, 1), refused(14), [], []),
    ("fixed, no room for a gain", ONE, "0", 0, (1, 0), refused(14), [], []),
]


def both(b, m, weights, mentor, rooms, reply, out=(), gains=()):
    """The plain and the weighted case."""
    given = {"numbers": (mentor, 0), "room": rooms[0], "out": out, "gains_room": rooms[1], "gains": gains}
    plain = case(REPAIR_MENTOR, reply, b, m, **given)
    return [plain, case(WEIGHTED_REPAIR_MENTOR, reply, b, m, weights, **given)]


def defined(market, m, student, weights):
    """The reply of a student's repair, the repaired matching and the gains."""
    letter, total, new = market.repair(m, student, weights)
    return moved(letter, total), *(([], []) if new is None else (new, market.gains(m, new)))


def mentor_cases(market, b, m, weights=None):
    """Every mentor with the request for her pair, if she is not alone, and the numbers n and 255."""
    n = market.n
    call, request_call = (REPAIR_MENTOR, REPAIR) if weights is None else (WEIGHTED_REPAIR_MENTOR, WEIGHTED_REPAIR)
    parts = [b, [*m]] + ([] if weights is None else [weights])
    for mentor in [*market.people, n, 255]:
        reply, out, gains = refused(12 if mentor < n else 11), [], []
        if mentor in market.people and mentor in m:
            student = m.index(mentor)
            reply, out, gains = defined(market, m, student, weights or [1] * n)
            yield case(request_call, reply, *parts, [student, mentor], room=n, out=out, gains_room=n, gains=gains)
        yield case(call, reply, *parts, numbers=(mentor, 0), room=n, out=out, gains_room=n, gains=gains)


def defined_cases():
    """Table 1 with its two extremes and M5; of the books of edition 2 the first matching plainly, the last weighted."""
    market, m5 = TABLE_1_MARKET, tuple(weighted_calls.M)
    for m in [market.student_best(), m5, market.mentor_best()]:
        yield from mentor_cases(market, TABLE_1, m)
    yield from mentor_cases(market, TABLE_1, m5, weighted_calls.TURNED)
    for market in short_lists.MARKETS:
        b, given = short_book(market.lists), short_lists.matchings_of(market)
        yield from mentor_cases(market, b, given[0])
        yield from mentor_cases(market, b, given[-1], short_lists.WEIGHTS[: market.n])


CASES = []
for _, B, M, REPLY in EARLY:
    CASES += both(B, mentors(M), [1] * len(M), 0, (len(M), len(M)), REPLY)
    CASES += both(B, mentors(M), [], 255, (0, 0), REPLY)
for _, B, M, MENTOR, REPLY in LATE:
    CASES += both(B, mentors(M), [1] * len(M), MENTOR, (len(M) + 1, len(M)), REPLY)
    CASES += both(B, mentors(M), [1] * len(M), MENTOR, (len(M), 0), REPLY)
for B, M, GIVEN, MENTOR, ROOM in WEIGHTS:
    CASES += both(B, mentors(M), GIVEN, MENTOR, (ROOM, ROOM), refused(17))[1:]
for _, B, M, *REST in ROOMS:
    CASES += both(B, mentors(M), [1] * len(M), *REST)

# Requests that stand elsewhere have to be as defined
ELSEWHERE = dict(repair_calls.CASES + weighted_calls.CASES + short_matching_calls.CASES + short_lists.CASES)
for GIVEN, LINE in defined_cases():
    assert ELSEWHERE.get(GIVEN, LINE) == LINE
    if GIVEN not in ELSEWHERE:
        CASES.append((GIVEN, LINE))
