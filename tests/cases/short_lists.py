"""Cases of books of edition 2 in which somebody is alone on each side (document 02, W-203): every call but those by a
mentor's number, whose cases of these books are in mentor_calls.py.

The expected answers are those of definitions.py, found among all matchings. What the modules beside this one have by
hand of the same books is held against them, for SHORT_TABLE_1 from the Tables 2 and 3 of document 000. Three books come
from a search for lists with many rotations, with pairs of every letter, and with a mentor who is alone above one who
would be a student's next. The last three have one stable matching alone, and so no grade (W-204).
"""
import itertools

from cases.books import short_book
from cases import short_book_calls, short_matching_calls, short_sheet_calls
from cases.definitions import NOBODY, Market
from cases.form import CHECK_BOOK, CHECK_MATCHING, GRADE, MATCHING_TO_SET, MENTOR_BEST, MENTOR_LIST, PRECEDES, REPAIR
from cases.form import ROTATION_COUNT, ROTATIONS, SET_TO_MATCHING, STUDENT_BEST, STUDENT_LIST
from cases.form import WEIGHTED_GRADE, WEIGHTED_REPAIR, WEIGHTED_SHEET, case, fine, graded, moved, refused
from cases.rotation_calls import TABLE_1_LIST
from cases.sheet_calls import sheet

MARKETS = [
    Market("01 10 243 32 1 - 10 014 32 23 2 -"),
    Market("52417 45023 60 32457 1204 0542 2506 620 216457 04 5043167 13 40531 31650 627 30"),
    # Seven stable matchings by four rotations; eight by five; five by three
    Market("4302 34210 0241 32 20314 1042 241 01243 4013 4210"),
    Market("43210 2143 1234 34102 4 30 3012 3021 1203 21304"),
    Market("45 20534 0245 5420 451203 50 34512 4 4321 14 12304 215403"),
    # One student without a mentor; one beside a fixed pair; one between two of them
    Market("- -"),
    Market("0 - 0 -"),
    Market("01 0 1 01 20 -"),
]
WEIGHTS = [7, 30, 1, 200, 0, 3, 1, 255]


def listed(rotations):
    """The list of rotations as bytes."""
    return [byte for rotation in rotations for byte in [len(rotation), *(x for pair in rotation for x in pair)]]


def person_cases(market, b):
    """One person's list."""
    for k, entries in enumerate(market.lists):
        offset = 2 + 8 * market.n + sum(map(len, market.lists[:k]))
        call, person = (STUDENT_LIST, k) if k < market.n else (MENTOR_LIST, k - market.n)
        yield case(call, fine(len(entries), offset), b, numbers=(person, 0))


def rotation_cases(market, b):
    """The extremes, the rotations, their order, the closed sets and the sets of one rotation, which may be open."""
    n, rotations = market.n, market.rotations()
    before = market.order(rotations)
    yield case(STUDENT_BEST, fine(n), b, room=n + 1, out=market.student_best())
    yield case(MENTOR_BEST, fine(n), b, room=n, out=market.mentor_best())
    yield case(ROTATION_COUNT, fine(len(rotations)), b)
    yield case(ROTATIONS, fine(len(rotations)), b, room=len(listed(rotations)) + 1, out=listed(rotations))
    for pair in itertools.product(range(len(rotations)), repeat=2):
        yield case(PRECEDES, fine(int(pair in before)), b, numbers=pair)
    yield case(PRECEDES, refused(11), b, numbers=(0, len(rotations)))
    closed = market.sets()
    for m, members in closed.items():
        marks = [int(k in members) for k in range(len(rotations))]
        yield case(SET_TO_MATCHING, fine(n), b, marks, room=n, out=[*m])
        yield case(MATCHING_TO_SET, fine(len(rotations)), b, [*m], room=len(rotations), out=marks)
    for k in range(len(rotations)):
        if {k} not in closed.values():
            yield case(SET_TO_MATCHING, refused(16), b, [int(j == k) for j in range(len(rotations))], room=n)


def repair_cases(market, b, m):
    """The repair of each student's pair, plain and with weights. For a student without a mentor each mentor gets 12."""
    n, weights = market.n, WEIGHTS[: market.n]
    for s in range(n):
        if m[s] == NOBODY:
            yield case(REPAIR, refused(12), b, [*m], [s, s], room=n, gains_room=n)
            yield case(WEIGHTED_REPAIR, refused(12), b, [*m], weights, [s, s], room=n, gains_room=n)
            continue
        for call, parts, given in [(REPAIR, [], [1] * n), (WEIGHTED_REPAIR, [weights], weights)]:
            letter, total, repaired = market.repair(m, s, given)
            out, gains = ([], []) if repaired is None else (repaired, market.gains(m, repaired))
            parts = [b, [*m], *parts, [s, m[s]]]
            yield case(call, moved(letter, total), *parts, room=n, out=out, gains_room=n, gains=gains)


def matching_cases(market, b, m):
    """The check, the grade and the sheet of a stable matching, plain and with weights."""
    n, weights = market.n, WEIGHTS[: market.n]
    yield case(CHECK_MATCHING, fine(0), b, [*m])
    yield case(GRADE, graded(market.grade(m, [1] * n)), b, [*m])
    yield case(WEIGHTED_GRADE, graded(market.grade(m, weights)), b, [*m], weights)
    yield sheet(b + [*m], market.sheet(m, [1] * n))
    yield sheet(b + [*m] + weights, market.sheet(m, weights), call=WEIGHTED_SHEET)


def blocked_cases(market, b):
    """Some of the matchings that a pair blocks, spread over all of them."""
    unstable = [(m, pair) for m in market.matchings(()) if (pair := market.blocking(m)) is not None]
    for m, pair in unstable[:: len(unstable) // 12 + 1]:
        yield case(CHECK_MATCHING, refused(10, *pair), b, [*m])


def market_cases(market, given):
    """All of them; the matchings are those that are given."""
    b = short_book(market.lists)
    yield case(CHECK_BOOK, fine(market.n), b)
    yield from person_cases(market, b)
    yield from rotation_cases(market, b)
    yield from blocked_cases(market, b)
    for m in given:
        assert m in market.all_stable and NOBODY in m and any(t not in m for t in market.people)
        yield from repair_cases(market, b, m)
        yield from matching_cases(market, b, m)


SIX, TABLE_1 = MARKETS[:2]
M5 = (4, 5, 6, 3, 1, 2, 0, NOBODY)
assert len(SIX.all_stable) == 2 and len(TABLE_1.all_stable) == 11 and listed(TABLE_1.rotations()) == TABLE_1_LIST


def matchings_of(market):
    """The stable matchings that are given, of Table 1 two."""
    return [TABLE_1.student_best(), M5] if market is TABLE_1 else market.all_stable


# Those that stand by hand have to be as defined
BY_HAND = dict(short_book_calls.CASES + short_matching_calls.CASES + short_sheet_calls.CASES)
CASES = []
for MARKET in MARKETS:
    for GIVEN, LINE in market_cases(MARKET, matchings_of(MARKET)):
        assert BY_HAND.get(GIVEN, LINE) == LINE
        if GIVEN not in BY_HAND:
            CASES.append((GIVEN, LINE))
