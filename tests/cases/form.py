"""The form of a case and of its line, as tests/make_cases.py documents it, and the replies of include/placement.h."""

# The calls by number: in the order of include/placement.h, but the two by a mentor's number and the moves come last
(
    CHECK_BOOK,
    BOOK_SIZE,
    WRITE_BOOK,
    STUDENT_LIST,
    MENTOR_LIST,
    CHECK_MATCHING,
    STUDENT_BEST,
    MENTOR_BEST,
    REPAIR,
    GRADE,
    ROTATION_COUNT,
    ROTATIONS,
    PRECEDES,
    SET_TO_MATCHING,
    MATCHING_TO_SET,
    SHEET,
    WEIGHTED_REPAIR,
    WEIGHTED_GRADE,
    WEIGHTED_SHEET,
    REPAIR_MENTOR,
    WEIGHTED_REPAIR_MENTOR,
    MOVES,
) = range(22)


def fine(value, place=0):
    """The reply where nothing is refused."""
    return [0, place, 0, 0, value]


def graded(grade):
    """The reply of a grade; None, where no pair can be repaired, is PLACEMENT_NO_GRADE (document 02, W-204)."""
    return fine(2**64 - 1 if grade is None else grade)


def moved(letters, distance):
    """The reply of a repair; with weights the total is given for the distance. The letter is U, D or F, or of two pairs
    (W-207) the first pair's and above it the second's."""
    return [0, 0, 0, sum(256**k * ord(letter) for k, letter in enumerate(letters)), distance]


def refused(number, place=0, second=0):
    """The reply where a rule is broken."""
    return [number, place, second, 0, 0]


def two_bytes(number):
    return [number % 256, number // 256]


def case(call, reply, *parts, numbers=(0, 0), room=0, out=(), gains_room=0, gains=()):
    """The bytes of a case and its line. A buffer holds what is written to it, and past that what it held before."""
    parts = [*parts, [], [], [], []][:4]
    header = [*numbers, room, gains_room, *map(len, parts)]
    given = [call] + [byte for number in header for byte in two_bytes(number)] + sum(parts, [])
    out = [*out] + [255] * (room - len(out))
    gains = [*gains] + [100] * (gains_room - len(gains))
    return bytes(given), " ".join(map(str, [*reply, ":", *out, ":", *gains]))
