"""Books from ranked lists, built byte by byte by document 01, section 'The book', and by W-203 of document 02."""


def digits(text):
    """The digits of a text as numbers."""
    return [int(c) for c in text if c.isdigit()]


def book(n, entries):
    """A book: edition, n, 2n directory pairs of offset and length, low byte first, and the list bytes."""
    out = [1, n]
    for k in range(2 * n):
        offset = 2 + 8 * n + n * k
        out += [offset % 256, offset // 256, n % 256, n // 256]
    return out + entries


def book_of(text):
    """A book from its lists, students and then mentors, each a word of digits."""
    return book(len(text.split()) // 2, digits(text))


def short_book(lists):
    """A book of edition 2 from its lists, students and then mentors, each of any length."""
    n = len(lists) // 2
    out, offset = [2, n], 2 + 8 * n
    for entries in lists:
        out += [offset % 256, offset // 256, len(entries), 0]
        offset += len(entries)
    return out + sum(lists, [])


def short_book_of(text):
    """A book of edition 2 from its lists, each a word of digits, - for none."""
    return short_book([digits(word) for word in text.split()])


def put(b, changes):
    """The bytes with others at some places."""
    b = list(b)
    for place, byte in changes.items():
        b[place] = byte
    return b


def mentors(text):
    """A matching, a digit for each student, - for one without a mentor."""
    return [255 if c == "-" else int(c) for c in text]


def firsts(n):
    """Person i of either side ranks i, i + 1, ... round to i - 1. So i and i are each other's first: every pair is
    fixed, and nothing else is stable."""
    return book(n, [(k + j) % n for k in range(2 * n) for j in range(n)])


def rounds(n):
    """Student i ranks i, i + 1, ... and mentor j ranks j + 1, j + 2, ..., j, each round. The mentor at place k of a
    student has him at place n - 1 - k, so the stable matchings are those in which all have place k, for k from 0 to
    n - 1. Each goes to the next by one rotation of all n pairs: n - 1 rotations, and every repair has distance n."""
    students = [(i + j) % n for i in range(n) for j in range(n)]
    return book(n, students + [(w + 1 + j) % n for w in range(n) for j in range(n)])


def shift(n, k):
    """The matching in which every student has the mentor at place k of `rounds`."""
    return [(i + k) % n for i in range(n)]


# The empty book, and that of one student
NOBODY = [1, 0]
ONE = book_of("0 0")
# Document 01: students 0 1 and 1 0, mentors 1 0 and 0 1; and all four lists 0 1
TWO = book_of("01 10 10 01")
SAME = book_of("01 01 01 01")
# Three students. Stable are 1 0 2, 2 0 1 and 2 1 0: students 0 and 2 exchange their mentors, and then 1 and 2
TWO_ROTATIONS = book_of("012 012 210 210 120 012")
# Three students, of whom 0 and 1 can exchange mentors 0 and 1, and student 2 keeps mentor 2
ONE_FIXED = book_of("012 102 201 102 012 201")
# Table 1 of document 000: the students (men), then the mentors (women). Directory pair k at byte 2 + 4k, list k at
# byte 58 + 7k
TABLE_1 = book_of("""
0652413 6145023 6031542 3201465 1203456 6103542 2506431
2164530 0435261 2504316 6123405 4605312 3126540 4621305
""")
# Its matching of document 000, Tables 2 and 3
M5 = "4563120"
# The largest n
FIRSTS = firsts(64)
ROUNDS = rounds(64)

# Edition 2. Students 0 and 1 can exchange mentors 0 and 1, the one rotation. Students 2 and 3 would exchange mentors 2
# and 3, but student 2 prefers mentor 4, who is alone, to mentor 3: their pairs are fixed. Student 4 is alone, as mentor 1
# prefers whomever she has; student 5 and mentor 5 list nobody. Directory pair k at byte 2 + 4k, the lists are bytes 50
# to 69
SIX = short_book_of("""
01 10 243 32 1 -
10 014 32 23 2 -
""")
# Table 1 without the entries below a student's mentor in the mentor-best matching and below a mentor's student in the
# student-best one, which take part in no stable matching and block none; and with student 7 last on the lists of
# mentors 0, 2 and 6, and mentor 7 last on those of students 0 and 3. Both are alone, and else all is as in Table 1
SHORT_TABLE_1 = short_book_of("""
52417 45023 60 32457 1204 0542 2506 620
216457 04 5043167 13 40531 31650 627 30
""")
# One student and two, of whom nobody lists anybody; one who has his mentor; that one, beside one who lists nobody
LONE, LONE_TWO = short_book_of("- -"), short_book_of("- - - -")
ONE_SHORT, ONE_BESIDE = short_book_of("0 0"), short_book_of("0 - 0 -")
# The largest n, lists of 8: `rounds` with those entries alone that are at a student's places 0 to 7
SHORT_ROUNDS = short_book(
    [[(i + j) % 64 for j in range(8)] for i in range(64)] + [[(w - 7 + j) % 64 for j in range(8)] for w in range(64)]
)
