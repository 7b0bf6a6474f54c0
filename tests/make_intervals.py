#!/usr/bin/env python3
"""What tests/intervals has to print, from the definitions of documents 01 and 02 over all matchings.

    tests/make_intervals.py            prints it
    tests/make_intervals.py --check    says whether it is what tests/intervals/expected has

For Table 1 of document 000 and for a book with short lists: both repairs of each pair of a stable matching beside every
stable matching without the pair, and for each student his place in the repair and the interval in which it stands
(W-206). No code is taken from the program; tests/counts holds the definitions.
"""
import pathlib
import sys

sys.dont_write_bytecode = True
from counts.book import NOBODY, Book

TABLE_1 = "0652413 6145023 6031542 3201465 1203456 6103542 2506431 2164530 0435261 2504316 6123405 4605312 3126540 4621305"
SHORT = "45 312405 50423 05243 425013 240531 14523 541 13245 24351 132540 154320"


def book_of(text, short):
    rows = [[int(digit) for digit in word] for word in text.split()]
    return Book(rows[: len(rows) // 2], rows[len(rows) // 2 :], short)


def row(numbers):
    return " ".join("-" if number == NOBODY else str(number) for number in numbers)


def lines(name, book, m):
    places = [NOBODY if t == NOBODY else book.place(s, t) for s, t in enumerate(m)]
    yield f"{name}: {len(book.all_stable)} stable matchings, given {row(m)} at places {row(places)}"
    for s in range(book.n):
        if m[s] == NOBODY:
            continue
        for word, (repair, others) in zip(("up", "down"), book.beside(m, s), strict=True):
            if repair is None:
                yield f"pair {s} {m[s]}, repair {word}: none"
                continue
            moved = [i for i in range(book.n) if repair[i] != m[i]]
            yield f"pair {s} {m[s]}, repair {word}: {row(repair)}, moves {row(moved)}"
            for x in others:
                cells = [
                    "-" if m[i] == NOBODY else f"{new} in {min(old, far)}..{max(old, far)}"
                    for i, (old, new, far) in enumerate(book.places(m, repair, x))
                ]
                yield f"  {row(x)}: {' | '.join(cells)}"


if __name__ == "__main__":
    text = list(lines("Table 1", book_of(TABLE_1, False), (4, 5, 6, 3, 1, 2, 0)))
    text += lines("short lists", book_of(SHORT, True), (NOBODY, 3, 0, 5, 2, 4))
    if sys.argv[1:] == ["--check"]:
        stored = (pathlib.Path(__file__).resolve().parent / "intervals" / "expected").read_text().splitlines()
        stored = [line for line in stored if not line.startswith("#")]
        sys.exit(0 if stored == text else "tests/intervals/expected is not what this script prints")
    print("\n".join(text))
