#!/usr/bin/env python3
"""The counts of the first part of tests/listing_compare, from document 01's definitions over all matchings and, for
weights, short lists, sheets without a grade, mentors who ask, whom a repair moves and two pairs, from W-201 and W-203
to W-207 of document 02. The lines of sheets with moves are those that include/placement.h describes.

    tests/make_listing_counts.py            prints them, in a minute and a half
    tests/make_listing_counts.py --check    says whether tests/listing_compare/expected begins with them

The books and what is asked of them are those of tests/listing_compare; no code is taken from there or from
tests/listing. tests/counts holds the definitions.
"""
import collections
import itertools
import math
import pathlib
import sys

sys.dont_write_bytecode = True
from counts.book import NOBODY, Book, answer, grade
from counts.drawn import KINDS, WAYS, Drawn, permutation
from counts.moves import moves
from counts.pairs import Pairs
from counts.words import BESIDE, SHORT_WORDS, SHOWN, SHOWN_MOVES, WORDS


class Counts(collections.Counter):
    """How much is asked, and how much of it is refused."""

    def book(self, book):
        """A book alone; the reply is its rotations and which precedes which."""
        rotations = book.rotations()
        total, before = len(rotations), book.order(rotations)
        alone = NOBODY in book.all_stable[0]
        self["books"] += 1
        self["books with rotations"] += total > 0
        self["books with somebody alone on each side"] += alone
        self["books with both"] += total > 0 and alone
        self["rotations"] += total
        self["refusals"] += (total + 1) ** 2 - total**2  # two numbers, of which one is that of no rotation
        for marks in itertools.product([0, 1], repeat=total) if total <= 3 else []:
            self.set(marks, before)
        self["refusals"] += 1 + (total > 0)  # a set with a mark too many, and one of marks 2
        return rotations, before

    def set(self, marks, before):
        self["sets"] += 1
        self["refusals"] += not all(marks[j] or not marks[k] for j, k in before)

    def stable(self, book, m, number, rotations, before):
        """A stable matching of a book."""
        self["stable matchings"] += 1
        self["matchings"] += 1
        self["sheets"] += 1
        answers, ones = {}, [1] * book.n
        for s in range(book.n):
            self["searches that a mentor who is alone ends before a willing one"] += book.ends_early(m, s)
            if m[s] == NOBODY:
                self["students alone"] += 1
                self["refusals"] += 2  # the student with nobody, and with mentor 0
            else:
                self.beside(book, m, s)
                answers[s] = answer(*book.moved(m, s), ones)
                self["answers " + answers[s][0]] += 1
                self["refusals"] += 1  # the student with the mentor after his own
        self["mentors alone"] += self.mentors("answers by mentor ", m, answers)
        pairs = Pairs(book, m)
        self.pairs("answers", pairs, answers, ones)
        self["stable matchings beside candidates"] += pairs.beside_candidates()
        self.sheet("sheets", book.n, answers, ones)
        self.moves(book, m, answers)
        eliminated = book.runs()[m]
        marks = [int(rotation in eliminated) for rotation in rotations]
        self.set(marks, before)
        if rotations:
            marks[number % len(rotations)] ^= 1
            self.set(marks, before)

    def beside(self, book, m, s):
        """Both repairs of a pair beside the stable matchings that part it on their side: the students whom these move
        and the repair leaves, and those whom the repair moves less far."""
        for words, (repair, others) in zip(BESIDE, book.beside(m, s), strict=True):
            for x in others:
                self[words[0]] += 1
                for old, new, far in book.places(m, repair, x):
                    self[words[1]] += old == new != far
                    self[words[2]] += old != new != far

    def weighted(self, book, m, tables, asks_for_two=lambda number: True):
        """A stable matching with each of some tables of weights by number, and with which of these each two pairs are
        asked for."""
        moved = {s: book.moved(m, s) for s in range(book.n) if m[s] != NOBODY}
        pairs = Pairs(book, m)
        for number, weights in tables.items():
            self["weighted matchings"] += 1
            self["refusals"] += book.n - len(moved)  # each student who is alone, with mentor 0
            answers = {s: answer(*moved[s], weights) for s in moved}
            for letter, total in answers.values():
                self["weighted answers " + letter] += 1
                self["weighted totals"] += total
            self.mentors("weighted answers by mentor ", m, answers)
            if asks_for_two(number):
                self["weighted totals of two pairs"] += self.pairs("weighted answers", pairs, answers, weights)
            self["weighted grades"] += grade(answers, weights) or 0
            self.sheet("weighted sheets", book.n, answers, weights)

    def pairs(self, word, pairs, answers, weights):
        """Each two pairs in each order, and each pair twice; the reply is the sum of the totals."""
        totals = 0
        for a, b in itertools.product(pairs.placed, repeat=2):
            if a == b:
                fixed = "fixed " if answers[a][0] == "F" else ""
                self[f"{word} to the same {fixed}pair twice"] += 1
                totals += answers[a][1]
            else:
                letters, total = pairs.answer(a, b, weights)
                assert total == pairs.least(a, b, weights)
                self[f"{word} to two pairs {letters}"] += 1
                totals += total
        return totals

    def mentors(self, word, m, answers):
        """Every mentor's number, n and 255, of which no mentor has the last two; the reply is how many are alone."""
        alone = [t for t in range(len(m)) if t not in m]
        for t in set(range(len(m))) - set(alone):
            self[word + answers[m.index(t)][0]] += 1
        self["refusals"] += len(alone) + 2
        return len(alone)

    def sheet(self, word, n, answers, weights):
        """A sheet by what it shows; students who are not among the answers are alone."""
        fixed = any(letter == "F" for letter, _ in answers.values())
        known = grade(answers, weights)
        near = any(letter != "F" and total == 1 for letter, total in answers.values())
        shown = [known is None and fixed, known is None and not fixed, known is not None and fixed]
        shown += [fixed and len(answers) < n, known == 0 and near]
        for kind, is_shown in zip(SHOWN, shown, strict=True):
            self[f"{word} with {kind}"] += is_shown

    def moves(self, book, m, answers):
        """The sheet with moves by what it shows, and the lines under its pairs."""
        pairs = list(moves(book, m, answers))
        better, worse = (sum(sign * gain > 0 for moved in pairs for gain, _ in moved) for sign in (1, -1))
        self["moves for the better"] += better
        self["moves for the worse"] += worse
        self["bytes of lines with moves"] += sum(len(line) for moved in pairs for _, line in moved)
        shown = [better > 0, worse > 0, len(pairs) < len(answers), len(answers) < book.n]
        shown += [any(len(moved) < len(answers) for moved in pairs)]
        for kind, is_shown in zip(SHOWN_MOVES, shown, strict=True):
            self[f"sheets with moves and {kind}"] += is_shown

    def refused(self, times=1):
        """Bytes that are no stable matching: check, repair, grade and set are refused."""
        self["matchings"] += times
        self["sheets"] += times
        self["refusals"] += 4 * times


def count_small(counts):
    """Every book for n up to 3 with every matching, and for n up to 2 with some bytes that are none; every stable
    matching with all weights 0, 1 and 2, but with one table where n = 3 and it is the only one, all pairs being fixed.
    With one in nine tables of n = 3, by the number of the book, each two pairs are asked for.
    """
    for n in range(4):
        lists = [permutation(n, number) for number in range(math.factorial(n))]
        for number in range(len(lists) ** (2 * n)):
            rows = [lists[number // len(lists) ** k % len(lists)] for k in range(2 * n)]
            book = Book(rows[:n], rows[n:])
            rotations, before = counts.book(book)
            for choice in range(math.factorial(n)):
                m = permutation(n, choice)
                if m in book.all_stable:
                    counts.stable(book, m, choice, rotations, before)
                else:
                    counts.refused()
            counts.refused([1, 3, 4, 0][n])
            tables = {k: tuple(k // 3**s % 3 for s in range(n)) for k in range(3**n)}
            if n == 3 and len(book.all_stable) == 1:
                tables = {number % 27: tables[number % 27]}
            for m in book.all_stable:
                counts.weighted(book, m, tables, lambda k, n=n, number=number: n < 3 or k % 9 == number % 9)


def count_matchings(counts, book, others, drawn_weights):
    """Every stable matching of a book, also with weights of any bytes and with weights 0, 1 and 2, which are drawn;
    and other matchings, if they are not stable."""
    rotations, before = counts.book(book)
    for number, m in enumerate(book.all_stable):
        counts.stable(book, m, number, rotations, before)
        counts.weighted(book, m, {end: [drawn_weights.draw() % end for _ in range(book.n)] for end in (256, 3)})
    for m in others:
        if m not in book.all_stable:
            counts.refused()


def count_drawn(counts):
    """Drawn books for n = 4 to 6 with three drawn matchings."""
    drawn, drawn_weights = Drawn(1), Drawn(3)
    for n, books in ((4, 600), (5, 300), (6, 150)):
        for kind in KINDS * books:
            book = Book(*drawn.lists(kind, n))
            count_matchings(counts, book, [permutation(n, drawn.draw()) for _ in range(3)], drawn_weights)


def count_small_short(counts):
    """Every choice of lists of edition 2 for n up to 2, with all bytes that name a mentor or nobody and all weights 0,
    1 and 2; those that are one-sided are refused."""
    for n in range(3):
        lists = [row for length in range(n + 1) for row in itertools.permutations(range(n), length)]
        for both in itertools.product(lists, repeat=2 * n):
            students, mentors = both[:n], both[n:]
            if any((t in students[s]) != (s in mentors[t]) for s in range(n) for t in range(n)):
                counts["books refused as one-sided"] += 1
                counts["refusals"] += 1
                continue
            book = Book(students, mentors, short=True)
            rotations, before = counts.book(book)
            for m in itertools.product([*range(n), NOBODY], repeat=n):
                if m in book.all_stable:
                    counts.stable(book, m, 0, rotations, before)
                    counts.weighted(book, m, dict(enumerate(itertools.product([0, 1, 2], repeat=n))))
                else:
                    counts.refused()


def count_drawn_short(counts):
    """Drawn books of edition 2 for n = 3 to 6 with three drawn matchings in which students may be alone."""
    drawn, drawn_weights = Drawn(4), Drawn(5)
    for n, books in ((3, 60), (4, 100), (5, 100), (6, 60)):
        for way, kind in itertools.product(WAYS * books, KINDS):
            book = Book(*drawn.short_lists(kind, way, n), short=True)
            count_matchings(counts, book, [drawn.some_placed(n) for _ in range(3)], drawn_weights)


def lines(counts, words):
    return "".join(f"{word} {counts[word]}\n" for word in words)


if __name__ == "__main__":
    full, short = Counts(), Counts()
    count_small(full)
    count_drawn(full)
    count_small_short(short)
    count_drawn_short(short)
    text = lines(full, WORDS) + "differences 0\n"
    text += "edition 2: " + lines(short, SHORT_WORDS + WORDS) + "differences 0\n"
    if sys.argv[1:] == ["--check"]:
        stored = (pathlib.Path(__file__).resolve().parent / "listing_compare" / "expected").read_text()
        stored = "".join(line for line in stored.splitlines(keepends=True) if not line.startswith("#"))
        sys.exit(0 if stored.startswith(text) else "tests/listing_compare/expected does not begin with\n" + text)
    sys.stdout.write(text)
