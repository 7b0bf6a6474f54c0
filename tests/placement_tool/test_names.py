"""Names to numbers and back, on drawn colleges: what the programs are given, read from its bytes, has the lists of the
files; and what they print has the people of the table."""
import random
import tempfile
import unicodedata
import unittest
from pathlib import Path

from answers import College
from drawn import Lists, draw_lists, draw_matching, draw_names, files
from tool import FILES, NOBODY, PROGRAMS, blocks, program, run

WORDS = {"U": "up", "D": "down", "F": "fixed", "N": "none"}
# The number of students, of mentors, the chance that two list each other, and whether there are weights
KINDS = [(6, 6, 1, False), (7, 7, 0.7, False), (5, 8, 0.8, False), (8, 5, 0.8, False), (6, 6, 1, True),
         (7, 6, 0.7, True), (6, 8, 0.7, True), (1, 1, 1, False), (3, 1, 0.5, False), (16, 16, 0.5, False),
         (2, 2, 0, False)]
ROUNDS = 3


def decode(book):
    """The edition and the lists of both sides, by the directory."""
    edition, n = book[:2]
    numbers = [int.from_bytes(book[k : k + 2], "little") for k in range(2, 2 + 8 * n, 2)]
    rows = [list(book[start : start + size]) for start, size in zip(numbers[::2], numbers[1::2])]
    assert 2 + 8 * n + sum(map(len, rows)) == len(book)
    return edition, [rows[:n], rows[n:]]


def book_end(given):
    """Where the book ends: at the end of its last list."""
    n = given[1]
    return sum(int.from_bytes(given[k : k + 2], "little") for k in (8 * n - 2, 8 * n))


def plain(name):
    """A name as the tool prints it, accents in one form."""
    return unicodedata.normalize("NFC", name)


def cell(name):
    """A name as the table has it: text, not a formula."""
    return ("'" if name[0] in "=+-@" else "") + plain(name)


class Names(unittest.TestCase):
    """Drawn colleges, each with the programs behind a recorder."""

    def setUp(self):
        place = tempfile.TemporaryDirectory()
        self.addCleanup(place.cleanup)
        self.folder = Path(place.name)
        (self.folder / "bin").mkdir()
        for name in ("moves", "weighted_sheet", "cases"):
            recorder = self.folder / "bin" / name
            recorder.write_text(f"#!/bin/sh\ntee '{self.folder}/{name}.given' | '{PROGRAMS.resolve()}/{name}'\n")
            recorder.chmod(0o755)

    def test_drawn(self):
        letters = set()
        for k in range(ROUNDS):
            for kind in KINDS:
                with self.subTest(k=k, kind=kind):
                    letters |= self.draw(k, *kind)
        self.assertEqual(letters, set("UDFN"))

    def test_largest(self):
        """Full lists of 64, plain and with weights: the most that the programs are given."""
        for weighted in (False, True):
            self.draw(0, 64, 64, 1, weighted)

    def draw(self, seed, students, mentors, chance, weighted):
        """Draws a college and compares; the letters of its sheet."""
        rng = random.Random(f"{seed} {students} {mentors} {chance} {weighted}")
        lists = draw_lists(rng, students, mentors, chance)
        names = draw_names(rng, students, "Student"), draw_names(rng, mentors, "Mentor")
        weights = [rng.randrange(256) for _ in range(students)] if weighted else None
        return self.there_and_back(rng, names, lists, draw_matching(rng, Lists(*lists))[:students], weights)

    def there_and_back(self, rng, names, lists, matching, weights):
        """The letters of the sheet, after all comparisons."""
        for name, text in zip(FILES, files(rng, names, lists, matching, weights)):
            (self.folder / name).write_bytes(text)
        status, _, err = run("sheet", *FILES, "--csv", "t.csv", folder=self.folder, programs=self.folder / "bin")
        self.assertEqual((status, err), (0, ""))
        asked = "moves" if weights is None else "weighted_sheet"
        given = (self.folder / f"{asked}.given").read_bytes()
        n = max(map(len, names))
        self.numbers(given, n, lists, matching, weights)
        printed = self.printed(program(asked, given))
        table = blocks((self.folder / "t.csv").read_text(encoding="utf-8"), weights is not None)
        self.assertEqual(list(table), list(map(cell, names[0])))
        mentor = {**dict(enumerate(map(cell, names[1]))), "-": ""}
        for (s, t, letter, value, moves), (head, rows) in zip(printed, table.values()):
            self.assertEqual(head[:2], [mentor[t], WORDS[letter]])
            self.assertEqual(head[2:], [str(len(rows))] if weights is None else [str(len(rows)), value])
            if weights is None:
                due = [[cell(names[0][i]), mentor[old], mentor[new], gain] for i, old, new, gain in moves]
                self.assertEqual(rows, due)
                self.assertEqual(value, str(len(rows)))
        if n <= 8:
            self.definitions(names, lists, matching, weights, table)
        return {letter for _, _, letter, _, _ in printed[: len(names[0])]}

    def numbers(self, given, n, lists, matching, weights):
        """The book, the matching and the weights are those of the files; whoever makes up a side is alone."""
        end = book_end(given)
        edition, rows = decode(given[:end])
        full = all(len(row) == n for side in lists for row in side) and len(lists[0]) == len(lists[1])
        self.assertEqual(edition, 1 if full else 2)
        self.assertEqual(rows, [side + [[]] * (n - len(side)) for side in lists])
        fill = n - len(matching)
        due = bytes([*matching, *[NOBODY] * fill]) + (b"" if weights is None else bytes([*weights, *[0] * fill]))
        self.assertEqual(given[end:], due)

    def printed(self, lines):
        """A sheet's lines by student: number, mentor, letter, value, and the moves under it."""
        found = []
        for line in lines[1:]:
            words = [int(word) if word.isdigit() else word for word in line.split()]
            if line.startswith(" "):
                found[-1][4].append(words)
            else:
                found.append((words[0], words[1], words[2], line.split()[3], []))
        return found

    def definitions(self, names, lists, matching, weights, table):
        """The table is that of the definitions."""
        college = College(*lists)
        m = (*matching, *[NOBODY] * (college.n - len(matching)))
        weighed = [*(weights or [1] * len(matching)), *[0] * (college.n - len(matching))]
        for s, (head, rows) in enumerate(table.values()):
            letter, total, new = college.repair(m, s, weighed)
            self.assertEqual(head[1], WORDS[letter])
            self.assertEqual(head[-1], str(total))
            moved = [] if new is None else [i for i in range(len(matching)) if new[i] != m[i]]
            gains = college.gains(m, new) if new else []
            self.assertEqual(rows, [[cell(names[0][i]), cell(names[1][m[i]]), cell(names[1][new[i]]), f"{gains[i]:+d}"]
                                    for i in moved])
