"""Short lists and what is defined of them: counts/book.py, which finds it among all matchings, with lists as text and
with what the cases need beyond it."""
from counts.book import NOBODY, Book, answer


class Market(Book):
    """The lists of students and then of mentors, best first, a word of digits each, - for none."""

    def __init__(self, text):
        self.lists = [[int(c) for c in word if c.isdigit()] for word in text.split()]
        self.people = range(len(self.lists) // 2)
        students, mentors = self.lists[: len(self.people)], self.lists[len(self.people) :]
        assert all((t in students[s]) == (s in mentors[t]) for s in self.people for t in self.people)
        super().__init__(students, mentors, short=True)
        assert all(self.placed(m) == self.placed(self.all_stable[0]) for m in self.all_stable)

    def placed(self, m):
        """Who has a partner, students and mentors: the same in every stable matching."""
        return [t != NOBODY for t in m], sorted(t for t in m if t != NOBODY)

    def blocking(self, m):
        """The lowest student who blocks and his best-ranked mentor who does, or None."""
        for s in self.people:
            for t in self.students[s][: self.place(s, m[s])]:
                if self.wants(t, s, m):
                    return s, t
        return None

    def mentor_best(self):
        """That in which the students are at the lowest places."""
        return max(self.all_stable, key=lambda m: sum(self.place(s, m[s]) for s in self.people))

    def sets(self):
        """The set of each stable matching, as numbers of rotations."""
        rotations = self.rotations()
        found = {m: {rotations.index(rotation) for rotation in run} for m, run in self.runs().items()}
        assert set(found) == set(self.all_stable)
        return found

    def gains(self, m, new):
        """Old place less new; a student without a mentor is at the end of his list in both."""
        return [self.place(s, m[s]) - self.place(s, new[s]) for s in self.people]

    def repair(self, m, s, weights):
        """The letter, the total weight of the students moved, and the repaired matching, None for F; for a student
        without a mentor N, 0 and None. Of the stable matchings on the side that the letter names it is the one at the
        nearest places."""
        if m[s] == NOBODY:
            return "N", 0, None
        letter, total = answer(*self.moved(m, s), weights)
        sign = {"U": 1, "D": -1, "F": 0}[letter]
        side = [x for x in self.all_stable if x[s] != m[s] and all(sign * gain >= 0 for gain in self.gains(m, x))]
        return letter, total, min(side, key=lambda x: sum(map(abs, self.gains(m, x))), default=None)

    def sorts(self, m, first, second):
        """The stable matchings that hold neither student's pair, by their letters, in the order of W-207."""
        found = {"UU": [], "UD": [], "DU": [], "DD": []}
        for x in self.all_stable:
            one, other = (self.gains(m, x)[s] for s in (first, second))
            if one != 0 and other != 0:
                found[("U" if one > 0 else "D") + ("U" if other > 0 else "D")].append(x)
        return found

    def candidate(self, m, those):
        """Of a sort the one in which every student's mentor stands between the given one and that of any other; None
        where the sort is empty."""
        found = [x for x in those if all(sorted(p)[1] == p[1] for y in those for p in self.places(m, x, y))]
        assert len(found) == min(len(those), 1)
        return found[0] if found else None

    def repair_both(self, m, first, second, weights):
        """The letters of two students' pairs, the total weight of the students moved, and the repaired matching, None
        for F (W-207). The same pair twice is repaired as that pair alone."""
        if first == second:
            return self.repair(m, first, weights)
        sorts = self.sorts(m, first, second)
        answers = [(letters, self.total(m, x, weights), x) for letters, those in sorts.items()
                   if (x := self.candidate(m, those)) is not None]
        best = min(answers, key=lambda given: given[1], default=("F", 0, None))
        assert all(best[1] <= self.total(m, x, weights) for those in sorts.values() for x in those)
        return best

    def total(self, m, new, weights):
        """The weight of the students moved."""
        return sum(weights[s] for s in self.people if new[s] != m[s])

    def grade(self, m, weights):
        """The largest total less the own weight, or None where no pair can be repaired (W-204)."""
        repairs = [(s, *self.repair(m, s, weights)) for s in self.people]
        return max([total - weights[s] for s, letter, total, _ in repairs if letter in "UD"], default=None)

    def fixed(self, m):
        """How many pairs of m every stable matching holds."""
        return sum(m[s] != NOBODY and all(x[s] == m[s] for x in self.all_stable) for s in self.people)

    def sheet(self, m, weights):
        """The lines."""
        grade = self.grade(m, weights)
        lines = [f"{self.n} {len(self.rotations())} {self.fixed(m)} {'-' if grade is None else grade}"]
        for s in self.people:
            letter, total, _ = self.repair(m, s, weights)
            lines.append(f"{s} {'-' if m[s] == NOBODY else m[s]} {letter} {total}")
        return lines

    def moves(self, m):
        """The lines of the sheet without weights, and under each student's those of the students whom the repair of his
        pair moves: a space, the student, his old mentor, his new one and the places gained with a sign."""
        ones = [1] * self.n
        first, *own = self.sheet(m, ones)
        lines = [first]
        for s, line in zip(self.people, own, strict=True):
            new = self.repair(m, s, ones)[2] or m
            gains = enumerate(self.gains(m, new))
            lines += [line] + [f" {i} {m[i]} {new[i]} {gain:+}" for i, gain in gains if gain != 0]
        return lines
