"""A book and what is defined of it: by document 01 over all matchings, and for weights, short lists, matchings without
a grade and whom a repair moves by W-201, W-203, W-204 and W-206 of document 02."""
import math

NOBODY = 255


class Book:
    """Ranked lists of students and of mentors, best first. Where they may be short, a student may have NOBODY."""

    def __init__(self, students, mentors, short=False):
        self.n = len(students)
        self.students, self.mentors, self.short = students, mentors, short
        self.all_stable = [m for m in self.matchings(()) if self.is_stable(m)]

    def matchings(self, begun):
        """All matchings that begin so, in the order of their bytes. Each pair lists each other."""
        if len(begun) == self.n:
            yield begun
            return
        for t in sorted(self.students[len(begun)]):
            if t not in begun:
                yield from self.matchings(begun + (t,))
        if self.short:
            yield from self.matchings(begun + (NOBODY,))

    def place(self, student, mentor):
        """The place of a mentor on a student's list; NOBODY comes after all."""
        row = self.students[student]
        return len(row) if mentor == NOBODY else row.index(mentor)

    def wants(self, mentor, student, m):
        """Whether a mentor is alone in m, or ranks a student above her own."""
        row = self.mentors[mentor]
        return mentor not in m or row.index(student) < row.index(m.index(mentor))

    def is_stable(self, m):
        """No two list each other and are each alone or prefer the other."""
        for s in range(self.n):
            for t in self.students[s]:
                if t == m[s]:
                    break
                if self.wants(t, s, m):
                    return False
        return True

    def student_best(self):
        best = tuple(min((m[s] for m in self.all_stable), key=lambda t, s=s: self.place(s, t)) for s in range(self.n))
        assert best in self.all_stable
        return best

    # Rotations

    def next_mentor(self, m, s):
        """The first below his own who wants the student; one who is alone ends the search."""
        for t in self.students[s][self.place(s, m[s]) + 1 :]:
            if self.wants(t, s, m):
                return t if t in m else None
        return None

    def ends_early(self, m, s):
        """Whether one who is alone ends the search before another who wants the student."""
        below = self.students[s][self.place(s, m[s]) + 1 :]
        return self.next_mentor(m, s) is None and any(t in m and self.wants(t, s, m) for t in below)

    def exposed(self, m):
        """The rotations exposed in m, each a tuple of pairs from its lowest student, by that student."""
        found = []
        for s in range(self.n):
            cycle, at = [s], s
            while True:
                t = self.next_mentor(m, at)
                at = None if t is None else m.index(t)
                if at is None or at in cycle:
                    break
                cycle.append(at)
            if at == s and s == min(cycle):
                found.append(tuple((x, m[x]) for x in cycle))
        return found

    def eliminate(self, m, rotation):
        new = list(m)
        for k, (s, _) in enumerate(rotation):
            new[s] = rotation[(k + 1) % len(rotation)][1]
        return tuple(new)

    def rotations(self):
        m, found = self.student_best(), []
        while self.exposed(m):
            found.append(self.exposed(m)[0])
            m = self.eliminate(m, found[-1])
        return found

    def runs(self, avoided=None):
        """Every matching that a run without the rotation reaches, with the rotations that a run to it eliminates."""
        start = self.student_best()
        reached, waiting = {start: frozenset()}, [start]
        while waiting:
            m = waiting.pop()
            for rotation in self.exposed(m):
                if rotation == avoided:
                    continue
                new, eliminated = self.eliminate(m, rotation), reached[m] | {rotation}
                if new in reached:
                    assert reached[new] == eliminated
                else:
                    reached[new] = eliminated
                    waiting.append(new)
        return reached

    def order(self, rotations):
        """The pairs of numbers of which the first precedes the second: no run without it exposes the second."""
        before = set()
        for j, first in enumerate(rotations):
            exposed = {rotation for m in self.runs(first) for rotation in self.exposed(m)}
            before |= {(j, k) for k, second in enumerate(rotations) if j != k and second not in exposed}
        return before

    # Repairs

    def repairs(self, m, s):
        """Repair up of a student's pair, and repair down, None where there is none."""
        without = [x for x in self.all_stable if x[s] != m[s]]

        def no_worse(x, y):
            return all(self.place(i, x[i]) <= self.place(i, y[i]) for i in range(self.n))

        def extreme(those, choose):
            if not those:
                return None
            one = tuple(choose((x[i] for x in those), key=lambda t, i=i: self.place(i, t)) for i in range(self.n))
            assert one in those
            return one

        up = extreme([x for x in without if no_worse(x, m)], max)
        down = extreme([x for x in without if no_worse(m, x)], min)
        return up, down

    def moved(self, m, s):
        """The students whom repair up of a student's pair moves, and repair down, None where there is none; then for
        each stable matching without the pair those whom it moves."""

        def of(x):
            return None if x is None else [i for i in range(self.n) if x[i] != m[i]]

        up, down = self.repairs(m, s)
        return of(up), of(down), [of(x) for x in self.all_stable if x[s] != m[s]]

    def beside(self, m, s):
        """Repair up with the stable matchings in which the student is better off, and repair down with those in which
        he is worse off. Each student's mentor in a repair stands between (W-206)."""
        given = self.place(s, m[s])
        better = [x for x in self.all_stable if self.place(s, x[s]) < given]
        worse = [x for x in self.all_stable if self.place(s, x[s]) > given]
        both = list(zip(self.repairs(m, s), (better, worse), strict=True))
        for repair, others in both:
            assert (repair is None) == (not others)
            for x in others:
                for places in self.places(m, repair, x):
                    assert sorted(places)[1] == places[1]
        return both

    def places(self, m, repair, x):
        """Of each student the place of his mentor in three matchings."""
        return [[self.place(i, y[i]) for y in (m, repair, x)] for i in range(self.n)]


def answer(up, down, without, weights):
    """U, D or F, and the total weight of the students moved; 0 for F."""
    if not without:
        return "F", 0

    def total(moved):
        return math.inf if moved is None else sum(weights[i] for i in moved)

    least = min(total(up), total(down))
    assert least == min(total(moved) for moved in without)
    return ("U" if total(up) <= total(down) else "D"), least


def grade(answers, weights):
    """The largest total of a repair less the student's own weight; None where no pair can be repaired (W-204). The
    answers are those of the students in pairs."""
    totals = [total - weights[s] for s, (letter, total) in answers.items() if letter != "F"]
    return max(totals, default=None)
