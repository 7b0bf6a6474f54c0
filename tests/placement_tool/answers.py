"""The answers of a college by the definitions: tests/cases/definitions.py over all stable matchings. They are found by
a search that leaves out what cannot become stable, as a dozen students have too many matchings to try them all."""
from cases.definitions import Market
from counts.book import NOBODY, Book


class College(Market):
    """Lists of students and of mentors as numbers, best first; the shorter side is filled up with people without
    choices."""

    def __init__(self, students, mentors):
        n = max(len(students), len(mentors))
        students, mentors = ([list(row) for row in side] + [[]] * (n - len(side)) for side in (students, mentors))
        self.people = range(n)
        Book.__init__(self, students, mentors, short=True)

    def matchings(self, begun):
        """All matchings that begin so and may be stable."""
        if self.blocked(begun):
            return
        if len(begun) == self.n:
            yield begun
            return
        for t in self.students[len(begun)] + [NOBODY]:
            if t == NOBODY or t not in begun:
                yield from self.matchings(begun + (t,))

    def blocked(self, begun):
        """Whether one of the first students prefers a mentor who prefers him to whomever she can still have."""
        for s, own in enumerate(begun):
            for t in self.students[s][: self.place(s, own)]:
                better = self.mentors[t][: self.mentors[t].index(s)]
                if (begun.index(t) not in better) if t in begun else all(i < len(begun) for i in better):
                    return True
        return False
