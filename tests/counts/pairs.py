"""Two pairs at one go (W-207 of document 02), over all stable matchings of a book."""
from counts.book import NOBODY

SORTS = ["UU", "UD", "DU", "DD"]


class Pairs:
    """For each two students who have a mentor in m, in this order, the candidates of the sorts that have one, each with
    the students whom it moves; and how many stable matchings a sort has. No sort where none lacks both pairs."""

    def __init__(self, book, m):
        self.n = book.n
        self.placed = [s for s in range(book.n) if m[s] != NOBODY]
        self.given = self.places(book, m)
        others = [(x, self.places(book, x)) for x in book.all_stable if x != m]
        self.others = [(places, [s for s in range(book.n) if x[s] != m[s]]) for x, places in others]
        self.sorts = {(a, b): self.of(a, b) for a in self.placed for b in self.placed if a != b}

    def places(self, book, x):
        """The place of each student's mentor on his list."""
        return [book.place(s, x[s]) for s in range(self.n)]

    def of(self, a, b):
        """The sorts of two students' pairs: the first student ends better or worse off, and the second."""
        sorts = {sort: [] for sort in SORTS}
        for x in self.others:
            if x[0][a] != self.given[a] and x[0][b] != self.given[b]:
                sorts["".join("U" if x[0][s] < self.given[s] else "D" for s in (a, b))].append(x)
        return {sort: (self.candidate(those), those) for sort, those in sorts.items() if those}

    def candidate(self, those):
        """The one of a sort that lies for every student between the given one and any other of the sort: none is as
        near in places taken together. Whoever it moves each of the sort moves."""

        def far_off(x):
            return sum(abs(place - given) for place, given in zip(x[0], self.given, strict=True))

        nearest = min(those, key=far_off)
        for places, moved in those:
            for near, given, far in zip(nearest[0], self.given, places, strict=True):
                assert min(given, far) <= near <= max(given, far)
            assert set(nearest[1]) <= set(moved)
        return nearest[1]

    def answer(self, a, b, weights):
        """The sort of the candidate whose moved students weigh least, the first of equal ones, and that weight; F and 0
        where there is no sort."""
        sorts = self.sorts[a, b]
        if not sorts:
            return "F", 0
        totals = {sort: sum(weights[s] for s in candidate) for sort, (candidate, _) in sorts.items()}
        least = min(totals.values())
        return next(sort for sort in SORTS if totals.get(sort) == least), least

    def least(self, a, b, weights):
        """The least weight of the students whom a stable matching moves that lacks both pairs; 0 where none does."""
        totals = [sum(weights[s] for s in moved) for _, those in self.sorts[a, b].values() for _, moved in those]
        return min(totals, default=0)

    def beside_candidates(self):
        """How many stable matchings stand in a sort, over each two pairs in one order."""
        return sum(len(those) for (a, b), sorts in self.sorts.items() if a < b for _, those in sorts.values())
