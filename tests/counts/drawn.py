"""Books, matchings and weights drawn by the numbers of Park and Miller after a seed."""
from counts.book import NOBODY

KINDS = ["random", "cyclic", "xor"]
WAYS = ["sparse", "cut", "outsiders", "outsiders", "outsiders"]


def permutation(n, k):
    """Permutation number k of 0 to n - 1."""
    a = list(range(n))
    for j in range(n, 1, -1):
        a[j - 1], a[k % j] = a[k % j], a[j - 1]
        k //= j
    return tuple(a)


class Drawn:
    def __init__(self, seed):
        self.last = seed

    def draw(self):
        self.last = self.last * 48271 % 2147483647
        return self.last

    def lists(self, kind, n):
        """The lists of both sides: those of the kind with the people renumbered and some neighbours exchanged."""
        people = [permutation(n, self.draw()) for _ in range(2)]
        sides = [[None] * n for _ in range(2)]
        for side in range(2):
            own, other = people[side], people[1 - side]
            for x in range(n):
                if kind == "random":
                    row = permutation(n, self.draw())
                elif kind == "cyclic":
                    row = [(x + side + k) % n for k in range(n)]
                else:
                    row = sorted(range(n), key=lambda y, x=x: (x ^ y) ^ 7 * side)
                sides[side][own[x]] = [other[y] for y in row]
        for _ in range(self.draw() % 6):
            row = sides[self.draw() % 2][self.draw() % n]
            place = self.draw() % n
            if place:
                row[place - 1], row[place] = row[place], row[place - 1]
        return sides

    def short_lists(self, kind, way, n):
        """Short lists of both sides: of full lists some pairs, or fewer people with full lists and outsiders; then
        people renumbered and up to two pairs less."""
        if way == "outsiders":
            sides = self.with_outsiders(kind, n)
        else:
            sides = self.lists(kind, n)
            pairs = [(s, t) for s in range(n) for t in range(n)]
            if way == "sparse":
                stay = {pair for pair in pairs if self.draw() % 2 == 0}
            else:
                most = 1 + self.draw() % (n - 1)
                stay = {(s, t) for s, t in pairs if sides[0][s].index(t) < most}
            sides[0] = [[t for t in row if (s, t) in stay] for s, row in enumerate(sides[0])]
            sides[1] = [[s for s in row if (s, t) in stay] for t, row in enumerate(sides[1])]
        names = [permutation(n, self.draw()) for _ in range(2)]
        new = [[None] * n for _ in range(2)]
        for side in range(2):
            for x, row in enumerate(sides[side]):
                new[side][names[side][x]] = [names[1 - side][y] for y in row]
        for _ in range(self.draw() % 3):
            s = self.draw() % n
            if new[0][s]:
                t = new[0][s].pop(self.draw() % len(new[0][s]))
                new[1][t].remove(s)
        return new

    def with_outsiders(self, kind, n):
        """Full lists of fewer people, with outsiders whom about half of the others list, mostly last."""
        core = n - 1 - min(self.draw() % 2, n - 3)
        sides = [rows + [[] for _ in range(n - core)] for rows in self.lists(kind, core)]
        for side in range(2):
            for outsider in range(core, n):
                for x in range(core):
                    if self.draw() % 2 == 0:
                        own, other = sides[side][outsider], sides[1 - side][x]
                        other.insert(self.draw() % (len(other) + 1) if self.draw() % 4 == 0 else len(other), outsider)
                        own.insert(self.draw() % (len(own) + 1), x)
        return sides

    def some_placed(self, n):
        """A permutation in which one in three entries is NOBODY instead."""
        return tuple(NOBODY if self.draw() % 3 == 0 else t for t in permutation(n, self.draw()))
