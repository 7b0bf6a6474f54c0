"""Drawn colleges: lists as numbers, names, a stable matching, and the three files."""
from counts.book import NOBODY, Book

from tool import as_csv

# Names that files, pages and tables could spoil; each has to come back as it is.
ODD = [
    "O'Brien, Pat", 'Ann "Annie" Lee', "Zo\u00eb", "\u0141ukasz \u017b\u00f3\u0142\u0107", "\uae40\ubbfc\uc900",
    "\u05e9\u05e8\u05d4 \u05db\u05d4\u05df", "\u0645\u062d\u0645\u062f (West)", "\U0001f642 Smile", "=SUM(A1:A2)",
    "+Plus", "-", "@home", "<b>Bold</b>", "A & B &amp; C", "</script><script>1</script>", "x;y", "#filter=a%",
    "name, weight", "\\N", "'quoted'", "{brace}", "weight", "\u1e9e\u00df", "e\u0301t\u00e9",
]


class Lists(Book):
    """Lists of any size, for which the stable matchings are not listed."""

    def __init__(self, students, mentors):
        self.n = max(len(students), len(mentors))
        self.students, self.mentors = ([*side, *[[]] * (self.n - len(side))] for side in (students, mentors))

    def student_best(self):
        """By proposals from the heads of the students' lists."""
        has, asked, free = {}, [0] * self.n, list(range(self.n))
        while free:
            s = free.pop()
            if asked[s] == len(self.students[s]):
                continue
            t = self.students[s][asked[s]]
            asked[s] += 1
            rank = self.mentors[t].index
            if t in has and rank(has[t]) < rank(s):
                free.append(s)
                continue
            if t in has:
                free.append(has[t])
            has[t] = s
        return tuple(next((t for t, own in has.items() if own == s), NOBODY) for s in range(self.n))


def draw_lists(rng, students, mentors, chance):
    """Lists of so many people. Two list each other with this chance; a mentor tends to like those who do not like
    her, which makes for many stable matchings."""
    pairs = [(s, t) for s in range(students) for t in range(mentors) if rng.random() < chance]
    liking = {pair: rng.random() for pair in pairs}
    places = {pair: liking[pair] + 0.7 * rng.random() for pair in pairs}
    back = {pair: 0.7 * rng.random() - liking[pair] for pair in pairs}
    rows = [sorted([t for i, t in pairs if i == s], key=lambda t, s=s: places[s, t]) for s in range(students)]
    return rows, [sorted([s for s, j in pairs if j == t], key=lambda s, t=t: back[s, t]) for t in range(mentors)]


def draw_matching(rng, lists):
    """A stable matching: some rotations from the student-best one."""
    m = lists.student_best()
    for _ in range(rng.randrange(lists.n + 1)):
        if exposed := lists.exposed(m):
            m = lists.eliminate(m, rng.choice(exposed))
    return m


def draw_names(rng, size, stem):
    """Different names, two thirds of them odd or as many as there are, in any order."""
    names = rng.sample(ODD, min(size * 2 // 3, len(ODD)))
    return rng.sample(names + [f"{stem} {k}" for k in range(size - len(names))], size)


def spoilt(rng, name):
    """A name as a file may have it: with blanks about it, two blanks in it, a line break, a split accent."""
    changes = [lambda x: x, lambda x: x, lambda x: f"  {x}\t", lambda x: x.replace(" ", "  "),
               lambda x: x.replace(" ", "\n"), lambda x: x.replace(" ", "\u00a0"),
               lambda x: x.replace("\u00eb", "e\u0308").replace("\u00e9", "e\u0301")]
    return rng.choice(changes)(name)


def files(rng, names, lists, matching, weights):
    """The three files: with or without headers, byte order marks, empty lines and cells, in any order of pairs."""
    rows = [[[name, *[names[1 - k][i] for i in row]] for name, row in zip(names[k], lists[k])] for k in (0, 1)]
    if weights is not None:
        rows[0] = [[row[0], str(weight), *row[1:]] for row, weight in zip(rows[0], weights)]
    pairs = [[name, "" if t == NOBODY else names[1][t]] for name, t in zip(names[0], matching)]
    rng.shuffle(pairs)
    heads = [["Name", "Weight", "choices"] if weights is not None else ["name", "1", "2"], ["MENTOR"],
             ["Student", "Mentor"]]
    texts = []
    for head, body in zip(heads, [*rows, pairs]):
        body = [[spoilt(rng, cell) for cell in row] + [""] * rng.randrange(3) for row in body]
        body.insert(rng.randrange(len(body) + 1), [" "] * rng.randrange(3))
        needs = head[1:2] == ["Weight"] or rng.random() < 0.5
        texts.append(rng.choice(["", "\ufeff"]) + as_csv([head, *body] if needs else body))
    return [text.replace("\n", rng.choice(["\n", "\r\n"])).encode() for text in texts]
