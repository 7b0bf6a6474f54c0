"""The lines under the pairs of a sheet with moves, from the repairs of a book."""


def moves(book, m, answers):
    """Of each pair that can be repaired the students whom the taken repair moves, lowest number first: the places
    gained, and the line."""
    for s, (letter, _) in answers.items():
        if letter in "UD":
            new = book.repairs(m, s)["UD".index(letter)]
            yield [moved(book, m, new, i) for i in range(book.n) if new[i] != m[i]]


def moved(book, m, new, i):
    """A space, the student, his old mentor, his new one and the places gained with a sign."""
    gain = book.place(i, m[i]) - book.place(i, new[i])
    return gain, f" {i} {m[i]} {new[i]} {gain:+}\n"
