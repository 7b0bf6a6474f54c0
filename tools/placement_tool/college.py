"""Names as numbers: the students and mentors of the files as a book, a matching and weights, and back."""
from dataclasses import dataclass

from book import NOBODY, book, check
from placement_tool.files import read_placement, read_sides


@dataclass(frozen=True)
class College:
    """People by number, in the order of their files, and what the programs take. Where a side has fewer people, the
    book has people without a name and without choices after them; weights are None where the file has none."""

    students: tuple
    mentors: tuple
    book: bytes
    matching: bytes
    weights: bytes | None

    def mentor(self, number):
        """The name of a mentor; empty for nobody."""
        return "" if number == NOBODY else self.mentors[number]

    def student_of(self, mentor):
        """The name of a mentor's student; empty for nobody."""
        return self.students[self.matching.index(mentor)] if mentor in self.matching else ""


def padded(entries, size, filler):
    """Entries, and as many fillers as make up the size."""
    return list(entries) + [filler] * (size - len(entries))


def numbered(side, other):
    """The lists of a side as numbers, each with its place in the file, as tools/book.py takes them."""
    numbers = {person.name: number for number, person in enumerate(other.people)}
    return [(f"{side.path}:{person.line}", [numbers[choice] for choice in person.choices]) for person in side.people]


def read_college(students_path, mentors_path, placement_path):
    """The college of three files."""
    students, mentors = read_sides(students_path, mentors_path)
    placed = read_placement(placement_path, students, mentors)
    n = max(len(students.people), len(mentors.people))
    sides = numbered(students, mentors), numbered(mentors, students)
    lists = [entry for side in sides for entry in padded(side, n, ("nobody", []))]
    numbers = {person.name: number for number, person in enumerate(mentors.people)}
    matching = padded([numbers.get(placed[person.name][0], NOBODY) for person in students.people], n, NOBODY)
    weights = padded([int(person.weight or 0) for person in students.people], n, 0)
    # In edition 1 nobody may be without a mentor; both editions of full lists get the same answers.
    _, edition = check("the files", lists, 2 if NOBODY in matching else None)
    return College(
        tuple(person.name for person in students.people),
        tuple(person.name for person in mentors.people),
        book(n, edition, lists),
        bytes(matching),
        bytes(weights) if students.weighted else None,
    )
