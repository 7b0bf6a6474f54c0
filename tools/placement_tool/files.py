"""The three CSV files of an officer, and what is wrong with them, told by file, line and name."""
import csv
import difflib
import functools
import io
import re
import unicodedata
from dataclasses import dataclass

LARGEST = 64  # people on a side of a book
HEAVIEST = 255
CONTROL = re.compile("[\x00-\x08\x0b\x0c\x0e-\x1f\x7f-\x84\x86-\x9f]")


class Mistakes(Exception):
    """What is wrong, a message for each mistake."""

    def __init__(self, messages):
        super().__init__("\n".join(messages))
        self.messages = messages


@dataclass(frozen=True)
class Person:
    """A line of the students' or of the mentors' file."""

    name: str
    line: int
    choices: tuple
    weight: str = ""


@dataclass(frozen=True)
class Side:
    """A file of students or of mentors: its kind is the one word or the other."""

    kind: str
    path: str
    people: tuple
    weighted: bool

    def by_name(self):
        """Each person under the name."""
        return {person.name: person for person in self.people}


def stop_at(messages):
    """Nothing, unless there are mistakes."""
    if messages:
        raise Mistakes(messages)


# Rows


def line_of(before):
    """The number of the line that follows this text or these bytes."""
    ends = (b"\r\n", b"\r", b"\n") if isinstance(before, bytes) else ("\r\n", "\r", "\n")
    return before.replace(ends[0], ends[2]).replace(ends[1], ends[2]).count(ends[2]) + 1


def read_text(path):
    """The text of a file, which has to be UTF-8; a byte order mark is passed over."""
    try:
        with open(path, "rb") as file:
            text = file.read().decode("utf-8-sig")
    except OSError as e:
        raise Mistakes([f"{path}: cannot be read: {e.strerror}"]) from e
    except UnicodeDecodeError as e:
        line = line_of(e.object[: e.start])
        raise Mistakes([f"{path}:{line}: not UTF-8 text (byte {e.object[e.start]:#x}); save it as CSV UTF-8"]) from e
    if found := CONTROL.search(text):
        line = line_of(text[: found.start()])
        raise Mistakes([f"{path}:{line}: a control character (number {ord(found.group())}) stands in the text"])
    return text


def clean(cell):
    """A cell as a name: one blank for any white space between words, none about them, accents in their one form."""
    return unicodedata.normalize("NFC", " ".join(cell.split()))


def read_rows(path):
    """The rows of a file, each with the line that it begins on. Empty cells at the end of a row are left out, and so
    are rows without any other."""
    text = read_text(path)
    if "," not in text and (found := re.search("[;\t]", text)):
        stop_at([f"{path}:{line_of(text[: found.start()])}: cells are parted by commas; the file has none"])
    reader = csv.reader(io.StringIO(text, newline=""), strict=True, skipinitialspace=True)
    rows, begins = [], 1
    try:
        for cells in reader:
            cells = [clean(cell) for cell in cells]
            while cells and not cells[-1]:
                cells.pop()
            if cells:
                rows.append((begins, cells))
            begins = reader.line_num + 1
    except csv.Error as e:
        raise Mistakes([f"{path}:{begins}: cannot be read as CSV: {e}; is a quotation mark missing?"]) from e
    stop_at([] if rows else [f"{path}:1: the file is empty"])
    return rows


# People


def without_header(path, kind, rows):
    """The rows after a header, if there is one, and whether the second column has weights. A header begins with the
    word name, or with the kind of the people."""
    line, cells = rows[0]
    words = [cell.casefold() for cell in cells]
    if words[0] not in ("name", kind):
        return rows, False
    if "weight" in words and kind == "mentor":
        stop_at([f"{path}:{line}: students have weights, mentors have none"])
    if "weight" in words[2:]:
        stop_at([f"{path}:{line}: the column 'weight' has to be the second"])
    stop_at([] if rows[1:] else [f"{path}:{line}: nobody stands below the header"])
    return rows[1:], "weight" in words


def read_side(path, kind):
    """The students, or the mentors, of a file."""
    rows, weighted = without_header(path, kind, read_rows(path))
    first = 2 if weighted else 1
    people = [Person(cells[0], line, tuple(cells[first:]), "".join(cells[1:first])) for line, cells in rows]
    side = Side(kind, path, tuple(people), weighted)
    stop_at([f"{path}:{person.line}: {text}" for person in people for text in row_mistakes(person, weighted)])
    stop_at(crowd_mistakes(side))
    return side


def row_mistakes(person, weighted):
    """What is wrong with the cells of a row alone."""
    if not person.name:
        yield "the first cell, the name, is empty"
        return
    weight = person.weight
    if weighted and not (re.fullmatch("[0-9]{1,3}", weight) and int(weight) <= HEAVIEST):
        yield f"the weight of '{person.name}' is '{weight}', not a whole number from 0 to {HEAVIEST}"
    for place, choice in enumerate(person.choices, 1):
        if not choice:
            yield f"choice {place} of '{person.name}' is empty and others follow it"


def crowd_mistakes(side):
    """Two people with one name, and more people than a book holds."""
    found, first = [], {}
    for person in side.people:
        if person.name in first:
            found.append(f"{side.path}:{person.line}: two {side.kind}s have the name '{person.name}'; the other stands "
                         f"on line {first[person.name]}")
        first.setdefault(person.name, person.line)
    if len(side.people) > LARGEST:
        person = side.people[LARGEST]
        found.append(f"{side.path}:{person.line}: '{person.name}' is {side.kind} {LARGEST + 1} of {len(side.people)}; "
                     f"there may be at most {LARGEST}")
    return found


# Choices


@functools.cache
def unknown(name, side):
    """That a file does not have a name, and the name in it that is most like it."""
    like = difflib.get_close_matches(name, [person.name for person in side.people], 1)
    return f"is not in {side.path}" + (f"; is it '{like[0]}'?" if like else "")


def choice_mistakes(side, other):
    """Names that the other file does not have, and names listed twice."""
    names = other.by_name()
    for person in side.people:
        where = f"{side.path}:{person.line}: '{person.name}' lists"
        for place, choice in enumerate(person.choices):
            if choice in person.choices[:place]:
                yield f"{where} '{choice}' twice"
            elif choice not in names:
                yield f"{where} '{choice}', who {unknown(choice, other)}"


def one_way_mistakes(side, other):
    """Choices that are not returned."""
    names = other.by_name()
    for person in side.people:
        for choice in person.choices:
            if person.name not in names[choice].choices:
                yield (f"{side.path}:{person.line}: '{person.name}' lists '{choice}', who does not list "
                       f"'{person.name}' ({other.path}:{names[choice].line})")


def read_sides(students_path, mentors_path):
    """The students and the mentors, with choices that are known, stand once and are returned."""
    students, mentors = read_side(students_path, "student"), read_side(mentors_path, "mentor")
    for mistakes in (choice_mistakes, one_way_mistakes):
        stop_at([*mistakes(students, mentors), *mistakes(mentors, students)])
    return students, mentors


# The placement


def read_placement(path, students, mentors):
    """The mentor of each student, None for a student without one, and the line where that stands."""
    rows = read_rows(path)
    if [cell.casefold() for cell in rows[0][1]] == ["student", "mentor"]:
        rows = rows[1:]
    placed, found = {}, []
    for line, cells in rows:
        texts = list(pair_mistakes(cells, placed, students, mentors))
        found += [f"{path}:{line}: {text}" for text in texts]
        if not texts:
            placed[cells[0]] = (cells[1] if len(cells) > 1 else None), line
    stop_at(found)
    missing = [person for person in students.people if person.name not in placed]
    stop_at([f"{students.path}:{person.line}: '{person.name}' has no line in {path}; a student without a mentor has "
             "one with an empty mentor" for person in missing])
    return placed


def pair_mistakes(cells, placed, students, mentors):
    """What is wrong with a row of the placement, after those that are placed."""
    if len(cells) > 2:
        yield f"{len(cells)} cells; a line is a student and a mentor"
        return
    student, mentor = (cells + [None])[:2]
    if not student:
        yield f"no student stands before '{mentor}'"
    elif student not in students.by_name():
        yield f"student '{student}' {unknown(student, students)}"
    elif student in placed:
        yield f"student '{student}' is placed on line {placed[student][1]} already"
    if mentor is None:
        return
    taken = {name: (other, line) for other, (name, line) in placed.items()}
    if mentor not in mentors.by_name():
        yield f"mentor '{mentor}' {unknown(mentor, mentors)}"
    elif mentor in taken:
        yield f"mentor '{mentor}' has '{taken[mentor][0]}' on line {taken[mentor][1]} already"
    elif student in students.by_name() and mentor not in students.by_name()[student].choices:
        yield f"'{student}' and '{mentor}' do not list each other"
