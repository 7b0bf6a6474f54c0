"""The sheet as a CSV file: a row for each student to telephone."""
import csv
import io

WORDS = {"U": "up", "D": "down", "F": "fixed", "N": "none"}


def cell(name):
    """A name as a cell. Spreadsheets take what begins with = + - or @ for a formula; an apostrophe before it says that
    it is text."""
    return "'" + name if name[:1] in ("=", "+", "-", "@") else name


def rows(college, sheet):
    """The rows below the header: for each pair a row for each student moved, or one with empty cells."""
    for student, answer in enumerate(sheet.answers[: len(college.students)]):
        weight = [] if college.weights is None else [answer.value]
        pair = cell(college.students[student]), cell(college.mentor(college.matching[student]))
        head = [*pair, WORDS[answer.letters], len(answer.moves), *weight]
        for move in answer.moves:
            names = college.students[move.student], college.mentor(move.old), college.mentor(move.new)
            yield [*head, *map(cell, names), f"{move.gain:+d}"]
        if not answer.moves:
            yield [*head, "", "", "", ""]


def table(college, sheet):
    """The file, with a byte order mark, by which spreadsheets know UTF-8."""
    weight = [] if college.weights is None else ["total weight"]
    out = io.StringIO()
    writer = csv.writer(out, lineterminator="\n")
    writer.writerow(["student", "mentor", "answer", "moved", *weight, "who", "from", "to", "places gained"])
    writer.writerows(rows(college, sheet))
    return "\N{ZERO WIDTH NO-BREAK SPACE}" + out.getvalue()
