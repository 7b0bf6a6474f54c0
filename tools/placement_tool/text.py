"""The answers as text."""

MINUS = "\N{MINUS SIGN}"
SIDES = {"U": "better off", "D": "worse off"}


def count(number, word):
    """A number of things."""
    return f"{number} {word}" if number == 1 else f"{number} {word}s"


def places(gain):
    """Places gained, in words."""
    return f"{count(abs(gain), 'place')} {'up' if gain > 0 else 'down'}"


def moved(college, answer):
    """How many students a repair moves and, with weights, what they weigh."""
    weighed = "" if college.weights is None else f" of total weight {answer.value}"
    return count(len(answer.moves), "student") + weighed


def move_lines(college, answer):
    """A line for each student moved."""
    for move in answer.moves:
        who, old, new = college.students[move.student], college.mentor(move.old), college.mentor(move.new)
        yield f"  {who}: from {old} to {new}, {places(move.gain)}"


def unstable(college, student, mentor):
    """Who would both rather have each other."""
    his = college.mentor(college.matching[student]) or "nobody"
    hers = college.student_of(mentor) or "nobody"
    return (f"{college.students[student]} (now with {his}) and {college.mentors[mentor]} (now with {hers}) "
            "would both rather have each other")


# A repair


def repair(college, pairs, answer):
    """The answer to a request of one pair, or of two, by numbers."""
    named = [f"{college.students[student]} and {college.mentors[mentor]}" for student, mentor in pairs]
    if len(set(pairs)) == 1:
        return one_pair(college, named[0], answer)
    both = f"{named[0]}, and {named[1]}"
    if answer.letters == "F":
        return [f"{both}: every stable placement holds at least one of the two pairs."]
    ends = [f"{college.students[pair[0]]} ends {SIDES[letter]}" for pair, letter in zip(pairs, answer.letters)]
    head = f"{both}, part by a repair that moves {moved(college, answer)}; {' and '.join(ends)}:"
    return [head, *move_lines(college, answer)]


def one_pair(college, named, answer):
    """The answer to a request of one pair."""
    if answer.letters == "F":
        return [f"{named}: the pair is fixed; no stable placement parts them."]
    side = f"every student who moves is {SIDES[answer.letters]}"
    return [f"{named} part by a repair that moves {moved(college, answer)}; {side}:", *move_lines(college, answer)]


# The sheet


def pairs_of(college, sheet):
    """Each student's number and answer, of those with a mentor, and the numbers of those without."""
    answers = list(enumerate(sheet.answers[: len(college.students)]))
    pairs = [(student, answer) for student, answer in answers if answer.letters != "N"]
    return pairs, [student for student, answer in answers if answer.letters == "N"]


def grade(college, sheet):
    """The grade, in words."""
    if sheet.grade is None:
        return "No stable placement parts any of the pairs." if sheet.fixed else "There is no pair to part."
    others = f"at most {count(sheet.grade, 'other student')}"
    if college.weights is not None:
        others = f"other students who weigh at most {sheet.grade} in total"
    return f"Whichever pair that is not fixed must part, some repair moves {others}."


def sheet_lines(college, sheet):
    """The sheet: two lines on all of it, then a block for each pair, then the students without a mentor."""
    pairs, alone = pairs_of(college, sheet)
    people = f"{count(len(college.students), 'student')}, {count(len(college.mentors), 'mentor')}"
    without = f"{count(len(alone), 'student')} without a mentor"
    yield f"{people}; {count(len(pairs), 'pair')}, {sheet.fixed} of them fixed; {without}."
    yield grade(college, sheet)
    for student, answer in pairs:
        yield ""
        named = f"{college.students[student]} and {college.mentor(college.matching[student])}"
        yield from one_pair(college, named, answer)
    if alone:
        yield ""
    for student in alone:
        yield f"{college.students[student]}: no mentor, so no pair to part."
