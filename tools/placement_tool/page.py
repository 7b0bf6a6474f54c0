"""The sheet as one HTML page, which needs no other file, reads without scripts and prints on A4."""
import html
import pathlib

from placement_tool.text import MINUS, count, grade, pairs_of

FOLDER = pathlib.Path(__file__).resolve().parent
WORDS = {"U": ("up", "Up", "each is better off"), "D": ("down", "Down", "each is worse off")}
LONG = 12  # rows; a longer table may go on on the next sheet of paper
LEGEND = [
    ('<span class="tag up">Up</span>', "each student who moves gets a mentor higher on their own list"),
    ('<span class="tag down">Down</span>', "each student who moves gets a mentor lower on their own list"),
    ('<span class="tag fixed">Fixed</span>', "no stable placement parts the pair"),
    ("<b>Places gained</b>", f"how far up (+) or down ({MINUS}) the student's own list the new mentor stands"),
]


def name(text):
    """A name. It is set apart from the direction of the text about it."""
    return f"<bdi>{html.escape(text)}</bdi>"


def row(college, move):
    """A row of the students to telephone."""
    names = college.students[move.student], college.mentor(move.old), college.mentor(move.new)
    who, old, new = map(name, names)
    side, gain = ("up", f"+{move.gain}") if move.gain > 0 else ("down", f"{MINUS}{-move.gain}")
    return f'<tr><th scope="row">{who}</th><td>{old}</td><td>{new}</td><td class="gain {side}">{gain}</td></tr>'


def repaired(college, answer):
    """What is said of a pair that can part: the tag, the words beside it, and the table."""
    side, tag, words = WORDS[answer.letters]
    weight = "" if college.weights is None else f", total weight {answer.value}"
    moved = f"{count(len(answer.moves), 'student')} to move{weight}; {words}"
    return side, tag, moved, [
        "<table>",
        '<thead><tr><th scope="col" class="who">Who</th><th scope="col">From</th><th scope="col">To</th>'
        '<th scope="col" class="gain">Places gained</th></tr></thead>',
        "<tbody>",
        *[row(college, move) for move in answer.moves],
        "</tbody>",
        "</table>",
    ]


def section(college, student, answer):
    """The part of the page on one pair."""
    if answer.letters == "F":
        side, tag, moved = "fixed", "Fixed", "nobody to move"
        body = ['<p class="words">No stable placement parts these two.</p>']
    else:
        side, tag, moved, body = repaired(college, answer)
    mentor = college.mentor(college.matching[student])
    kind = "pair long" if len(answer.moves) > LONG else "pair"
    return [
        f'<section class="{kind}">',
        f'<div class="head"><h2>{name(college.students[student])} <span class="with">with</span> {name(mentor)}</h2>',
        f'<p class="answer"><span class="tag {side}">{tag}</span> {moved}</p></div>',
        *body,
        "</section>",
    ]


def lonely(college, student):
    """The part of the page on a student without a mentor."""
    return [
        '<section class="pair">',
        f'<div class="head"><h2>{name(college.students[student])}</h2>',
        '<p class="answer"><span class="tag fixed">No mentor</span> nobody to move</p></div>',
        '<p class="words">Without a mentor in this placement, so there is no pair to part.</p>',
        "</section>",
    ]


def figures(college, sheet):
    """The numbers of the whole sheet."""
    pairs, alone = pairs_of(college, sheet)
    most = "Most others moved" if college.weights is None else "Most weight of others moved"
    shown = [("Students", len(college.students)), ("Mentors", len(college.mentors)), ("Pairs", len(pairs)),
             ("Fixed pairs", sheet.fixed), ("Without a mentor", len(alone)),
             (most, "none" if sheet.grade is None else sheet.grade)]
    return [f"<div><dt>{words}</dt><dd>{number}</dd></div>" for words, number in shown]


def introduction(college, sheet):
    """What the page says, and what its words mean."""
    least = "moves fewer students" if college.weights is None else "moves students of less total weight"
    return [
        "<p>For each pair of this placement: whom to telephone if the two may not stay together. The students named "
        "under a pair move, all others stay, and the new placement is stable. No stable placement without the pair "
        f"{least}, and nobody is moved in vain. {grade(college, sheet)}</p>",
        '<ul class="legend">',
        *[f"<li>{word}<span>{meaning}</span></li>" for word, meaning in LEGEND],
        "</ul>",
    ]


def page(college, sheet):
    """The page."""
    pairs, alone = pairs_of(college, sheet)
    style, script = ((FOLDER / file).read_text(encoding="utf-8") for file in ("page.css", "page.js"))
    return "\n".join([
        "<!DOCTYPE html>",
        '<html lang="en">',
        "<head>",
        '<meta charset="utf-8">',
        '<meta name="viewport" content="width=device-width, initial-scale=1">',
        "<title>Whom to move if a pair must part</title>",
        f"<style>\n{style}</style>",
        "</head>",
        "<body>",
        "<header>",
        "<h1>Whom to move if a pair must part</h1>",
        '<dl class="figures">',
        *figures(college, sheet),
        "</dl>",
        *introduction(college, sheet),
        "</header>",
        '<form id="filter" role="search" hidden><label for="word">Filter by name</label> '
        '<input id="word" type="search" autocomplete="off" spellcheck="false"></form>',
        '<p id="shown" role="status" hidden></p>',
        "<main>",
        *[line for student, answer in pairs for line in section(college, student, answer)],
        *[line for student in alone for line in lonely(college, student)],
        "</main>",
        f"<script>\n{script}</script>",
        "</body>",
        "</html>",
        "",
    ])
