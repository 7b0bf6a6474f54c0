"""What the tests of tools/placement share: running it, the college of examples/, files, and what a sheet says."""
import csv
import io
import os
import pathlib
import subprocess

ROOT = pathlib.Path(__file__).resolve().parent.parent.parent
PROGRAMS = pathlib.Path(os.environ.get("PLACEMENT_PROGRAMS") or ROOT / "target" / "bin")
COLLEGE = ROOT / "examples" / "college"
EXPECTED = ROOT / "tests" / "placement_tool" / "expected"
FILES = "students.csv", "mentors.csv", "placement.csv"
NOBODY = 255


def run(*arguments, folder=COLLEGE, programs=PROGRAMS):
    """The exit status, the output and the messages of the tool, started in a folder."""
    done = subprocess.run(
        [ROOT / "tools" / "placement", *arguments],
        cwd=folder, env={**os.environ, "PLACEMENT_PROGRAMS": str(programs)}, capture_output=True, check=False,
    )
    return done.returncode, done.stdout.decode(), done.stderr.decode()


def program(name, given):
    """What a proved program prints, as lines."""
    done = subprocess.run([PROGRAMS / name], input=given, capture_output=True, check=True)
    return done.stdout.decode("ascii").splitlines()


def csv_rows(text):
    """The rows of a CSV text; a byte order mark is left out."""
    return list(csv.reader(io.StringIO(text.removeprefix("\ufeff"))))


def as_csv(rows):
    """Rows as a CSV text."""
    out = io.StringIO()
    csv.writer(out, lineterminator="\n").writerows(rows)
    return out.getvalue()


def college_lists(students="students.csv"):
    """The college of examples/: the names of both sides, their lists as numbers, the matching, and the weights if
    there are any."""
    rows = csv_rows((COLLEGE / students).read_text(encoding="utf-8"))
    first = 2 if rows[0][1] == "weight" else 1
    sides = [[(row[0], row[first:]) for row in rows[1:]],
             [(row[0], row[1:]) for row in csv_rows((COLLEGE / "mentors.csv").read_text(encoding="utf-8"))[1:]]]
    names = [[name for name, _ in side] for side in sides]
    lists = [[[names[1 - k].index(choice) for choice in row] for _, row in side] for k, side in enumerate(sides)]
    placed = dict(csv_rows((COLLEGE / "placement.csv").read_text(encoding="utf-8"))[1:])
    matching = tuple(names[1].index(placed[name]) if placed[name] else NOBODY for name in names[0])
    return names, lists, matching, [int(row[1]) for row in rows[1:]] if first == 2 else None


def blocks(text, weighted=False):
    """A table that the tool has written: for each student the mentor, the answer, the number moved, the total weight
    where there are weights, and the rows of who, from, to and places gained."""
    head, *rows = csv_rows(text)
    width = 5 if weighted else 4
    assert head == ["student", "mentor", "answer", "moved", *["total weight"][: width - 4], "who", "from", "to",
                    "places gained"]
    found = {}
    for row in rows:
        block = found.setdefault(row[0], (row[1:width], []))
        assert block[0] == row[1:width]
        if row[width:] != ["", "", "", ""]:
            block[1].append(row[width:])
    return found
