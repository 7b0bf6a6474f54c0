"""Placements by name, for officers who have names and not numbers.

    placement check STUDENTS MENTORS PLACEMENT
    placement sheet STUDENTS MENTORS PLACEMENT [--html FILE] [--csv FILE]
    placement repair STUDENT MENTOR [STUDENT MENTOR] STUDENTS MENTORS PLACEMENT

check says whether a placement is stable, or who would both rather have each other. sheet prints, for every pair, whom
to move if that pair may not stay, and writes it as a page for screen and paper and as a table. repair prints it for one
pair, or for two at one go.

The three files are CSV in UTF-8, cells parted by commas. A line of STUDENTS is a name and then the mentors whom the
student can have, best first; a line of MENTORS is a name and the students, likewise. Whoever stands on a list lists its
owner in turn. A line of PLACEMENT is a student and a mentor; a student without a mentor has a line with an empty
mentor, and mentors who are alone need none. Empty cells at the end of a line and empty lines are passed over, and
blanks about a name do not count. There are at most 64 students and 64 mentors; one side may have more than the other.

A first line that begins with `name` is a header, and so is `student,mentor` in PLACEMENT. Where STUDENTS begins with
`name,weight`, the second cell of each line is the student's weight, a whole number from 0 to 255, and of two repairs
that is taken whose students weigh less in total.

The answers are those of the proved programs in target/bin, or in the folder that PLACEMENT_PROGRAMS names. Nothing is
decided here.

Exit status: 0 done; 1 the placement is not stable; 2 a mistake in the files or in the arguments, told by file, line and
name, and nothing is written; 3 a program is missing or fails.
"""
import argparse
import os
import sys

from placement_tool import files, output, page, programs, table, text
from placement_tool.college import read_college

MOST_TOLD = 20  # mistakes


def main():
    """Runs the command and gives the exit status."""
    sys.stdout.reconfigure(encoding="utf-8", errors="replace")
    sys.stderr.reconfigure(encoding="utf-8", errors="replace")
    args = arguments()
    try:
        status = args.run(args)
        sys.stdout.flush()
        return status
    except BrokenPipeError:
        # Whoever reads the output has read enough.
        os.dup2(os.open(os.devnull, os.O_WRONLY), sys.stdout.fileno())
        return 0
    except files.Mistakes as e:
        tell(e.messages)
        return 2
    except programs.Failed as e:
        tell([f"placement: {e}"])
        return 3


def tell(messages):
    """Prints messages to standard error; of very many the first."""
    for message in messages[:MOST_TOLD]:
        print(message, file=sys.stderr)
    if len(messages) > MOST_TOLD:
        print(f"placement: and {len(messages) - MOST_TOLD} more mistakes", file=sys.stderr)


def arguments():
    """The arguments, each command with the function that runs it."""
    parser = argparse.ArgumentParser(
        prog="placement", description=__doc__, formatter_class=argparse.RawDescriptionHelpFormatter
    )
    commands = parser.add_subparsers(required=True, metavar="COMMAND")
    for name, run, about in [("check", check, "is the placement stable"), ("sheet", sheet, "whom to move, by pair")]:
        command = commands.add_parser(name, help=about, allow_abbrev=False)
        for path in ("STUDENTS", "MENTORS", "PLACEMENT"):
            command.add_argument("files", action="append", metavar=path)
        command.set_defaults(run=run)
    command.add_argument("--html", metavar="FILE", help="write the sheet as a page too")
    command.add_argument("--csv", metavar="FILE", help="write the sheet as a table too")
    command = commands.add_parser("repair", help="whom to move for one pair or two")
    command.usage = "placement repair STUDENT MENTOR [STUDENT MENTOR] STUDENTS MENTORS PLACEMENT"
    command.add_argument("words", nargs="+", metavar="NAME OR FILE", help="two names or four, then the three files")
    command.set_defaults(run=repair, parser=command)
    return parser.parse_args()


def refusal(college, placement, e):
    """What a refusal of the programs means; only that of an unstable placement can come from files without mistakes."""
    if e.number != programs.UNSTABLE:
        raise programs.Failed(f"the programs refuse {placement} by rule {e.number} of include/placement.h") from e
    return text.unstable(college, e.place, e.second)


def check(args):
    """Says whether the placement is stable."""
    college = read_college(*args.files)
    try:
        programs.check(college)
    except programs.Refused as e:
        print(f"not stable: {refusal(college, args.files[2], e)}")
        return 1
    print("stable")
    return 0


def sheet(args):
    """Prints the sheet, and writes the page and the table."""
    targets = [path for path in (args.html, args.csv) if path is not None]
    output.check_targets(targets, args.files)
    college = read_college(*args.files)
    try:
        programs.check(college)
        found = programs.sheet(college)
    except programs.Refused as e:
        return not_stable(college, args.files[2], e)
    made = {args.html: page.page(college, found), args.csv: table.table(college, found)}
    output.write_all({path: made[path] for path in targets})
    print("\n".join(text.sheet_lines(college, found)))
    return 0


def repair(args):
    """Prints the repair of one pair, or of two."""
    names, paths = args.words[:-3], args.words[-3:]
    if len(names) not in (2, 4):
        args.parser.error("two names or four, and then the three files")
    college = read_college(*paths)
    pairs = numbers_of(college, paths, [files.clean(name) for name in names])
    try:
        programs.check(college)
        answer = programs.repairs(college, [bytes(number for pair in pairs for number in pair)])[0]
    except programs.Refused as e:
        return apart(college, paths, pairs) if e.number == programs.APART else not_stable(college, paths[2], e)
    print("\n".join(text.repair(college, pairs, answer)))
    return 0


def not_stable(college, placement, e):
    """Tells why there is no answer."""
    tell([f"{placement}: not stable: {refusal(college, placement, e)}"])
    return 1


def apart(college, paths, pairs):
    """Tells which two are not together."""
    found = [pair for pair in pairs if college.matching[pair[0]] != pair[1]]
    tell([f"{paths[2]}: '{college.students[student]}' is not with '{college.mentors[mentor]}' but with "
          f"{college.mentor(college.matching[student]) or 'nobody'}" for student, mentor in found])
    return 2


def numbers_of(college, paths, names):
    """The numbers of names that are asked for, as pairs of student and mentor."""
    found, messages = [], []
    for k, name in enumerate(names):
        side = (college.students, college.mentors)[k % 2]
        if name in side:
            found.append(side.index(name))
        else:
            messages.append(f"{paths[k % 2]}: no {('student', 'mentor')[k % 2]} has the name '{name}'")
    files.stop_at(messages)
    return list(zip(found[::2], found[1::2]))
