#!/usr/bin/env python3
"""Turns ranked lists as text into a book (documents 01 and 02), on standard output.

    tools/book.py [--edition 2] [--matching "0 1 2 3 - -"] [--weights "1 1 9 1 1 3"] [FILE] > BOOK

FILE, or standard input, has one list a line, best first: n lines of students' lists and then n of mentors' lists,
numbers separated by blanks. A line with nothing but - is a list without entries. Blank lines are passed over, and so is
what follows a #.

The book is of edition 1 where every list names all n of the other side, and else of edition 2, in which a list has 0 to
n entries and whoever stands on one has to list its owner in turn. --edition says which it has to be: 2 makes a book of
edition 2 of complete lists too, and with 1 a list that is not complete is a mistake.

--matching appends a matching, the mentor of each student or - for a student without one (edition 2), as the sheet
program takes it; --weights appends the weight of each student after it, as the weighted sheet program does. Neither is
checked here. A mistake in the lists is told by its line.
"""
import argparse
import sys

# The byte of a student without a mentor
NOBODY = 255


def fail(message):
    sys.exit(f"book.py: {message}")


def numbers(where, words):
    for word in words:
        if not (word.isascii() and word.isdigit() and int(word) < 256):
            fail(f"{where}: '{word}' is not a number from 0 to 255")
    return [int(word) for word in words]


def read_lists(name, lines):
    """The lists, each with the line that it stands on."""
    texts = [(f"{name}, line {i}", line.split("#")[0].split()) for i, line in enumerate(lines, 1)]
    return [(where, [] if words == ["-"] else numbers(where, words)) for where, words in texts if words]


def read_matching(text):
    """The mentor of each student, - for none."""
    return [mentor for word in text.split() for mentor in ([NOBODY] if word == "-" else numbers("--matching", [word]))]


def check_entries(n, where, entries):
    """Each entry is one of the other side and stands once."""
    for j, entry in enumerate(entries):
        if entry >= n:
            fail(f"{where}: entry {entry} at place {j}; the other side is numbered 0 to {n - 1}")
        if entry in entries[:j]:
            fail(f"{where}: entry {entry} at place {j} stands earlier in the list")


def check_returned(lists, n):
    """Whoever stands on a list lists its owner."""
    for k, (where, entries) in enumerate(lists):
        own, other = ("student", "mentor") if k < n else ("mentor", "student")
        for entry in entries:
            line, back = lists[entry + n if k < n else entry]
            if k % n not in back:
                fail(f"{where}: {own} {k % n} lists {other} {entry}, who does not list {own} {k % n} ({line})")


def check(name, lists, edition):
    """n and the edition, where the lists make a book."""
    if len(lists) % 2:
        fail(f"{name}: {len(lists)} lists; there are as many mentors as students, so it has to be an even number")
    n = len(lists) // 2
    if n > 64:
        fail(f"{name}: {n} students; a book holds at most 64")
    short = [(where, entries) for where, entries in lists if len(entries) < n]
    if edition == 1 and short:
        where, entries = short[0]
        fail(f"{where}: {len(entries)} entries; in edition 1 with {len(lists)} lists each has {n}")
    for where, entries in lists:
        check_entries(n, where, entries)
    check_returned(lists, n)
    return n, edition or (2 if short else 1)


def book(n, edition, lists):
    out, start = [edition, n], 2 + 8 * n
    for _, entries in lists:
        out += [start % 256, start // 256, len(entries) % 256, len(entries) // 256]
        start += len(entries)
    return bytes(out) + b"".join(bytes(entries) for _, entries in lists)


def main():
    args = argparse.ArgumentParser(description=__doc__, formatter_class=argparse.RawDescriptionHelpFormatter)
    args.add_argument("file", nargs="?", metavar="FILE")
    args.add_argument("--edition", type=int, choices=[1, 2])
    args.add_argument("--matching", default="", metavar="NUMBERS")
    args.add_argument("--weights", default="", metavar="NUMBERS")
    args = args.parse_args()
    name = args.file or "standard input"
    try:
        lines = (open(args.file, encoding="utf-8") if args.file else sys.stdin).read().splitlines()
    except (OSError, UnicodeDecodeError) as e:
        fail(f"{name}: {e}")
    lists = read_lists(name, lines)
    matching = read_matching(args.matching)
    weights = numbers("--weights", args.weights.split())
    n, edition = check(name, lists, args.edition)
    sys.stdout.buffer.write(book(n, edition, lists) + bytes(matching) + bytes(weights))


if __name__ == "__main__":
    main()
