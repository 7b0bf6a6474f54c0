#!/usr/bin/env python3
"""Writes the stored input and expected output of crates/cases.

    tests/make_cases.py            writes crates/cases/stdin and stdout
    tests/make_cases.py --check    says whether they are what it would write

A case is a byte for the call, by its order in tests/cases/form.py; then eight numbers of two bytes, low byte first: two
that the call may take, the room of the result buffer and of the buffer of the places gained, the lengths of four parts;
then the parts. Its line is the reply and the two buffers after the call, parted by colons.

The cases stand in tests/cases, a module for each group of calls. The expected replies and buffers are literals from
documents 01, 02 and 000 or worked out there in Python; no code of the library is used.
"""
import pathlib
import sys

sys.dont_write_bytecode = True
from cases import book_calls, matching_calls, repair_calls, rotation_calls, sheet_calls
from cases import weighted_calls, weighted_sheet_calls
from cases import short_book_calls, short_lists, short_matching_calls, short_sheet_calls
from cases import mentor_calls, moves_calls, pair_calls

CASES = [
    *book_calls.CASES,
    *matching_calls.CASES,
    *repair_calls.CASES,
    *rotation_calls.CASES,
    *sheet_calls.CASES,
    *weighted_calls.CASES,
    *weighted_sheet_calls.CASES,
    *short_book_calls.CASES,
    *short_matching_calls.CASES,
    *short_sheet_calls.CASES,
    *short_lists.CASES,
    *mentor_calls.CASES,
    *pair_calls.CASES,
    *moves_calls.CASES,
]
# What the program takes
LARGEST = 655360


def main():
    stdin = b"".join(given for given, _ in CASES)
    stdout = "".join(line + "\n" for _, line in CASES)
    if len({given for given, _ in CASES}) < len(CASES):
        sys.exit("a case stands twice")
    if len(stdin) > LARGEST:
        sys.exit(f"{len(stdin)} bytes of input: the program takes {LARGEST}")
    folder = pathlib.Path(__file__).resolve().parent.parent / "crates" / "cases"
    files = {folder / "stdin": stdin, folder / "stdout": stdout.encode()}
    if sys.argv[1:] == ["--check"]:
        bad = [str(path) for path, text in files.items() if path.read_bytes() != text]
        sys.exit(f"not as written by this script: {', '.join(bad)}" if bad else 0)
    for path, text in files.items():
        path.write_bytes(text)
    print(f"{len(CASES)} cases, {len(stdin)} bytes of input")


if __name__ == "__main__":
    main()
