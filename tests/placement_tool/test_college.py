"""The college of examples/: what the tool prints and writes, byte for byte, and the same by the definitions."""
import re
import tempfile
import unittest
from pathlib import Path

from tool import COLLEGE, EXPECTED, FILES, NOBODY, blocks, college_lists, run
from answers import College

WEIGHTED = "weighted-students.csv", *FILES[1:]
WORDS = {"U": "up", "D": "down", "F": "fixed", "N": "none"}
BEN = "Ben Hartley", "Mr Ibrahim (Millfield)"
CHIARA = "Chiara Conti", "Mr Quispe (Riverside)"
DANIEL = "Daniel Osei", "Ms Jóhannsdóttir (Riverside)"
ELIF = "Elif Kaya", "Mr Dube (Northgate)"
GRACE = "Grace Whitfield", "Mr Kowalski (St Anne's)"
# What is stored: the folder, the name of the file without its ending, the arguments. A sheet is stored as text, page
# and table.
STORED = [
    (COLLEGE, "sheet", ["sheet", *FILES]),
    (EXPECTED, "weighted-sheet", ["sheet", *WEIGHTED]),
    (EXPECTED, "check", ["check", *FILES]),
    (EXPECTED, "repair-one", ["repair", *ELIF, *FILES]),
    (EXPECTED, "repair-fixed", ["repair", *DANIEL, *FILES]),
    (EXPECTED, "repair-two", ["repair", *CHIARA, *GRACE, *FILES]),
    (EXPECTED, "repair-two-fixed", ["repair", *CHIARA, *ELIF, *FILES]),
    (EXPECTED, "repair-twice", ["repair", *BEN, *BEN, *FILES]),
    (EXPECTED, "repair-weighted", ["repair", *BEN, *WEIGHTED]),
    (EXPECTED, "repair-two-weighted", ["repair", *CHIARA, *GRACE, *WEIGHTED]),
]


def outputs(folder, name, arguments):
    """The stored files of a run, each with the bytes that the tool gives now."""
    with tempfile.TemporaryDirectory() as target:
        made = {"html": Path(target, "page"), "csv": Path(target, "table")} if arguments[0] == "sheet" else {}
        options = [word for ending, path in made.items() for word in (f"--{ending}", str(path))]
        status, out, err = run(*arguments, *options)
        assert (status, err) == (0, ""), (arguments, status, err)
        texts = {"txt": out.encode(), **{ending: path.read_bytes() for ending, path in made.items()}}
    return {folder / f"{name}.{ending}": text for ending, text in texts.items()}


def store():
    """Writes the stored files."""
    for stored in STORED:
        for path, text in outputs(*stored).items():
            path.write_bytes(text)


class Stored(unittest.TestCase):
    """The tool against its stored output."""

    def test_stored(self):
        for stored in STORED:
            for path, text in outputs(*stored).items():
                with self.subTest(path.name):
                    self.assertEqual(text.decode(), path.read_bytes().decode())


class Definitions(unittest.TestCase):
    """What is stored of sheets, and repairs, against the answers found among all stable matchings."""

    def setUp(self):
        self.names, self.lists, self.matching, _ = college_lists()
        self.weights = college_lists(WEIGHTED[0])[3]
        self.college = College(*self.lists)

    def moved(self, new):
        """Who moves in a matching: names, and places gained with their sign."""
        if new is None:
            return []
        students, mentors = self.names
        return [[students[s], mentors[self.matching[s]], mentors[new[s]], f"{gain:+d}"]
                for s, gain in enumerate(self.college.gains(self.matching, new)) if new[s] != self.matching[s]]

    def test_college(self):
        """It shows what it is there for: ten stable matchings, each answer, repairs of 2 to 5 students."""
        self.assertEqual(len(self.college.all_stable), 10)
        found = blocks((COLLEGE / "sheet.csv").read_text(encoding="utf-8"))
        self.assertEqual({head[1] for head, _ in found.values()}, {"up", "down", "fixed", "none"})
        self.assertEqual({head[2] for head, _ in found.values()}, {"0", "2", "3", "4", "5"})
        letters = [[self.college.repair(self.matching, s, w)[0] for s in range(12)] for w in ([1] * 12, self.weights)]
        self.assertNotEqual(*letters)

    def test_sheets(self):
        for path, weights in [(COLLEGE / "sheet.csv", None), (EXPECTED / "weighted-sheet.csv", self.weights)]:
            found = blocks(path.read_text(encoding="utf-8"), weights is not None)
            self.assertEqual(list(found), self.names[0])
            for s, name in enumerate(self.names[0]):
                letter, total, new = self.college.repair(self.matching, s, weights or [1] * 12)
                mentor = "" if self.matching[s] == NOBODY else self.names[1][self.matching[s]]
                head = [mentor, WORDS[letter], str(len(self.moved(new))), *([str(total)] if weights else [])]
                self.assertEqual(found[name], (head, self.moved(new)), name)

    def test_texts(self):
        """The blocks of the sheets as text: a block for each pair, and one of the students without a mentor."""
        for path, weights in [(COLLEGE / "sheet.txt", None), (EXPECTED / "weighted-sheet.txt", self.weights)]:
            _, *found, alone = path.read_text(encoding="utf-8").rstrip("\n").split("\n\n")
            pairs = [s for s in range(12) if self.matching[s] != NOBODY]
            self.assertEqual(len(found), len(pairs))
            for s, block in zip(pairs, found):
                letter, total, new = self.college.repair(self.matching, s, weights or [1] * 12)
                self.assertTrue(block.startswith(f"{self.names[0][s]} and {self.names[1][self.matching[s]]}"))
                self.compare(block, letter, None if weights is None else total, new)
            self.assertEqual(alone, "Leïla Haddad: no mentor, so no pair to part.")

    def test_first_lines(self):
        grades = [self.college.grade(self.matching, weights) for weights in ([1] * 12, self.weights)]
        texts = [(COLLEGE / "sheet.txt"), EXPECTED / "weighted-sheet.txt"]
        words = f"moves at most {grades[0]} other students.", f"who weigh at most {grades[1]} in total."
        for path, end in zip(texts, words):
            first, second = path.read_text(encoding="utf-8").splitlines()[:2]
            self.assertEqual(first, "12 students, 12 mentors; 11 pairs, "
                             f"{self.college.fixed(self.matching)} of them fixed; 1 student without a mentor.")
            self.assertTrue(second.endswith(end), second)

    def test_repairs(self):
        """Each pair with itself, and with some of the others, plain and with weights."""
        pairs = [s for s in range(12) if self.matching[s] != NOBODY]
        asked = [(s, t) for k, s in enumerate(pairs) for t in {s, pairs[k - 3], pairs[k - 4]}]
        sorts = set()
        for s, t in asked:
            for files, weights in [(FILES, [1] * 12), (WEIGHTED, self.weights)]:
                letters, total, new = self.college.repair_both(self.matching, s, t, weights)
                words = [name for i in (s, t) for name in (self.names[0][i], self.names[1][self.matching[i]])]
                status, out, err = run("repair", *words[: 2 if s == t else 4], *files)
                self.assertEqual((status, err), (0, ""))
                self.compare(out, letters, total if files is WEIGHTED else None, new)
                sorts.add(letters)
        self.assertEqual(sorts, {"U", "D", "F", "UU", "UD", "DU", "DD"})

    def compare(self, out, letters, total, new):
        """The lines of a repair with what is due."""
        head, *lines = out.splitlines()
        ends = {"U": "better off", "D": "worse off"}
        fixed = head.endswith((": the pair is fixed; no stable placement parts them.",
                               ": every stable placement holds at least one of the two pairs."))
        self.assertEqual(fixed, letters == "F")
        self.assertEqual(re.findall("better off|worse off", head), [ends[c] for c in letters.replace("F", "")])
        if letters != "F":
            weight = "" if total is None else f" of total weight {total}"
            self.assertIn(f"moves {len(lines)} students{weight};", head)
        words = [(who, old, new, gain, "" if abs(int(gain)) == 1 else "s", "up" if int(gain) > 0 else "down")
                 for who, old, new, gain in self.moved(new)]
        self.assertEqual(lines, [f"  {who}: from {old} to {new}, {abs(int(gain))} place{s} {way}"
                                 for who, old, new, gain, s, way in words])
