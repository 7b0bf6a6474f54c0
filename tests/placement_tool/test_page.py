"""The page: every pair and every student to telephone stands on it, in its text and in a browser."""
import random
import re
import tempfile
import unicodedata
import unittest
from pathlib import Path
from urllib.parse import quote

from drawn import Lists, draw_lists, draw_matching, draw_names, files
from pages import CHROMIUM, Reader, chromium, shown
from tool import COLLEGE, EXPECTED, FILES, blocks, run

TAGS = {"up": "Up", "down": "Down", "fixed": "Fixed", "none": "No mentor"}
SAYS = {"up": "each is better off", "down": "each is worse off", "fixed": "No stable placement parts these two.",
        "none": "Without a mentor in this placement, so there is no pair to part."}


def name_of(cell):
    """The name in a cell of the table."""
    return re.sub("^'(?=[=+@-])", "", cell)


def without_marks(text):
    """A text as the filter compares it: without capitals and accents."""
    return "".join(c for c in unicodedata.normalize("NFD", text) if not unicodedata.category(c).startswith("M")).lower()


class Pages(unittest.TestCase):
    """The college of examples/, and a drawn one of 64."""

    @classmethod
    def setUpClass(cls):
        place = tempfile.TemporaryDirectory()
        cls.addClassCleanup(place.cleanup)
        folder = Path(place.name)
        rng = random.Random(64)
        lists = draw_lists(rng, 64, 64, 0.25)
        names = draw_names(rng, 64, "Student"), draw_names(rng, 64, "Mentor")
        for name, text in zip(FILES, files(rng, names, lists, draw_matching(rng, Lists(*lists)), None)):
            (folder / name).write_bytes(text)
        status, _, err = run("sheet", *FILES, "--html", "page.html", "--csv", "t.csv", folder=folder)
        assert (status, err) == (0, ""), err
        cls.large = folder / "page.html", blocks((folder / "t.csv").read_text(encoding="utf-8"))
        cls.college = COLLEGE / "sheet.html", blocks((COLLEGE / "sheet.csv").read_text(encoding="utf-8"))

    def compare(self, reader, table):
        """The sections are those of the table: the pairs, then the students without a mentor."""
        order = sorted(table.items(), key=lambda item: item[1][0][1] == "none")
        self.assertEqual(len(reader.sections), len(order))
        for section, (student, ((mentor, answer, moved, *weight), rows)) in zip(reader.sections, order):
            self.assertEqual(section.pair, [name_of(cell) for cell in (student, mentor) if cell])
            self.assertEqual(section.tag, TAGS[answer])
            self.assertIn(SAYS[answer], section.answer)
            total = "".join(f", total weight {number}" for number in weight)
            self.assertIn(f"{moved} students to move{total};" if rows else "nobody to move", section.answer)
            due = [[*map(name_of, row[:3]), row[3].replace("-", "\N{MINUS SIGN}")] for row in rows]
            self.assertEqual(section.rows, due)

    def compare_shown(self, reader, table):
        """The same, and nothing of it is out of sight."""
        self.compare(reader, table)
        self.assertEqual(reader.body["data-wide"], "false")
        for section in reader.sections:
            self.assertFalse(section.hidden)
            lines = [" ".join(line.split()) for line in section.text.split("\n")]
            self.assertIn(" with ".join(section.pair), lines[0])
            for row in section.rows:
                self.assertIn(" ".join(row), lines)

    def test_text(self):
        """Without a browser: all of it stands in the file, which names no other file."""
        weighted = blocks((EXPECTED / "weighted-sheet.csv").read_text(encoding="utf-8"), True)
        for page, table in (self.college, (EXPECTED / "weighted-sheet.html", weighted), self.large):
            text = page.read_text(encoding="utf-8")
            reader = Reader(text)
            self.compare(reader, table)
            self.assertEqual(reader.hidden, ["filter", "shown"])
            self.assertFalse({"src", "href", "style", "onload", "onclick"} & set(reader.attributes))
            self.assertIsNone(re.search(r"url\(|@import|https?:", text))
            self.assertEqual((text.count("<script>"), text.count("</script>")), (1, 1))

    def test_unlike(self):
        """The two have every answer, and names that have to be escaped."""
        self.assertEqual({head[1] for _, table in (self.college, self.large) for head, _ in table.values()}, set(TAGS))
        self.assertTrue({"<b>Bold</b>", "A & B &amp; C", "</script><script>1</script>"} <= set(self.large[1]))

    @unittest.skipUnless(CHROMIUM, "no Chromium on this machine")
    def test_browser(self):
        """As it is, and without its script."""
        for page, table in (self.college, self.large):
            self.compare(Reader(chromium("--dump-dom", page.as_uri())), table)
            reader = shown(page)
            self.compare_shown(reader, table)
            self.assertEqual(reader.hidden, ["shown"])
        reader = shown(self.large[0], scripts=False)
        self.compare_shown(reader, self.large[1])
        self.assertEqual(reader.hidden, ["filter", "shown"])

    @unittest.skipUnless(CHROMIUM, "no Chromium on this machine")
    def test_filter(self):
        """By a student, by a mentor, without accents, by a name that an address has to escape, and by a typed word."""
        asked = [(self.college, "tom o'", False), (self.college, "Quispe", True), (self.college, "LEILA", False),
                 (self.large, "<b>Bold</b>", False), (self.large, "\u05db\u05d4\u05df", True)]
        for (page, table), word, typed in asked:
            reader = shown(page, typed=word) if typed else shown(page, f"#filter={quote(word)}")
            self.compare(reader, table)
            left = [section for section in reader.sections if not section.hidden]
            due = [section for section in reader.sections
                   if any(without_marks(word) in without_marks(name) for name in section.names())]
            self.assertEqual(left, due)
            self.assertTrue(0 < len(left) < len(reader.sections))
            self.assertEqual([section.text == "" for section in reader.sections],
                             [section.hidden for section in reader.sections])

    @unittest.skipUnless(CHROMIUM, "no Chromium on this machine")
    def test_paper(self):
        """It is printed on A4."""
        with tempfile.TemporaryDirectory() as folder:
            chromium(f"--print-to-pdf={folder}/page.pdf", self.large[0].as_uri())
            sizes = set(re.findall(rb"/MediaBox \[([^]]*)\]", Path(folder, "page.pdf").read_bytes()))
        self.assertEqual({tuple(round(float(x)) for x in size.split()) for size in sizes}, {(0, 0, 595, 842)})
