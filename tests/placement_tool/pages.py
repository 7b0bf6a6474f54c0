"""A page read back: from its text, and as headless Chromium shows it."""
import shutil
import subprocess
import tempfile
from dataclasses import dataclass, field
from html.parser import HTMLParser
from pathlib import Path

CHROMIUM = next(filter(None, map(shutil.which, ("chromium", "chromium-browser", "google-chrome"))), None)
# Notes on each section the text that is shown, and on the body whether something stands out to the right.
NOTES = """<script>
for (const section of document.querySelectorAll("section"))
  section.dataset.text = section.getClientRects().length ? section.innerText : "";
document.body.dataset.wide = document.documentElement.scrollWidth > document.documentElement.clientWidth;
</script>"""


@dataclass
class Section:
    """What a page says of one student."""

    hidden: bool
    text: str
    pair: list = field(default_factory=list)
    tag: str = ""
    answer: str = ""
    rows: list = field(default_factory=list)

    def names(self):
        """All names in it."""
        return {*self.pair, *[name for row in self.rows for name in row[:3]]}


class Reader(HTMLParser):
    """The sections of a page, its other elements with their attributes, and which of those are hidden."""

    def __init__(self, text):
        super().__init__()
        self.sections, self.hidden, self.attributes, self.open, self.body = [], [], [], [], {}
        self.feed(text)
        self.close()

    def handle_starttag(self, tag, attrs):
        attrs = dict(attrs)
        self.attributes += attrs
        if "hidden" in attrs:
            self.hidden.append(attrs.get("id") or tag)
        if tag == "body":
            self.body = attrs
        if tag == "section":
            self.sections.append(Section("hidden" in attrs, attrs.get("data-text", "")))
        if tag == "tr" and "tbody" in self.open:
            self.sections[-1].rows.append([])
        if tag in ("th", "td") and "tbody" in self.open:
            self.sections[-1].rows[-1].append("")
        if tag == "bdi" and "h2" in self.open:
            self.sections[-1].pair.append("")
        if tag not in ("meta", "input"):
            self.open.append(tag)

    def handle_endtag(self, tag):
        assert self.open.pop() == tag

    def handle_data(self, data):
        if "section" not in self.open:
            return
        section = self.sections[-1]
        if "bdi" in self.open and "h2" in self.open:
            section.pair[-1] += data
        elif "tbody" in self.open and self.open[-1] != "tbody" and self.open[-1] != "tr":
            section.rows[-1][-1] += data
        elif self.open[-1] == "span" and "p" in self.open:
            section.tag += data
        elif "p" in self.open:
            section.answer += data


def chromium(*arguments):
    """What headless Chromium prints."""
    with tempfile.TemporaryDirectory() as profile:
        done = subprocess.run(
            [CHROMIUM, "--headless", "--no-sandbox", "--disable-gpu", f"--user-data-dir={profile}", *arguments],
            stdout=subprocess.PIPE, stderr=subprocess.DEVNULL, check=True, timeout=120,
        )
    return done.stdout.decode()


def shown(page, fragment="", scripts=True, typed=None):
    """A page as the browser has it: with a part of the address after #, without the page's own script, or with a word
    typed into the filter."""
    text = page.read_text(encoding="utf-8")
    start, end = text.index("<script>"), text.index("</script>") + len("</script>")
    script = text[start:end] if scripts else ""
    if typed is not None:
        script += ('<script>const typed = document.getElementById("word");'
                   f'typed.value = {ascii(typed)}; typed.dispatchEvent(new Event("input"));</script>')
    with tempfile.TemporaryDirectory() as folder:
        copy = Path(folder, "page.html")
        copy.write_text(text[:start] + script + NOTES + text[end:], encoding="utf-8")
        return Reader(chromium("--window-size=1000,1200", "--dump-dom", f"{copy.as_uri()}{fragment}"))
