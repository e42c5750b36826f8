"""The texts of bookmarks: `1;LINE;CHOICES;PRINTED;KEYS`."""

import re
from typing import NamedTuple

MOST_BYTES = 65_000
MOST_CHOICES = 200
LETTER = "[aAiIuUfFxeEoOM~HkKgGNcCjJYwWqQRtTdDnpPbBmyrlvSzsh']"
SHAPE = re.compile(
    rf"1;(?P<line>{LETTER}+(?:_{LETTER}+)*)"
    rf";(?P<choices>(?:[+-]\d+\.\d+\.\d+\.{LETTER}+(?:,[+-]\d+\.\d+\.\d+\.{LETTER}+)*)?)"
    r";(?P<printed>\d+);(?P<keys>(?:\d+\.\d+\.\d+(?:,\d+\.\d+\.\d+)*)?)",
    re.ASCII,
)


class Segment(NamedTuple):
    """A form at a place of a line: `at` letters come before it, and the rule before it supplies `lead` of its own."""

    at: int
    lead: int
    phase: str
    form: str

    @property
    def start(self):
        """How many letters of the line come before all that is seen of the form."""
        return max(0, self.at - self.lead)


class Choice(NamedTuple):
    is_kept: bool
    at: int
    lead: int
    phase: int
    form: str


class Bookmark(NamedTuple):
    """A line with the reader's choices, and how far the answers were printed."""

    line: str
    choices: str = ""
    printed: int = 0
    keys: str = ""

    def __str__(self):
        return f"1;{self.line};{self.choices};{self.printed};{self.keys}"

    @property
    def letters(self):
        """The letters of the line in SLP1, without its blanks."""
        return self.line.replace("_", "")

    @property
    def blanks(self):
        """The places of the blanks: how many letters come before each."""
        places, letters = [], 0
        for piece in self.line.split("_")[:-1]:
            letters += len(piece)
            places.append(letters)
        return places

    def choice_list(self):
        return [read_choice(text) for text in self.choices.split(",") if text]

    def at_first(self):
        """The same line and choices before the first answer."""
        return Bookmark(self.line, self.choices)

    def without_choices(self):
        return Bookmark(self.line)

    def choosing(self, is_kept, segments, phases):
        """The same line with these segments kept or rejected besides. None where there are too many choices."""
        sign = "+" if is_kept else "-"
        added = [f"{sign}{seg.at}.{seg.lead}.{phases.index(seg.phase)}.{seg.form}" for seg in segments]
        texts = [text for text in self.choices.split(",") if text] + added
        return Bookmark(self.line, ",".join(texts)) if len(texts) <= MOST_CHOICES else None


def read_choice(text):
    at, lead, phase, form = text[1:].split(".")
    return Choice(text[0] == "+", int(at), int(lead), int(phase), form)


def read_bookmark(text):
    """The bookmark of a text, or None. Whether a lexicon has it, only the program says."""
    found = SHAPE.fullmatch(text) if len(text) < MOST_BYTES else None
    if not found:
        return None
    return Bookmark(found["line"], found["choices"], int(found["printed"]), found["keys"])
