"""What the page should show, worked out from the output of `segment` alone and apart from the page's own modules."""

import re
import subprocess
import tempfile
from pathlib import Path
from typing import NamedTuple

PART = re.compile(r"([^ \[\]()]+)\[([a-z0-9_]+)\]|\(([^|]+)\|([^>]*)>([^)]+)\)|(\+)")


class Placed(NamedTuple):
    """A segment of an answer, and where the letters in which it is written end."""

    at: int
    lead: int
    phase: str
    form: str
    end: int

    @property
    def key(self):
        return self.at, self.lead, self.phase, self.form


def answers_of(program, lexicon, text, scheme="devanagari"):
    """All answers of a text, each a list of segments with their places."""
    words = [program, "segment", "--in", scheme, lexicon, text]
    lines = subprocess.run(words, capture_output=True, text=True, check=True).stdout.splitlines()
    if lines[-1] != "end":
        raise ValueError("the text has too many answers")
    return [placed(line.split(": ", 1)[1]) for line in lines[:-1]]


def counts_of(program, lexicon, texts):
    """How many answers each text in Devanagari has, at most 1,000."""
    with tempfile.TemporaryDirectory(prefix="page-texts-") as folder:
        path = Path(folder) / "texts"
        path.write_text("".join(f"{text}\n" for text in texts), encoding="utf-8")
        words = [program, "batch", lexicon, "devanagari", str(path), "1000"]
        lines = subprocess.run(words, capture_output=True, text=True, check=True).stdout.splitlines()
    counts = []
    for line in lines:
        if line.startswith("line "):
            counts.append(0)
        elif line[:1].isdigit():
            counts[-1] += 1
    return counts


def placed(printed):
    """The segments of a printed answer: each rule is looked at for how its letters lie in the line."""
    segments, at, lead, form, phase = [], 0, 0, None, None

    def close(u, v, w):
        nonlocal at, lead
        joint = at + len(form) - lead - len(u)
        segments.append(Placed(at, lead, phase, form, joint + len(w) - unchanged(v, w)))
        at, lead = joint + len(w), len(v)

    for found_form, found_phase, u, v, w, plus in PART.findall(printed):
        if found_form:
            form, phase = found_form, found_phase
        else:
            close(u, v, w)
            form = form if w and not v else None
    if form is not None and (not segments or printed.rstrip()[-1] != ")"):
        close("", "", "")
    return segments


def unchanged(v, w):
    """How many letters at the end of `w` are those of `v`, left as they are."""
    count = 0
    while count < len(v) and count < len(w) and v[len(v) - 1 - count] == w[len(w) - 1 - count]:
        count += 1
    return count


def under_choices(answers, choices):
    """The answers that have each kept segment and no rejected one. A choice is `(is_kept, key)`."""
    left = []
    for answer in answers:
        keys = {segment.key for segment in answer}
        if all((key in keys) == is_kept for is_kept, key in choices):
            left.append(answer)
    return left
