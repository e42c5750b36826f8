"""The replies of a session, read into values."""

import re
from typing import NamedTuple, Optional

from bookmarks import Segment

SEGMENT = re.compile(r"([^\[\] ]+)\[([a-z0-9_]+)\](?: \(([^|]+)\|([^>]*)>([^)]+)\))?")
ITEM = re.compile(r"(\d+): (\d+) (\d+) ([^\[\] ]+)\[([a-z0-9_]+)\]")
REFUSED_AT = re.compile(r"\? (spelling) (\d+)")


class Rule(NamedTuple):
    """A form that ends in `u`, and then one that begins with `v`, are written `w` where they meet."""

    u: str
    v: str
    w: str

    def __str__(self):
        return f"{self.u}|{self.v}>{self.w}"

    @property
    def shared(self):
        """How many letters of `w` are not the letters of `v` left as they are."""
        same = 0
        while same < min(len(self.v), len(self.w)) and self.v[-1 - same] == self.w[-1 - same]:
            same += 1
        return len(self.w) - same


class Step(NamedTuple):
    """A segment of an answer with the rule after it, None where it meets the next one unchanged."""

    segment: Segment
    taken: int
    rule: Optional[Rule]

    @property
    def written_to(self):
        """Where the letters end in which the segment and the rule after it are written."""
        return self.segment.at + self.taken + (len(self.rule.w) if self.rule else 0)

    @property
    def end(self):
        """Where the segment ends in the line. Letters of the next form that the rule leaves as they are do not count."""
        return self.segment.at + self.taken + (self.rule.shared if self.rule else 0)


class Answer(NamedTuple):
    number: int
    steps: tuple


class Page(NamedTuple):
    answers: list
    has_more: bool


class Item(NamedTuple):
    """A line of a summary: its number and its segment."""

    number: int
    segment: Segment


class Refusal(Exception):
    """The program refused a command. `why` is what it said; `at` is the byte of a fault of spelling, or None."""

    def __init__(self, line):
        super().__init__(line)
        found = REFUSED_AT.fullmatch(line)
        self.why, self.at = (found[1], int(found[2])) if found else (line.removeprefix("? "), None)


def accepted(reply):
    """The reply, where it is no refusal."""
    if reply[0].startswith("?"):
        raise Refusal(reply[0])
    return reply


def read_answer(line, steps_seen):
    """The answer of a printed line. A step that was seen before is the same value, so that pages take little room."""
    number, forms = line.split(": ", 1)
    steps, at, lead = [], 0, 0
    for found in SEGMENT.findall(forms):
        key = (at, lead, found)
        step = steps_seen.get(key) or steps_seen.setdefault(key, step_at(*key))
        steps.append(step)
        at, lead = step.written_to, len(found[3])
    return Answer(int(number), tuple(steps))


def step_at(at, lead, found):
    """The step of a form that was found in a printed answer."""
    form, phase, u, v, w = found
    return Step(Segment(at, lead, phase, form), len(form) - lead - len(u), Rule(u, v, w) if u else None)


def read_page(reply):
    """The answers of a reply to `page`."""
    lines, steps_seen = accepted(reply), {}
    return Page([read_answer(line, steps_seen) for line in lines[:-1]], lines[-1] == "more")


def read_summary(reply):
    """The items of a reply to `summary`."""
    items = []
    for line in accepted(reply)[:-1]:
        number, at, lead, form, phase = ITEM.fullmatch(line).groups()
        items.append(Item(int(number), Segment(int(at), int(lead), phase, form)))
    return items


def read_analyses(reply):
    """The stem and the tag of each line of a reply to `tags`."""
    return [line.split(" ", 1) for line in accepted(reply)[:-1]]
