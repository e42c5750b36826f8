"""The summary as boxes under the letters of the line."""

from typing import NamedTuple

from bookmarks import Bookmark
from replies import read_page

MOST_ENDS_ASKED = 300  # segments of a line whose end is asked for one by one
MOST_CERTAIN_ASKED = 100  # boxes for which it is asked whether any answer is without them
MOST_RULES_SHOWN = 4


class Way(NamedTuple):
    """One way in which a form is entered. `rules` are some of those before it, None for a form before it unchanged."""

    segment: object
    rules: list


class Box(NamedTuple):
    """A form of a phase over the letters from `start` to `end`. `end` is None where no answer with it was asked for."""

    start: int
    end: int
    form: str
    phase: str
    ways: list
    is_certain: bool
    in_first: bool


class Places:
    """Where the segments of the answers that were listed end, and by which rules they are entered."""

    def __init__(self, answers):
        self.ends, self.rules, self.answers_with = {}, {}, {}
        for index, answer in enumerate(answers):
            self.add(answer, index)

    def add(self, answer, index=None):
        before = None
        for step in answer.steps:
            self.ends.setdefault(step.segment, step.end)
            rules = self.rules.setdefault(step.segment, [])
            rule = before.rule if before else None
            if before and rule not in rules:
                rules.append(rule)
            if index is not None:
                self.answers_with.setdefault(step.segment, set()).add(index)
            before = step


def group_items(items):
    """The segments of a summary, those of one form, phase and start together."""
    groups = {}
    for item in items:
        segment = item.segment
        groups.setdefault((segment.start, segment.phase, segment.form), []).append(segment)
    return groups


def ask_for_ends(exchange, bookmark, phases, items, places):
    """Asks for an answer of each segment that stands in none of those that were listed."""
    asked = 0
    for item in items:
        if item.segment in places.ends or asked == MOST_ENDS_ASKED:
            continue
        kept = bookmark.choosing(True, [item.segment], phases)
        page = first_answer(exchange, kept)
        asked += 1
        for answer in page.answers if page else []:
            places.add(answer)


def first_answer(exchange, bookmark):
    """The page of one answer of a bookmark, or None where there is no such bookmark."""
    if bookmark is None or exchange.ask(f"resume {bookmark}") != ["ok"]:
        return None
    return read_page(exchange.ask("page 1"))


def is_certain(exchange, bookmark, phases, segments):
    """Whether no answer is left where all these segments are rejected."""
    page = first_answer(exchange, bookmark.choosing(False, segments, phases))
    return page is not None and not page.answers


def make_boxes(exchange, bookmark, phases, items, page):
    """The boxes of a summary whose first answers are on the page."""
    bookmark = Bookmark(bookmark.line, bookmark.choices)
    places = Places(page.answers)
    if page.has_more:
        ask_for_ends(exchange, bookmark, phases, items, places)
    first = {step.segment for answer in page.answers[:1] for step in answer.steps}
    boxes, asked = [], 0
    for (start, phase, form), segments in group_items(items).items():
        with_it = set().union(*(places.answers_with.get(segment, ()) for segment in segments))
        certain = bool(page.answers) and len(with_it) == len(page.answers)
        if certain and page.has_more:
            certain = asked < MOST_CERTAIN_ASKED and is_certain(exchange, bookmark, phases, segments)
            asked += 1
        end = next((places.ends[segment] for segment in segments if segment in places.ends), None)
        ways = [Way(segment, places.rules.get(segment, [])[:MOST_RULES_SHOWN]) for segment in segments]
        boxes.append(Box(start, end, form, phase, ways, certain, not first.isdisjoint(segments)))
    return sorted(boxes, key=lambda box: (box.start, -(box.end or box.start), box.form, box.phase))
