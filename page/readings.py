"""What the page asks of a session: a line, its reading under choices, analyses, and the states of lines."""

import itertools
import threading
from collections import OrderedDict
from typing import NamedTuple

from bookmarks import Bookmark, read_bookmark
from boxes import make_boxes
from replies import Refusal, accepted, read_analyses, read_page, read_summary

PAGE = 1_000  # the most answers that the program prints at once
MOST_KEPT_READINGS = 8  # readings that are kept for paging and sorting
MOST_ANALYSES = 200
PROGRAM_SCHEMES = ("slp1", "wx", "velthuis", "devanagari")


class Reading(NamedTuple):
    """A bookmark with its next answers, at most PAGE, and the boxes of its summary."""

    bookmark: Bookmark
    answers: list
    has_more: bool
    next_mark: str  # where the answers after these begin, empty where there are none
    boxes: list


class KeptReadings:
    """The readings that were asked for last, so that paging and sorting ask nothing."""

    def __init__(self):
        self._readings = OrderedDict()
        self._lock = threading.Lock()

    def get(self, key):
        with self._lock:
            if key in self._readings:
                self._readings.move_to_end(key)
            return self._readings.get(key)

    def put(self, key, reading):
        with self._lock:
            self._readings[key] = reading
            while len(self._readings) > MOST_KEPT_READINGS:
                self._readings.popitem(last=False)


def mark_of_text(exchange, scheme, text):
    """The bookmark of a text before its first answer, without choices."""
    accepted(exchange.ask(f"text {scheme} {text}"))
    return read_bookmark(accepted(exchange.ask("mark"))[0])


def read_from(exchange, bookmark, phases):
    """The reading of a bookmark."""
    accepted(exchange.ask(f"resume {bookmark}"))
    items = read_summary(exchange.ask("summary"))
    page = read_page(exchange.ask(f"page {PAGE}"))
    next_mark = accepted(exchange.ask("mark"))[0] if page.has_more else ""
    boxes = make_boxes(exchange, bookmark, phases, items, page)
    return Reading(bookmark, page.answers, page.has_more, next_mark, boxes)


def analyses_of(exchange, bookmark, segments):
    """The analyses of each segment, a list of stems and tags; empty where the summary has no such segment."""
    accepted(exchange.ask(f"resume {bookmark}"))
    numbers = {item.segment: item.number for item in read_summary(exchange.ask("summary"))}
    found = (numbers.get(segment) for segment in segments[:MOST_ANALYSES])
    return [read_analyses(exchange.ask(f"tags {number}")) if number else [] for number in found]


def state_of(exchange, scheme, text):
    """How many answers a text has, 0, 1 or 2 for several, with its line; or why it is no line."""
    try:
        bookmark = mark_of_text(exchange, scheme, text)
    except Refusal as refusal:
        return {"refused": refusal.why, "at": refusal.at}
    return {"line": bookmark.line, "answers": len(read_page(exchange.ask("page 2")).answers)}


def keys_of_only_answer(exchange, bookmark):
    """The answer of a bookmark with its keys (phase, taken, rule), or None where it has not exactly one."""
    accepted(exchange.ask(f"resume {bookmark.at_first()}"))
    page = read_page(exchange.ask("page 1"))
    if page.has_more or not page.answers:
        return None
    marked = read_bookmark(accepted(exchange.ask("mark"))[0])
    keys = [tuple(map(int, key.split("."))) for key in marked.keys.split(",")]
    return page.answers[0], keys


def shown_answers(reading, order, begin, most):
    """A part of a reading's answers, in the program's order or those with fewest forms first."""
    answers = reading.answers
    if order == "words":
        answers = sorted(answers, key=lambda answer: len(answer.steps))
    return list(itertools.islice(answers, begin, begin + most))
