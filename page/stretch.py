"""Which stretch of a line without an answer can't be read."""

from typing import NamedTuple

from replies import accepted, read_page

MOST_QUESTIONS = 400

# What the last letter of a piece may have been before sandhi with the next piece changed it. A piece whose end was changed
# has no answer by itself, so it is asked for with these too.
BEFORE_SANDHI = {
    "o": ["aH"],
    "A": ["AH"],
    "a": ["aH", "e"],
    "S": ["H"],
    "z": ["H"],
    "s": ["H"],
    "r": ["H"],
    "d": ["t"],
    "g": ["k"],
    "b": ["p"],
    "q": ["w"],
    "c": ["t"],
    "j": ["t"],
    "l": ["t"],
    "n": ["t"],
    "N": ["k"],
    "Y": ["n"],
    "y": ["i", "I"],
    "v": ["u", "O"],
}


class Stretch(NamedTuple):
    """The pieces of a line between its blanks, which of them stand in a run that can be read, and which blanks do."""

    pieces: list
    is_read: list
    is_crossed: list  # for each blank whether a run that can be read has the pieces on both its sides
    questions: int
    is_whole: bool  # whether all runs were asked for that could tell more


def runs_of(count):
    """All runs of pieces but the whole line, as their first number and the number after the last, longest first."""
    for length in range(count - 1, 0, -1):
        for first in range(count - length + 1):
            yield first, first + length


def texts_of(pieces, first, after):
    """A run as it stands, and as it may be meant where it was cut out of its line."""
    text = " ".join(pieces[first:after])
    texts = [text]
    if after < len(pieces):
        texts += [text[:-1] + end for end in BEFORE_SANDHI.get(text[-1], ())]
    if first > 0 and text.startswith("'"):
        texts += ["a" + each[1:] for each in texts]
    return [each for each in texts if each]


class Finder:
    """Asks for runs of consecutive pieces, longest first, leaving out those inside a run that can be read."""

    def __init__(self, exchange, bookmark):
        self._exchange = exchange
        self._pieces = bookmark.line.split("_")
        self._read = []
        self._questions = 0

    def find(self):
        for first, after in runs_of(len(self._pieces)):
            if any(begin <= first and after <= end for begin, end in self._read):
                continue
            for text in texts_of(self._pieces, first, after):
                if self._questions == MOST_QUESTIONS:
                    return self._told(False)
                if self._has_answer(text):
                    self._read.append((first, after))
                    break
        return self._told(True)

    def _has_answer(self, text):
        self._questions += 1
        accepted(self._exchange.ask(f"text slp1 {text}"))
        return bool(read_page(self._exchange.ask("page 1")).answers)

    def _told(self, is_whole):
        places = range(len(self._pieces))
        is_read = [any(begin <= place < end for begin, end in self._read) for place in places]
        is_crossed = [any(begin < place < end for begin, end in self._read) for place in places[1:]]
        return Stretch(self._pieces, is_read, is_crossed, self._questions, is_whole)


def find_stretch(exchange, bookmark):
    return Finder(exchange, bookmark).find()
