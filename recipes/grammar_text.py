"""Grammar texts of lexicon files, as docs/FORMATS.md describes them: whether a text is one."""

import re
from dataclasses import dataclass

MOST_GRAMMAR_BYTES, MOST_NAMES, MOST_NAME_BYTES, MOST_STATES = 1_024, 60, 16, 32


def is_grammar(text, phases):
    """Whether a text is a grammar text over the phases and within the limits of these."""
    if len(text) > MOST_GRAMMAR_BYTES or not walk(text):
        return False
    tokens = re.findall(rb"[a-z][a-z0-9_]*|[()|*+?]", text)
    names = [token for token in tokens if token[:1].islower()]
    return set(names) <= set(phases) and len(names) <= MOST_NAMES and has_few_states(tokens, names)


def walk(text):
    """Whether each byte may stand where it does, and no item is needed and no bracket open at the end."""
    opened, needed, letters = 0, True, 0
    for byte in text:
        sign = chr(byte)
        if letters and (sign.islower() or sign.isdigit() or sign == "_") and sign.isascii():
            letters += 1
            if letters > MOST_NAME_BYTES:
                return False
            continue
        letters = 0
        if sign == " ":
            continue
        if sign.islower() and sign.isascii():
            letters, needed = 1, False
        elif sign == "(":
            opened, needed = opened + 1, True
        elif sign == ")" and not needed and opened:
            opened -= 1
        elif sign == "|" and not needed:
            needed = True
        elif sign not in "*+?" or needed:
            return False
    return not needed and not opened


@dataclass
class Piece:
    """A piece of a grammar: whether it takes the empty list, and the positions with which its lists may begin and end."""

    empty: bool
    first: frozenset
    last: frozenset


class Positions:
    """The pieces of a grammar by its tokens, and which position may follow which."""

    def __init__(self, tokens):
        self.tokens, self.place, self.count = tokens, 0, 0
        self.follow = {}
        self.whole = self.expression()

    def peek(self):
        return self.tokens[self.place] if self.place < len(self.tokens) else None

    def expression(self):
        piece = self.sequence()
        while self.peek() == b"|":
            self.place += 1
            other = self.sequence()
            piece = Piece(piece.empty or other.empty, piece.first | other.first, piece.last | other.last)
        return piece

    def sequence(self):
        piece = self.item()
        while self.peek() not in (None, b"|", b")"):
            other = self.item()
            self.connect(piece.last, other.first)
            piece = Piece(
                piece.empty and other.empty,
                piece.first | other.first if piece.empty else piece.first,
                piece.last | other.last if other.empty else other.last,
            )
        return piece

    def item(self):
        token = self.peek()
        self.place += 1
        if token == b"(":
            piece = self.expression()
            self.place += 1
        else:
            self.count += 1
            piece = Piece(False, frozenset([self.count]), frozenset([self.count]))
        while self.peek() in (b"*", b"+", b"?"):
            if self.tokens[self.place] != b"?":
                self.connect(piece.last, piece.first)
            if self.tokens[self.place] != b"+":
                piece = Piece(True, piece.first, piece.last)
            self.place += 1
        return piece

    def connect(self, before, after):
        for position in before:
            self.follow.setdefault(position, set()).update(after)


def has_few_states(tokens, names):
    """Whether the sets of positions after a list of phases, with that of the empty list, are few enough."""
    positions = Positions(tokens)
    sets = {None}
    found = [None]
    while found:
        at = found.pop()
        after = positions.whole.first if at is None else set().union(*(positions.follow.get(position, ()) for position in at))
        for name in set(names):
            reached = frozenset(position for position in after if names[position - 1] == name)
            if reached and reached not in sets:
                sets.add(reached)
                found.append(reached)
                if len(sets) > MOST_STATES:
                    return False
    return True
