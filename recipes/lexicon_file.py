"""Reads a lexicon file of any version, as docs/FORMATS.md describes them: its lexicon, or its first fault."""

import os
import re
from dataclasses import dataclass, field

from grammar_text import is_grammar

LETTERS = b"aAiIuUfFxeEoOM~HkKgGNcCjJYwWqQRtTdDnpPbBmyrlvSzsh'"
CODES = bytes(LETTERS.index(byte) + 1 if byte in LETTERS else 0 for byte in range(256))
SPELLED = b"\0" + LETTERS

MOST_BYTES = 33_554_432
MOST_PHASES, MOST_RULES, MOST_LEADS, MOST_PAIRS = 16, 4_000, 256, 600_000
MOST_RULE_LETTERS, MOST_FORM_LETTERS, MOST_CUT_DIGITS, MOST_NODE_DIGITS = 8, 64, 2, 9

GENDERS, NUMBERS, CASES = "[mfn]", "(?:sg|du|pl)", "(?:nom|acc|ins|dat|abl|gen|loc|voc)"
TENSES, VOICES = "(?:pr|impf|imp|opt|fut|perf|aor)", "(?:ac|md|ps)"
TAG = re.compile(rf"{GENDERS}\.{NUMBERS}\.{CASES}|{TENSES}\.{VOICES}\.[123]\.{NUMBERS}|iic|pv|ind".encode())
NAME = re.compile(rb"[a-z][a-z0-9_]{0,15}")
NUMBER = re.compile(rb"0|[1-9][0-9]*")

FRONT = {b"": {b"phase"}, b"phase": {b"phase", b"grammar"}}
FIRST_ORDER = FRONT | {
    b"grammar": {b"plain", b"rule", b"form", b"end"},
    b"plain": {b"plain", b"rule", b"form", b"end"},
    b"rule": {b"rule", b"form", b"end"},
    b"form": {b"form", b"end"},
}
TRIE_ORDER = FRONT | {
    b"grammar": {b"plain", b"rule", b"node"},
    b"plain": {b"plain", b"rule", b"node"},
    b"rule": {b"rule", b"node"},
    b"node": {b"node", b"root"},
}


class Refused(Exception):
    """Why a line is refused."""


class Fault(Exception):
    """The first fault of a file: the number of its line, counted from 1, and why; line 0 and `Large` where it has too many bytes."""

    def __init__(self, line, why):
        super().__init__(f"line {line}: {why}" if line else why)
        self.line, self.why = line, why


@dataclass
class Lexicon:
    """What a lexicon file tells. Words are strings of letters' codes, as bytes, so that they compare by the order of letters. A rule is
    u, v, w and the two sets of phases, as frozen sets of numbers. A node is its deltas, each a cut, a word and a tag, and its children,
    each a letter's code and a node's number. Where the forms were told, they are entries of a phase, a form, a stem and a tag."""

    phases: list = field(default_factory=list)
    grammar: bytes = b""
    plain: list = field(default_factory=list)
    rules: list = field(default_factory=list)
    entries: list = field(default_factory=list)
    nodes: list = field(default_factory=list)
    roots: list = field(default_factory=list)

    def every_phase(self):
        return frozenset(range(len(self.phases)))

    def is_unlimited(self, rule):
        _, v, _, before, after = rule
        return before == self.every_phase() and (not v or after == self.every_phase())

    def is_limited(self):
        return not all(map(self.is_unlimited, self.rules))


# ---- letters, words and numbers


def word_of(text):
    """The word that the text spells in SLP1."""
    word = text.translate(CODES)
    if 0 in word:
        raise Refused("Spelling")
    return word


def letter_of(text):
    if len(word := word_of(text)) != 1:
        raise Refused("Spelling")
    return word[0]


def spelled(word):
    return bytes(word).translate(SPELLED.ljust(256, b"\0"))


def number_of(text, most_digits):
    """The number that the text is in decimal digits, with no 0 before others."""
    if not NUMBER.fullmatch(text) or len(text) > most_digits:
        raise Refused("Field")
    return int(text)


# ---- reading


class Reading:
    """What the lines of a file tell, taken one after another. Each kind of line has a method, which refuses a line or takes it."""

    def __init__(self, version):
        self.version = version
        self.order = FIRST_ORDER if version == 1 else TRIE_ORDER
        self.last = b""
        self.lexicon = Lexicon()
        self.triples = set()
        self.leads = set()
        self.heights = []
        self.line_before = None

    def take(self, line):
        kind, blank, rest = line.partition(b" ")
        allowed = self.order.get(self.last)
        if self.last == b"root":
            allowed = {b"end"} if len(self.lexicon.roots) == len(self.lexicon.phases) else {b"root"}
        if kind not in allowed:
            raise Refused("Order")
        fields = rest.split(b" ") if blank else []
        if kind == b"grammar":
            self.take_grammar(rest if blank else None)
        elif kind == b"node":
            self.take_node(line, fields)
        else:
            getattr(self, "take_" + kind.decode())(*self.exactly(kind, fields))
        self.last = kind

    def exactly(self, kind, fields):
        """The fields, which are as many as a line of the kind has."""
        wanted = {b"phase": 1, b"plain": 2, b"rule": 3 if self.version == 3 else 1, b"form": 4, b"root": 2, b"end": 0}[kind]
        if len(fields) != wanted:
            raise Refused("Field")
        return fields

    def take_phase(self, name):
        phases = self.lexicon.phases
        if not NAME.fullmatch(name):
            raise Refused("Field")
        if len(phases) >= MOST_PHASES:
            raise Refused("Limit")
        if name in phases:
            raise Refused("Twice")
        phases.append(name)

    def take_grammar(self, text):
        if text is None:
            raise Refused("Field")
        if not is_grammar(text, self.lexicon.phases):
            raise Refused("Grammar")
        self.lexicon.grammar = text

    def take_plain(self, x, y):
        pair = letter_of(x), letter_of(y)
        take_rising(self.lexicon.plain, pair)

    def take_rule(self, field, before=b"*", after=None):
        bar, mark = field.find(b"|"), field.find(b">")
        if field.count(b"|") != 1 or field.count(b">") != 1 or mark < bar:
            raise Refused("Field")
        texts = field[:bar], field[bar + 1 : mark], field[mark + 1 :]
        sets = self.set_of(before), self.set_after(texts[1], after)
        triple = tuple(map(word_of, texts))
        u, v, w = triple
        if not u or not w:
            raise Refused("Strict")
        leads = self.leads | {(v, sets[1])} if v else self.leads
        too_long = max(map(len, triple)) > MOST_RULE_LETTERS
        if len(self.lexicon.rules) >= MOST_RULES or len(leads) > MOST_LEADS or too_long:
            raise Refused("Limit")
        if triple in self.triples:
            raise Refused("Twice")
        self.leads = leads
        self.triples.add(triple)
        self.lexicon.rules.append((*triple, *sets))

    def set_of(self, field):
        """The set of phases that a field tells: `*` for all, or names that rise by number and are not all."""
        phases = self.lexicon.phases
        if field == b"*":
            return self.lexicon.every_phase()
        names = field.split(b",")
        if not set(names) <= set(phases):
            raise Refused("Field")
        numbers = [phases.index(name) for name in names]
        if sorted(set(numbers)) != numbers or len(numbers) == len(phases):
            raise Refused("Field")
        return frozenset(numbers)

    def set_after(self, v, field):
        """The set after a rule with this text of v. A final rule has none, and `-` in version 3."""
        if field is None:
            return self.lexicon.every_phase() if v else frozenset()
        if v:
            return self.set_of(field)
        if field != b"-":
            raise Refused("Field")
        return frozenset()

    def take_form(self, phase, form, stem, tag):
        if phase not in self.lexicon.phases or not TAG.fullmatch(tag):
            raise Refused("Field")
        form, stem = word_of(form), word_of(stem)
        if not form or not stem:
            raise Refused("Spelling")
        entries = self.lexicon.entries
        if len(entries) >= MOST_PAIRS or max(len(form), len(stem)) > MOST_FORM_LETTERS:
            raise Refused("Limit")
        take_rising(entries, (self.lexicon.phases.index(phase), form, stem, tag))

    def take_node(self, line, fields):
        if len(fields) != 2:
            raise Refused("Field")
        told_deltas = [delta_parts(text) for text in listed(fields[0])]
        told_children = [child_parts(text) for text in listed(fields[1])]
        deltas = tuple((cut, word_of(append), tag) for cut, append, tag in told_deltas)
        children = tuple((letter_of(letter), node) for letter, node in told_children)
        self.check_children(children)
        height = 1 + max(self.heights[node] for _, node in children) if children else 0
        if height > MOST_FORM_LETTERS or any(len(append) > MOST_FORM_LETTERS for _, append, _ in deltas):
            raise Refused("Limit")
        if self.line_before == (height, line):
            raise Refused("Twice")
        if not is_rising(deltas) or self.line_before and self.line_before > (height, line):
            raise Refused("Falling")
        self.line_before = height, line
        self.heights.append(height)
        self.lexicon.nodes.append((deltas, children))

    def check_children(self, children):
        nodes = self.lexicon.nodes
        for _, node in children:
            if node >= len(nodes) or nodes[node] == ((), ()):
                raise Refused("Child")
        if not is_rising([letter for letter, _ in children]):
            raise Refused("Child")

    def take_root(self, phase, node):
        lexicon = self.lexicon
        if phase != lexicon.phases[len(lexicon.roots)]:
            raise Refused("Field")
        number = number_of(node, MOST_NODE_DIGITS)
        if number >= len(lexicon.nodes) or lexicon.nodes[number][0]:
            raise Refused("Child")
        lexicon.roots.append(number)

    def take_end(self):
        if self.version == 1:
            return
        if count_pairs(self.lexicon) > MOST_PAIRS:
            raise Refused("Limit")
        if len(used_nodes(self.lexicon)) < len(self.lexicon.nodes):
            raise Refused("Unused")
        if not all(is_right(form, delta) for root in self.lexicon.roots for form, delta in deltas_of(self.lexicon, root)):
            raise Refused("Delta")
        if self.version == 3 and not self.lexicon.is_limited():
            raise Refused("Unlimited")


def take_rising(list_so_far, new):
    """Adds to a list what is above the last of it."""
    if list_so_far and list_so_far[-1] >= new:
        raise Refused("Twice" if list_so_far[-1] == new else "Falling")
    list_so_far.append(new)


def is_rising(values):
    return all(one < other for one, other in zip(values, values[1:]))


def listed(field):
    return [] if field == b"-" else field.split(b",")


def delta_parts(text):
    parts = text.split(b":")
    if len(parts) != 3 or not TAG.fullmatch(parts[2]):
        raise Refused("Field")
    cut = number_of(parts[0], MOST_CUT_DIGITS)
    if cut > MOST_FORM_LETTERS:
        raise Refused("Field")
    return cut, parts[1], parts[2]


def child_parts(text):
    parts = text.split(b"=")
    if len(parts) != 2:
        raise Refused("Field")
    return parts[0], number_of(parts[1], MOST_NODE_DIGITS)


def count_pairs(lexicon):
    """How many pairs of a form and one of its deltas there are."""
    pairs = []
    for deltas, children in lexicon.nodes:
        pairs.append(len(deltas) + sum(pairs[node] for _, node in children))
    return sum(pairs[root] for root in lexicon.roots)


def used_nodes(lexicon):
    """The nodes to which some root leads."""
    used = set(lexicon.roots)
    for number in range(len(lexicon.nodes) - 1, -1, -1):
        if number in used:
            used.update(node for _, node in lexicon.nodes[number][1])
    return used


def deltas_of(lexicon, root):
    """The forms of a phase, rising, each as often as it has deltas, with the delta."""
    stack = [(root, b"")]
    while stack:
        node, word = stack.pop()
        deltas, children = lexicon.nodes[node]
        yield from ((word, delta) for delta in deltas)
        stack.extend((child, word + bytes([letter])) for letter, child in reversed(children))


def stem_by(form, delta):
    return form[: len(form) - delta[0]] + delta[1]


def is_right(form, delta):
    """Whether the delta cuts no more than there is, gives a stem of lawful length, and no smaller cut gives this stem."""
    if delta[0] > len(form):
        return False
    stem = stem_by(form, delta)
    return 1 <= len(stem) <= MOST_FORM_LETTERS and delta[0] == len(form) - len(os.path.commonprefix([form, stem]))


def read(text):
    """The lexicon of a file, which has the forms of version 1 or the trie of a later version, or its first fault."""
    if len(text) > MOST_BYTES:
        raise Fault(0, "Large")
    lines = text.split(b"\n")
    unended = lines.pop()
    version = {b"slx 2": 2, b"slx 3": 3}.get(lines[0] if lines else b"", 1)
    reading = Reading(version)
    for number, line in enumerate(lines, 1):
        why = fault_of(reading, number, line)
        if why:
            raise Fault(number, why)
    if unended:
        raise Fault(len(lines) + 1, "Trailing" if reading.last == b"end" else "NoEnd")
    if reading.last != b"end":
        raise Fault(len(lines) + 1, "NoEnd")
    return reading.lexicon


def fault_of(reading, number, line):
    """Takes an ended line, or tells why it is refused."""
    if reading.last == b"end":
        return "Trailing"
    try:
        line.decode("utf-8")
        if number > 1:
            reading.take(line)
        elif line not in (b"slx 1", b"slx 2", b"slx 3"):
            return "Head"
    except UnicodeDecodeError:
        return "NotUtf8"
    except Refused as refused:
        return str(refused)
    return None
