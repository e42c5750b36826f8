#!/usr/bin/env python3
"""Makes lexicon files that are lawful and take long to read.

    samples/worst_lexicons.py FOLDER

Each is a text of version 2, but the last, which is of version 1. Their names say what there is most of:

    few_nodes.lex    600,000 forms over few nodes
    many_deltas.lex  64 deltas at each of 9,375 nodes, which cut up to 64 letters of forms that have 64; so all heights are there
    one_node.lex     600,000 deltas at one node
    most_nodes.lex   as many nodes as have room in 32 MiB, on forms of 64 letters of which the deltas cut up to 64
    most_forms.lex   600,000 forms of version 1, of eight letters each

docs/PERFORMANCE.md says how long the program takes to read them."""
import sys
from itertools import islice, product
from pathlib import Path

LETTERS = "aAiIuUfFxeEoOM~HkKgGNcCjJYwWqQRtTdDnpPbBmyrlvSzsh'"
PLACE = {letter: place for place, letter in enumerate(LETTERS)}
# No form has the letter `a`, so a delta that puts it is the one with the least cut.
PUT, REST = LETTERS[0], LETTERS[1:]
MOST_BYTES, MOST_PAIRS, MOST_LETTERS = 1 << 25, 600_000, 64
HEAD = "phase word\ngrammar word+\nplain k k\nrule k|k>k\n"


class Trie:
    """A trie level by level: the nodes of a height are told together, in the order of their lines, and then have numbers."""

    def __init__(self):
        self.lines = []
        self.last = 0

    def level(self, rows):
        """Tells the nodes with these deltas and children, all of one height, and gives their numbers in the order of `rows`."""
        texts = []
        for deltas, children in rows:
            told = ",".join(f"{letter}={node}" for letter, node in sorted(children, key=lambda child: PLACE[child[0]]))
            texts.append(f"node {','.join(deltas) or '-'} {told or '-'}")
        number = {text: len(self.lines) + place for place, text in enumerate(sorted(set(texts)))}
        self.lines += sorted(number)
        return [number[text] for text in texts]

    def text(self, root):
        return "".join(["slx 2\n", HEAD, *(f"{line}\n" for line in self.lines), f"root word {root}\n", "end\n"])


def words(length, letters=REST):
    return ("".join(word) for word in product(letters, repeat=length))


def rising(deltas):
    """The texts of deltas, rising by cut, appended letters and tag."""
    return [f"{cut}:{put}:{tag}" for cut, put, tag in sorted(deltas, key=lambda it: (it[0], [PLACE[x] for x in it[1]], it[2]))]


def grouped(nodes):
    """The children of as few parents as there may be of these nodes."""
    for start in range(0, len(nodes), len(REST)):
        yield list(zip(REST, nodes[start:start + len(REST)]))


def few_nodes():
    trie = Trie()
    node, = trie.level([(rising([(0, "", "ind")]), [])])
    for count in (40, 6, 50, 50):
        node, = trie.level([([], [(letter, node) for letter in LETTERS[:count]])])
    return trie.text(node)


def with_chains(trie, nodes, height):
    """The text of a trie whose root has the greatest height, with chains of single children down to these nodes, which are of one height."""
    above = 1
    while len(REST) ** above < len(nodes):
        above += 1
    for _ in range(MOST_LETTERS - height - above):
        nodes = trie.level([([], [(REST[0], node)]) for node in nodes])
    for _ in range(above):
        nodes = trie.level([([], children) for children in grouped(nodes)])
    return trie.text(nodes[0])


def many_deltas():
    trie = Trie()
    count = MOST_PAIRS // MOST_LETTERS
    rows = [(rising([(cut, (PUT + end + REST[0] * 26)[:cut], "ind") for cut in range(1, 65)]), []) for end in islice(words(3), count)]
    return with_chains(trie, trie.level(rows), 0)


def one_node():
    trie = Trie()
    cuts = range(5, 65)
    nodes = trie.level([(rising([(cut, PUT + end, "ind") for end in islice(words(4), MOST_PAIRS // len(cuts)) for cut in cuts]), [])])
    return with_chains(trie, nodes, 0)


def most_nodes():
    # A node with a child on a chain has a line of 17 bytes, and most nodes are such.
    count = MOST_BYTES // 17 // (MOST_LETTERS - 6)
    while True:
        trie = Trie()
        cuts = range(64, 64 - MOST_PAIRS // count, -1)
        nodes = trie.level([(rising([(cut, PUT, "ind") for cut in cuts]), [])])
        for above in (2, 1, 0):
            nodes = trie.level([([], [(letter, node)]) for node in nodes for letter in REST][:-(-count // len(REST) ** above)])
        text = with_chains(trie, nodes, 3)
        if len(text) <= MOST_BYTES:
            return text
        count -= max(1, (len(text) - MOST_BYTES) // 1_000)


def most_forms():
    order = sorted("".join(word) for word in islice(product("aAiIuUfFxe", repeat=8), MOST_PAIRS))
    order.sort(key=lambda form: [PLACE[letter] for letter in form])
    return "".join(["slx 1\n", HEAD, *(f"form word {form} {form} ind\n" for form in order), "end\n"])


def main():
    folder = Path(sys.argv[1])
    for make in (few_nodes, many_deltas, one_node, most_nodes, most_forms):
        text = make()
        (folder / f"{make.__name__}.lex").write_text(text)
        print(f"{make.__name__}.lex: {len(text):,} bytes, {text.count(chr(10)):,} lines", flush=True)


if __name__ == "__main__":
    main()
