#!/usr/bin/env python3
"""Lists the forms of a lexicon file, or writes its text in another version.

    recipes/lexicon_text.py forms LEX
    recipes/lexicon_text.py first LEX >FIRST
    recipes/lexicon_text.py newest LEX >NEWEST

LEX is a lexicon file of any version, which docs/FORMATS.md describes. `forms` writes a line for each form with its stem and its tag, as
they stand in version 1. `first` writes the whole text of version 1; a lexicon with a limited rule has none. `newest` writes what
`migrate` writes. The program is not asked: the file is read here, line by line, so that this script may be held against the program too.
A file with a fault is refused as the program refuses it, on standard error: the status is then 1, as where a text is wanted that the
lexicon has not. It is 2 where the words of the command line are others."""

import os
import sys

from lexicon_file import MOST_BYTES, Fault, deltas_of, read, spelled, stem_by


def front_lines(lexicon, version):
    yield b"slx %d" % version
    yield from (b"phase " + name for name in lexicon.phases)
    yield b"grammar " + lexicon.grammar
    yield from (b"plain %s %s" % (spelled([x]), spelled([y])) for x, y in lexicon.plain)
    for u, v, w, before, after in lexicon.rules:
        line = b"rule %s|%s>%s" % (spelled(u), spelled(v), spelled(w))
        limits = b" %s %s" % (set_text(lexicon, before), set_text(lexicon, after) if v else b"-")
        yield line + (limits if version == 3 else b"")


def set_text(lexicon, numbers):
    if numbers == lexicon.every_phase():
        return b"*"
    return b",".join(lexicon.phases[number] for number in sorted(numbers))


def entries_of(lexicon):
    """The entries of all phases, rising: those that were told, or those for which the trie stands."""
    if not lexicon.nodes:
        return lexicon.entries
    entries = []
    for phase, root in enumerate(lexicon.roots):
        entries += sorted((phase, form, stem_by(form, delta), delta[2]) for form, delta in deltas_of(lexicon, root))
    return entries


def form_lines(lexicon):
    """A line for each form and each of its analyses, as in version 1."""
    for phase, form, stem, tag in entries_of(lexicon):
        yield b"form %s %s %s %s" % (lexicon.phases[phase], spelled(form), spelled(stem), tag)


def first_text(lexicon):
    """The text of version 1, for a lexicon without limited rules."""
    return text_of([*front_lines(lexicon, 1), *form_lines(lexicon), b"end"])


def newest_text(lexicon):
    """The text of version 3 where a rule is limited, and else that of version 2."""
    nodes, roots = ordered_trie(*(lexicon.nodes, lexicon.roots) if lexicon.nodes else trie_of(lexicon))
    lines = list(front_lines(lexicon, 3 if lexicon.is_limited() else 2))
    lines += [node_line(*node) for node in nodes]
    lines += [b"root %s %d" % (name, root) for name, root in zip(lexicon.phases, roots)]
    return text_of([*lines, b"end"])


def text_of(lines):
    return b"".join(line + b"\n" for line in lines)


def node_line(deltas, children):
    told_deltas = b",".join(b"%d:%s:%s" % (cut, spelled(append), tag) for cut, append, tag in deltas)
    told_children = b",".join(b"%s=%d" % (spelled([letter]), node) for letter, node in children)
    return b"node %s %s" % (told_deltas or b"-", told_children or b"-")


def trie_of(lexicon):
    """The different nodes for the entries of a lexicon, each after its children, and the root of each phase."""
    numbers, roots = {}, []
    forms = [{} for _ in lexicon.phases]
    for phase, form, stem, tag in lexicon.entries:
        cut = len(form) - len(os.path.commonprefix([form, stem]))
        forms[phase].setdefault(form, []).append((cut, stem[len(form) - cut :], tag))
    for told in forms:
        open_nodes = [([], [])]  # the nodes on the way to the last form: their deltas, and their children but the last
        path = b""
        for form, deltas in told.items():
            close_nodes(open_nodes, path, len(os.path.commonprefix([path, form])), numbers)
            open_nodes += [([], []) for _ in range(len(form) + 1 - len(open_nodes))]
            open_nodes[-1][0].extend(sorted(deltas))
            path = form
        close_nodes(open_nodes, path, 0, numbers)
        roots.append(number_in(numbers, open_nodes[0]))
    return list(numbers), roots


def close_nodes(open_nodes, path, depth, numbers):
    """Numbers the open nodes below a depth, the lowest first, and puts each under its parent."""
    while len(open_nodes) > depth + 1:
        node = number_in(numbers, open_nodes.pop())
        open_nodes[-1][1].append((path[len(open_nodes) - 1], node))


def number_in(numbers, node):
    key = tuple(node[0]), tuple(node[1])
    return numbers.setdefault(key, len(numbers))


def ordered_trie(nodes, roots):
    """The nodes by height and then by the bytes of their lines, each with its children's new numbers; and the roots' new numbers."""
    heights = []
    for _, children in nodes:
        heights.append(1 + max(heights[node] for _, node in children) if children else 0)
    levels = [[] for _ in range(max(heights, default=0) + 1)]
    for number, height in enumerate(heights):
        levels[height].append(number)
    renumbered, ordered = {}, []
    for level in levels:
        rows = {number: (nodes[number][0], tuple((letter, renumbered[node]) for letter, node in nodes[number][1])) for number in level}
        for number in sorted(level, key=lambda number: node_line(*rows[number])):
            renumbered[number] = len(ordered)
            ordered.append(rows[number])
    return ordered, [renumbered[root] for root in roots]


def main(words):
    writers = {"forms": lambda lexicon: text_of(form_lines(lexicon)), "first": first_text, "newest": newest_text}
    if len(words) != 2 or words[0] not in writers:
        sys.stderr.write(__doc__ + "\n")
        return 2
    wanted, name = words
    try:
        with open(name, "rb") as file:
            lexicon = read(file.read(MOST_BYTES + 1))
    except (OSError, Fault) as fault:
        sys.stderr.write(f"lexicon_text: {name}: {fault}\n")
        return 1
    if wanted == "first" and lexicon.is_limited():
        sys.stderr.write(f"lexicon_text: {name}: version 1 has no limited rules\n")
        return 1
    sys.stdout.buffer.write(writers[wanted](lexicon))
    sys.stdout.flush()
    return 0


if __name__ == "__main__":
    sys.exit(main(sys.argv[1:]))
