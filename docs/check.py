#!/usr/bin/env python3
"""Checks that the documents say what is in the tree.

    docs/check.py [PROGRAM]     checks names, counts, lists, links and made tables, and runs the examples with the program
    docs/check.py --write       writes what is made of crates.txt anew, and then checks

Each complaint is a line FILE:LINE: TEXT. The exit status is 0 where there is none, and else 1. Without a program the examples are not
run, and a line says so."""

import sys
from pathlib import Path

from tools.counts import check_commands, check_facts, check_limits, check_lists, check_numbers
from tools.definitions import check_definitions
from tools.documents import Document
from tools.examples import check_examples
from tools.links import check_links, check_listed
from tools.made import check_made, check_sections, write_made
from tools.names import check_names
from tools.tree import Tree

ROOT = Path(__file__).resolve().parent.parent
PAGES = ("*.md", "[!.]*/*.md", "lexicons/*/*.md")
WITH_EXAMPLES = ("README.md", "docs/GUIDE.md")


def read_documents():
    """The documents of the repository: the first page, those of its folders, and those of the lexicons."""
    return [Document(ROOT, path) for pages in PAGES for path in sorted(ROOT.glob(pages))]


def complaints(tree, documents):
    """All that is wrong without a program: the document, the line and what it is."""
    by_name = {document.name: document for document in documents}
    yield from check_names(tree, documents)
    yield from check_definitions(tree, by_name["docs/DEFINITIONS.md"])
    yield from check_links(documents)
    yield from check_listed(by_name["README.md"], documents)
    yield from check_made(tree, documents)
    yield from check_sections(tree, by_name["docs/ARCHITECTURE.md"])
    yield from check_facts(tree, documents)
    yield from check_numbers(tree, documents)
    yield from check_lists(tree, documents)
    yield from check_commands(tree, by_name["README.md"])
    yield from check_limits(tree, by_name["docs/FORMATS.md"])


def main(words):
    program = Path(words[0]).resolve() if words and not words[0].startswith("-") else None
    if len(words) > 1 or words and not program and words != ["--write"] or program and not program.is_file():
        print(__doc__)
        return 2
    tree = Tree(ROOT)
    if words == ["--write"]:
        for name in write_made(tree, read_documents()):
            print(f"{name} is written anew")
    documents = read_documents()
    found = list(complaints(tree, documents))
    if program:
        found += check_examples(tree, [document for document in documents if document.name in WITH_EXAMPLES], str(program))
    else:
        print("the examples were not run: no program was given")
    for name, line, wrong in sorted(found):
        print(f"{name}:{line}: {wrong}")
    return 1 if found else 0


if __name__ == "__main__":
    sys.exit(main(sys.argv[1:]))
