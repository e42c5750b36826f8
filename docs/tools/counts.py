"""Counts and lists: what the documents count is as many in the tree, and a table that lists what the code has lists all of it."""

import csv
import re

NUMBER = r"(\d[\d,]*)"
LIST = re.compile(r"<!-- lists: (.+?) -->$")

# Documents in which a number of four digits or more is a limit, the first number past one, or a count of the tree.
EXACT = {"README.md", "docs/FORMATS.md", "docs/GUIDE.md"}


def facts(tree):
    """Sentences with a count: the document, the sentence with its numbers left open, and the numbers."""
    starter = "lexicons/starter/"
    tables, stems = records(tree, starter + "tables.csv"), records(tree, starter + "stems.csv")
    readings = sum(1 for line in tree.text(starter + "readings/readings.tsv").splitlines() if line and not line.startswith("#"))
    forms = int(re.search(r"\$ \./sandhi build lexicons/starter/.*\nforms (\d+)", tree.text("docs/GUIDE.md"))[1])
    groups = [part for part in tree.text("docs/ARCHITECTURE.md").split("\n## ") if "\n### `" in part]
    return [
        ("docs/ARCHITECTURE.md", f"The {NUMBER} crates fall into {NUMBER} groups", [len(tree.listed), len(groups)]),
        ("README.md", f"{NUMBER} stem records", [len(stems)]),
        ("README.md", f"{NUMBER} lines of old texts", [readings]),
        ("README.md", f"{NUMBER} pairs of a form and an analysis", [forms]),
        (starter + "README.md", f"table records \\| {NUMBER}", [len(tables)]),
        (starter + "README.md", f"stem records, different stems \\| {NUMBER}, {NUMBER}", [len(stems), len({stem[0] for stem in stems})]),
        (starter + "README.md", f"pairs of a form and an analysis \\| {NUMBER}", [forms]),
        (starter + "README.md", f"readings \\| {NUMBER}", [readings]),
    ]


def records(tree, path):
    with open(tree.root / path, encoding="utf-8", newline="") as file:
        return [record for record in csv.reader(file) if record]


def check_facts(tree, documents):
    by_name = {document.name: document for document in documents}
    for name, pattern, values in facts(tree):
        text = "\n".join(by_name[name].lines)
        found = re.search(pattern.replace(" ", r"\s+"), text)
        wanted = [f"{value:,}" for value in values]
        if not found:
            yield name, 1, f"no sentence says how many: {pattern}"
        elif list(found.groups()) != wanted:
            yield name, text.count("\n", 0, found.start()) + 1, f"`{' '.join(found[0].split())}`, but there are {', '.join(wanted)}"


def check_numbers(tree, documents):
    """Numbers of four digits or more, written with commas, are limits or counts that are known."""
    values = {value for _, _, value in tree.limits()}
    known = values | {value + 1 for value in values} | {value for _, _, values in facts(tree) for value in values}
    for document in documents:
        if document.name in EXACT:
            for line, text in enumerate(document.lines, 1):
                for number in re.findall(r"\d{1,3}(?:,\d{3})+", text):
                    if int(number.replace(",", "")) not in known:
                        yield document.name, line, f"{number} is no limit and no count of the tree"


def check_lists(tree, documents):
    """The table after a mark `<!-- lists: WHAT -->` has in its first column what the mark says, in order and nothing else."""
    for document in documents:
        for number, line in enumerate(document.lines, 1):
            mark = LIST.match(line)
            if mark:
                told = first_words(document, number)
                wanted = list_of(tree, mark[1])
                if told != wanted:
                    missing = [word for word in wanted if word not in told] or [word for word in told if word not in wanted]
                    yield document.name, number, f"the table does not list {mark[1]}: see {', '.join(missing) or 'the order'}"


def first_words(document, number):
    """The word in backticks, or the number, with which each row of the table that follows a line begins."""
    rows = []
    for block in document.blocks:
        if block.line > number and block.is_row() and (not rows or block.line == rows[-1].line + 1):
            rows.append(block)
    found = [re.match(r"`?(\d+|(?<=`)[^` ]+)", row.cells()[0]) for row in rows]
    return [word[1] for word in found if word]


def list_of(tree, what):
    """What a mark names: commands, words of a session, exit statuses, files of worked rows, or the variants of an enum."""
    if what == "commands":
        return tree.commands()
    if what == "session words":
        return tree.session_words()
    if what == "exit statuses":
        return tree.exit_statuses()
    if what == "worked rows":
        return sorted(str(path.relative_to(tree.root)) for path in tree.root.glob("worked/rows/*"))
    return tree.variants(what)


def check_commands(tree, document):
    """The first page has a heading for each command, and for no others."""
    headings = dict.fromkeys(block.headings[2] for block in document.blocks if "The commands" in block.headings and len(block.headings) == 3)
    told = [heading[1:].split()[0].strip("`") for heading in headings if heading.startswith("`")]
    if told != tree.commands():
        yield document.name, 1, f"the headings of commands are {', '.join(told)}"


def check_limits(tree, document):
    """The page of formats has a row for each limit, with its value and its crate."""
    rows = [block.text for block in document.blocks if block.is_row()]
    for constant, crate, value in tree.limits():
        row = next((row for row in rows if f"| `{constant}` |" in row), None)
        if row is None:
            yield document.name, 1, f"no row has the limit `{constant}`"
        elif f"| {value:,} " not in row or f"| `{crate}` |" not in row:
            yield document.name, document.lines.index(row) + 1, f"`{constant}` is {value:,}, in `{crate}`"
