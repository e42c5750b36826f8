"""Tables that are made of crates.txt, which lists the crates and what each may use."""

import re

TABLE = re.compile(r"(<!-- made: what proves again -->\n).*?(<!-- end -->)", re.DOTALL)
SECTION = re.compile(r"(^### `(\w+)`\n(?:(?!#).*\n)*?)\*May use:\* .*\n", re.MULTILINE)


def remake(tree, text):
    """The text with its made parts as they are to be: the table between its marks, and what the crate of each section may use."""
    text = TABLE.sub(lambda found: found[1] + proved_again(tree) + found[2], text)
    return SECTION.sub(lambda found: f"{found[1]}*May use:* {may_use(tree, found[2])}\n", text)


def may_use(tree, name):
    uses = tree.listed.get(name, [])
    return (", ".join(f"`{used}`" for used in uses) or "nothing") + "."


def proved_again(tree):
    """What the gate proves again after a change, fewest first; crates with the same ones share a row."""
    rows = {}
    for name in tree.listed:
        rows.setdefault(tuple(tree.above(name)), []).append(name)
    lines = ["| A change in | Crates | Proves again, besides itself |", "|---|---|---|"]
    for above, names in sorted(rows.items(), key=lambda row: len(row[0])):
        lines.append(f"| {code(names)} | {len(above)} | {shorter(tree, names, above)} |")
    return "\n".join(lines) + "\n"


def shorter(tree, names, above):
    """The crates, or all crates but some where those are fewer."""
    others = [name for name in tree.listed if name not in above and name not in names]
    if len(above) <= len(others) or len(names) > 1:
        return code(above) or "nothing"
    return f"all but {code(others)}" if others else "all others"


def code(names):
    return ", ".join(f"`{name}`" for name in names)


def check_made(tree, documents):
    """Made parts are as they would be made now."""
    for document in documents:
        old = "\n".join(document.lines) + "\n"
        new = remake(tree, old)
        if new != old:
            same = [before == after for before, after in zip(old.splitlines(), new.splitlines())] + [False]
            yield document.name, same.index(False) + 1, "this part is made, and is another now: run docs/check.py --write"


def check_sections(tree, document):
    """The page of crates has a section for each crate, with the line of what it may use."""
    headings = [found[1] for line in document.lines if (found := re.match(r"### `(\w+)`$", line))]
    for name in sorted(set(tree.listed) ^ set(tree.crates)):
        yield "crates.txt", 1, f"`{name}` is in crates.txt or in the folder `crates`, and not in both"
    for name in tree.listed:
        if headings.count(name) != 1:
            yield document.name, 1, f"`{name}` has {headings.count(name)} sections"
    for name in headings:
        if name not in tree.listed:
            yield document.name, 1, f"the section `{name}` is of no crate"
    with_line = {found[2] for found in SECTION.finditer("\n".join(document.lines) + "\n")}
    for name in headings:
        if name not in with_line:
            yield document.name, 1, f"the section `{name}` has no line *May use:*"


def write_made(tree, documents):
    """Writes the made parts anew, and tells which documents changed."""
    for document in documents:
        text = document.path.read_text(encoding="utf-8")
        made = remake(tree, text)
        if made != text:
            document.path.write_text(made, encoding="utf-8")
            yield document.name
