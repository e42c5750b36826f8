"""Links lead somewhere: to a file or folder of the repository, and to a heading of it. All pages are listed in the first one."""

import re


def check_links(documents):
    by_path = {document.path: document for document in documents}
    for document in documents:
        for block in document.blocks:
            for line, target in block.links():
                wrong = fault_of_link(by_path, document, target)
                if wrong:
                    yield document.name, line, wrong


def fault_of_link(by_path, document, target):
    """What is wrong with a link, or None. What leads out of the repository is let pass."""
    if re.match(r"[a-z]+:", target):
        return None
    path, _, anchor = target.partition("#")
    file = (document.path.parent / path).resolve() if path else document.path
    if not file.exists():
        return f"the link {target} leads to no file"
    if anchor and file in by_path and anchor not in by_path[file].anchors:
        return f"the link {target} leads to no heading"
    return None


def check_listed(first, documents):
    """The first page has a row for each page of its folder `docs`."""
    rows = [block.text for block in first.blocks if block.is_row()]
    for document in documents:
        if document.name.startswith("docs/") and not any(row.startswith(f"| `{document.name}`") for row in rows):
            yield first.name, 1, f"no row lists {document.name}"
