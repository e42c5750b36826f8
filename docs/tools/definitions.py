"""The page of definitions: each name is declared in the module that its row names, and no module of a room of definitions is left out."""

import re

from tools.names import BEGINNING, listed


def check_definitions(tree, document):
    """In the page of definitions each name of a row's second column is declared in a module with which the row begins, or the row
    above it where it begins with none; and each module of a room of definitions begins a row."""
    told = set()
    for block, crate, modules in rows_of_definitions(tree, document):
        if crate is None:
            yield document.name, block.line, "the row is of no crate"
            continue
        told.update((crate.name, module) for module in modules)
        for name in re.findall(r"`([^`]+)`", block.cells()[1]):
            if name not in declared_in(crate, modules):
                yield document.name, block.line, f"`{name}` is not in {listed([crate.name, *modules])}"
    for room in rooms_of_definitions(tree, document):
        for path in sorted((room.folder / "specs").glob("[A-Z]*.antt")):
            if path.stem != "Lib" and (room.name, path.stem) not in told:
                yield document.name, 1, f"no row begins with `{path.stem}` of `{room.name}`"


def rows_of_definitions(tree, document):
    """The rows that tell definitions, each with its crate and its modules."""
    crate, modules = None, []
    for block in document.blocks:
        if not block.is_row():
            crate, modules = room_of(tree, block), []
            continue
        cells = block.cells()
        if cells[0] == "In words" or cells[0].startswith("---"):
            continue
        begun = BEGINNING.match(cells[0])
        if begun[0] and cells[0][begun.end() :].startswith(". "):
            words = re.findall(r"`(\w+)`", begun[0])
            crates = [tree.crates[word] for word in words if word in tree.crates]
            crate, modules = (crates or [crate])[0], [word for word in words if word not in tree.crates]
        yield block, crate, modules


def declared_in(crate, modules):
    """What these modules of the crate declare, or the whole crate where none is named."""
    files = [path for module in modules for path in crate.files(module)]
    return set().union(*(crate.declared[path] for path in files)) if modules else crate.names


def room_of(tree, block):
    """The crate whose name is the heading."""
    return tree.crates.get(block.text.strip("`")) if block.headings and block.headings[-1] == block.text else None


def rooms_of_definitions(tree, document):
    """The crates that the page has a heading for, and all that are named as rooms of definitions are."""
    headed = {room_of(tree, block) for block in document.blocks} - {None}
    return [crate for crate in tree.crates.values() if crate in headed or crate.name.endswith("_definitions")]
