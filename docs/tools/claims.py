#!/usr/bin/env python3
"""The definitions on which the claim of each command rests, as lists in docs/CLAIMS.md.

    docs/tools/claims.py            says which lists are not those of the tree; the exit status is 1 where there is one, and else 0
    docs/tools/claims.py --write    writes the lists anew

A list begins with the definitions that the command's public law names (or the clauses of `run`), and follows what these cite, from file
to file by the imports, until nothing is new. A file is listed with its lines, and with the lines of those of its definitions that are
cited, where these are not all."""

import re
import sys
from pathlib import Path

ROOT = Path(__file__).resolve().parent.parent.parent
PAGE = "docs/CLAIMS.md"
MADE = re.compile(r"(<!-- made: definitions of ([a-z ]+) -->\n).*?(<!-- end -->)", re.DOTALL)

IMPORT = re.compile(r"^(pub )?use Rattle\.(\w+)\.specs\.([\w.]+?)(?:\.\{([^}]*)\}| as (\w+))$", re.MULTILINE)
HEAD = re.compile(r"^(?:(?:abbrev|unfoldable|opaque|pub|record|data) )*([^\W\d][\w'-]*)")
CONSTRUCTOR = re.compile(r"^  (?:pub )?([^\W\d][\w'-]*)(?: [^\W\d][\w'-]*)* :", re.MULTILINE)
WORD = re.compile(r"[^\W\d][\w'-]*(?:\.[^\W\d][\w'-]*)*")
CONSTANTS = "declared.limits.TheConstants"

RUN = "run_definitions"
PROGRAM = "commands"
LISTS = {
    "segment": [(RUN, "SegmentOutcomes", "IsSegmentRun")],
    "check": [(RUN, "CheckOutcomes", "IsCheckRun")],
    "build": [(RUN, "BuildOutcomes", "IsBuildRun")],
    "read": [(RUN, "ReadOutcomes", "IsReadRun"), (RUN, "ReadOutcomes", "IsReadSoFar"), (RUN, "ReadOutcomes", "IsToldWhereServed")],
    "batch": [(RUN, "BatchOutcomes", "IsBatchRun"), (RUN, "BatchOutcomes", "IsBatchSoFar")],
    "demo": [(RUN, "DemoOutcomes", "IsDemoRun")],
    "convert": [(RUN, "ConvertOutcomes", "IsConvertRun")],
    "join": [(RUN, "JoinOutcomes", "IsJoinRun")],
    "split": [(RUN, "SplitOutcomes", "IsSplitRun")],
    "annotate": [(RUN, "AnnotateOutcomes", "IsAnnotateRun")],
    "reread": [(RUN, "RereadOutcomes", "IsRereadRun")],
    "migrate": [(RUN, "MigrateOutcomes", "IsMigrateRun")],
    "the headline": [
        (PROGRAM, "Headline", "WroteAll"),
        (PROGRAM, "Headline", "WrotePrefix"),
        (PROGRAM, "Headline", "IsNoFault"),
        (PROGRAM, "Headline", "MayEndNoCommand"),
        ("outside", "Counts", "Rose"),
        ("outside", "Files", "told_without"),
    ],
    "the faults": [(PROGRAM, "Faults", "TellsEnd")],
    "the other clauses": [
        (PROGRAM, "ReadFaults", "ReadsFailed"),
        (PROGRAM, "ReadFaults", "LacksFile"),
        (PROGRAM, "RepliedSoFar", "IsRepliedTo"),
        (RUN, "Commands", "WriteNoFile"),
        (RUN, "Commands", "ReadNoFile"),
        (RUN, "Commands", "DoReadInput"),
    ],
}


class Definition:
    """A definition with all its lines, and the words that it cites."""

    def __init__(self, name):
        self.name = name
        self.lines = []

    def words(self):
        code = "\n".join(line for line in self.lines if not line.lstrip().startswith("--"))
        return set(WORD.findall(re.sub(r'"[^"]*"', "", code)))


class File:
    """A file of definitions: what it defines by name, and from where it has other names."""

    def __init__(self, path):
        text = path.read_text(encoding="utf-8")
        self.count = len(text.splitlines())
        self.path = path
        self.defined = {}
        self.imported = {}
        self.modules = {}
        for found in IMPORT.finditer(text):
            _, crate, module, names, alias = found.groups()
            if alias:
                self.modules[alias] = (crate, module)
            for name in filter(None, (names or "").split(", ")):
                first, _, other = name.partition(" as ")
                self.imported[other or first] = (crate, module, first)
        self._read(text.splitlines())

    def _read(self, lines):
        current, comment = None, []
        for line in lines:
            if line.startswith(("use ", "pub use ", "pub mod ")):
                continue
            if line.startswith("--"):
                comment.append(line)
            elif head := HEAD.match(line):
                name = head[1]
                if current is None or current.name != name:
                    current = self.defined.setdefault(name, Definition(name))
                    current.lines += comment
                current.lines.append(line)
                comment = []
            elif line.strip() and current is not None:
                current.lines.append(line)
        for definition in list(self.defined.values()):
            if re.match(r"(?:pub )?data ", next(line for line in definition.lines if not line.startswith("--"))):
                for found in CONSTRUCTOR.finditer("\n".join(definition.lines)):
                    self.defined.setdefault(found[1], definition)


class Definitions:
    """All definitions of the repository, by crate and file."""

    def __init__(self, root):
        self.crates = root / "crates"
        self.files = {}

    def file(self, crate, module):
        """The file of definitions, where it is one of the repository's."""
        if (crate, module) not in self.files:
            path = self.crates / crate / "specs" / (module.replace(".", "/") + ".antt")
            self.files[crate, module] = File(path) if path.exists() else None
        return self.files[crate, module]

    def find(self, crate, module, name):
        """Where the name is defined: the crate, the file and the definition; a limit or a type of the program; or None where the
        toolchain defines it."""
        file = self.file(crate, module)
        if file is None:
            if not (self.crates / crate / "src").is_dir():
                return None
            if module == CONSTANTS:
                return crate, CONSTANTS, name
            return crate, "declared", self._source(crate, module)
        if name in file.defined:
            return crate, module, file.defined[name].name
        if name in file.imported:
            return self.find(*file.imported[name])
        return None

    def _source(self, crate, module):
        """The source file that declares a type of the program."""
        parts = module.split(".")[1:]
        for count in range(len(parts), 0, -1):
            path = self.crates / crate / "src" / ("/".join(parts[:count]) + ".rt")
            if path.exists():
                return str(path.relative_to(self.crates))
        raise SystemExit(f"no source file declares {crate} {module}")

    def cited(self, crate, module, name):
        """What a definition cites."""
        file = self.file(crate, module)
        for word in file.defined[name].words():
            first, _, rest = word.partition(".")
            if first in file.modules and rest:
                yield self.find(*file.modules[first], rest.split(".")[0])
            elif first in file.defined:
                yield crate, module, file.defined[first].name
            elif first in file.imported:
                yield self.find(*file.imported[first])

    def closure(self, starts):
        """All that the definitions rest on."""
        found, open_ones = set(), []
        for start in starts:
            if self.find(*start) is None or self.find(*start)[2] != start[2]:
                raise SystemExit(f"{start[0]}/specs/{start[1]}.antt does not define {start[2]}")
            open_ones.append(start)
        while open_ones:
            one = open_ones.pop()
            if one in found:
                continue
            found.add(one)
            if one[1] not in (CONSTANTS, "declared"):
                open_ones += [other for other in self.cited(*one) if other is not None]
        return found


def order_of_crates(root):
    lines = (root / "crates.txt").read_text(encoding="utf-8").splitlines()
    return [line.partition(":")[0].strip() for line in lines if line.partition("#")[0].strip()]


def table(root, definitions, starts):
    """The list of the files that the definitions rest on, a row a crate, highest first."""
    found = definitions.closure(starts)
    files, limits, types = {}, set(), set()
    for crate, module, name in found:
        if module == CONSTANTS:
            limits.add((crate, name))
        elif module == "declared":
            types.add(name)
        else:
            files.setdefault((crate, module), set()).add(name)
    order = order_of_crates(root)
    lines, whole, needed = ["| Crate | Files in `specs`, with their lines |", "|---|---|"], 0, 0
    for crate in sorted({crate for crate, _ in files}, key=order.index, reverse=True):
        cells = []
        for module in sorted(module for other, module in files if other == crate):
            file = definitions.file(crate, module)
            cited = sum(len(file.defined[name].lines) for name in files[crate, module])
            all_lines = sum(len(definition.lines) for definition in set(file.defined.values()))
            cells.append(f"`{module}` {file.count}" + (f" (cited: {cited})" if cited < all_lines else ""))
            whole += file.count
            needed += cited
        lines.append(f"| `{crate}` | {', '.join(cells)} |")
    lines += ["", f"These are {len(files)} files of {whole:,} lines; the definitions that are cited have {needed:,} of them."]
    if limits:
        named = ", ".join(f"`{name}`" for _, name in sorted(limits, key=lambda limit: (order.index(limit[0]), limit[1])))
        lines.append(f"The limits in them, each a named constant of its crate, are {named}.")
    if types:
        lines.append("The types of the program that they name stand in " + ", ".join(f"`{path}`" for path in sorted(types)) + ".")
    return "\n".join(line if line.startswith("|") or not line else line for line in lines) + "\n"


def remake(root, text):
    """The page with its lists as they are to be."""
    definitions = Definitions(root)
    return MADE.sub(lambda found: found[1] + "\n" + table(root, definitions, LISTS[found[2]]) + "\n" + found[3], text)


def main(words):
    if words not in ([], ["--write"]):
        print(__doc__)
        return 2
    path = ROOT / PAGE
    text = path.read_text(encoding="utf-8")
    missing = [name for name in LISTS if f"<!-- made: definitions of {name} -->" not in text]
    for name in missing:
        print(f"{PAGE}:1: there is no list of the definitions of {name}")
    made = remake(ROOT, text)
    if made == text:
        return 1 if missing else 0
    if words == ["--write"]:
        path.write_text(made, encoding="utf-8")
        print(f"{PAGE} is written anew")
        return 1 if missing else 0
    for line, (old, new) in enumerate(zip(text.splitlines(), made.splitlines()), 1):
        if old != new:
            print(f"{PAGE}:{line}: this list is another now: run docs/tools/claims.py --write")
            break
    return 1


if __name__ == "__main__":
    sys.exit(main(sys.argv[1:]))
