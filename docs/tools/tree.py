"""What is in the repository: its crates, what each declares, and what it may use."""

import re

WORD = re.compile(r"[^\W\d][\w'-]*")

# What begins a declaration in code: an item, a clause of a contract, a variant or a field; and in specs and proofs: a definition, a
# lemma, a constructor or a field.
CODE = re.compile(
    r"^\s*(?:pub(?:\([a-z]+\))? )?(?:unsafe )?(?:fn|struct|enum|union|trait|type|const|static|mod) (\w+)"
    r"|^\s*(?:ensures|requires) (\w+) \{"
    r"|^    ([A-Z]\w*)(?=[,(]| [{=])"
    r"|^\s+(?:pub(?:\([a-z]+\))? )?(?:ghost )?([a-z]\w*)(?=: )"
    r"|^\s*ghost fn (\w+)"
    r"|^\s*#\[cycle\((\w+)\)\]",
    re.MULTILINE,
)
LOGIC = re.compile(r"^\s*(?:(?:pub|abbrev|unfoldable|opaque|record|data|module) )*([^\W\d][\w'-]*)(?= ?[:({]| where)", re.MULTILINE)
SCRIPTS = {".css", ".html", ".js", ".py", ".sh"}
CONSTANT = re.compile(r"^pub const (\w+): \w+ = ([\d_]+);", re.MULTILINE)
VARIANTS = r"^pub enum {}\b[^{{]*\{{\n(.*?)^\}}"


class Crate:
    """One crate: its folder, what each of its files declares, and all words in them."""

    def __init__(self, folder):
        self.name = folder.name
        self.folder = folder
        self.declared = {}
        self.mentioned = set()
        for path in sorted(folder.rglob("*")):
            if path.suffix in (".rt", ".antt") and "out" not in path.relative_to(folder).parts:
                self._read(path)
        self.names = set().union(*self.declared.values(), *(self._path_names(path) for path in self.declared))

    def _read(self, path):
        text = path.read_text(encoding="utf-8")
        pattern = CODE if path.suffix == ".rt" else LOGIC
        self.declared[path] = {name for found in pattern.finditer(text) for name in found.groups() if name}
        self.mentioned.update(WORD.findall(text))

    def _path_names(self, path):
        parts = path.relative_to(self.folder).parts
        return {part.removeprefix("+").partition(".")[0] for part in parts}

    def files(self, name):
        """The files of the crate with this file name or stem."""
        return [path for path in self.declared if name in (path.name, path.stem)]


class Tree:
    """The whole repository."""

    def __init__(self, root):
        self.root = root
        self.listed = self._read_list()
        folders = sorted(folder.parent for folder in (root / "crates").glob("*/src"))
        self.crates = {folder.name: Crate(folder) for folder in folders}
        self.libraries = {used for uses in self.listed.values() for used in uses} - set(self.listed)
        self.names = set().union(*(crate.names for crate in self.crates.values()))
        self.mentioned = set().union(*(crate.mentioned for crate in self.crates.values()), self._words_of_scripts())

    def _read_list(self):
        """The crates of crates.txt, each with those that it may use, in the order of the file."""
        listed = {}
        for line in (self.root / "crates.txt").read_text().splitlines():
            name, _, uses = line.partition("#")[0].partition(":")
            if name.strip():
                listed[name.strip()] = uses.split()
        return listed

    def _words_of_scripts(self):
        """All words in the scripts and pages beside the crates and in the worked rows, with the names of their files."""
        folders = [folder for folder in self.root.glob("*/") if folder.name not in ("crates", ".git")]
        paths = [path for folder in folders for path in folder.rglob("*") if path.suffix in SCRIPTS]
        paths += sorted((self.root / "worked" / "rows").glob("*.json"))
        paths += [path for path in [*self.root.glob("*"), *self.root.glob(".ci/*")] if path.is_file() and not path.suffix]
        return {word for path in paths for word in [path.stem, *WORD.findall(path.read_text(encoding="utf-8"))]}

    def text(self, path):
        return (self.root / path).read_text(encoding="utf-8")

    def above(self, name):
        """The crates that stand on the crate, directly or not, in the order of crates.txt."""
        found, more = set(), {name}
        while more:
            found |= more
            more = {other for other, uses in self.listed.items() if found.intersection(uses)} - found
        return [other for other in self.listed if other in found and other != name]

    def limits(self):
        """The named limits: constant, crate and value."""
        return [
            (found[1], crate.name, int(found[2].replace("_", "")))
            for crate in self.crates.values()
            if (crate.folder / "src/limits.rt").exists()
            for found in CONSTANT.finditer((crate.folder / "src/limits.rt").read_text())
        ]

    def code(self, only=""):
        """The text of each source file of the program, or of one crate."""
        for crate in [self.crates[only]] if only else self.crates.values():
            for path in crate.declared:
                if path.suffix == ".rt":
                    yield path.read_text(encoding="utf-8")

    def variants(self, enum):
        """The variants of a public enum, in their order; none where there is no such enum. It is told by its name, or as `NAME of CRATE`
        where several crates have one with this name."""
        name, _, crate = enum.partition(" of ")
        pattern = re.compile(VARIANTS.format(name), re.MULTILINE | re.DOTALL)
        bodies = [found[1] for text in self.code(crate) if (found := pattern.search(text))]
        return re.findall(r"^    (\w+)", bodies[0], re.MULTILINE) if bodies else []

    def commands(self):
        """The commands of the program, as they are written."""
        return [name.lower() for name in self.variants("Command")]

    def exit_statuses(self):
        """The exit statuses of the program, in the order of its variants of Status."""
        return [number for text in self.code() for number in re.findall(r"^            Status::\w+(?: \{ \.\. \})? => (\d+),$", text, re.MULTILINE)]

    def session_words(self):
        """The words of a session, in the order in which they are tried."""
        return [word for text in self.code() for word in re.findall(r'is_word\(word, b"([a-z]+)"\)', text)]
