"""The lexicons that the page reads with: one of the reader's own, or the starter lexicon and its twin."""

import csv
import hashlib
import json
import os
import subprocess
import tempfile
import threading
import tomllib
from pathlib import Path

from readings import KeptReadings
from reader import Reader

SOURCES = ("rules.toml", "tables.csv", "stems.csv")
MADE_AS = "slx 2"  # a lexicon that was made before `build` wrote tries is read as well, but later, and is made anew
EVERY_LETTER = "aAiIuUfFxeEoOM~HkKgGNcCjJYwWqQRtTdDnpPbBmyrlvSzsh'"
MOST_TABLE_BYTES = 8_000_000  # of roots.csv and of glosses.csv


class CannotBuild(Exception):
    """A lexicon could not be made. Its text says why."""


class Lexicon:
    """A lexicon file with its reader. It is found, or made, when it is first used."""

    def __init__(self, program, name, find, folder):
        self.name = name
        self.folder = Path(folder)
        self.kept = KeptReadings()
        self._program, self._find = program, find
        self._lock = threading.Lock()
        self._path = self._reader = self._phases = None

    def open(self):
        """Makes the file where it is not there, and the reader over it."""
        with self._lock:
            if self._reader is None:
                path = str(self._find())
                self._phases = read_phases(path)
                self._path, self._reader = path, Reader(self._program, path)
        return self

    @property
    def path(self):
        return self.open()._path

    @property
    def reader(self):
        return self.open()._reader

    @property
    def phases(self):
        """The names of its phases, in the order of their numbers."""
        return self.open()._phases

    @property
    def key(self):
        """What a link names the lexicon by: its name and a mark of its phases, whose numbers stand in bookmarks."""
        mark = hashlib.sha256(" ".join(self.phases).encode()).hexdigest()[:6]
        return f"{self.name}-{mark}"

    def answer(self, request):
        return self.reader.answer(request)

    def warm(self):
        """Starts the program, so that the first request finds the file read. This waits for nothing."""
        threading.Thread(target=self.reader.warm, daemon=True).start()

    def close(self):
        if self._reader:
            self._reader.close()


def read_phases(path):
    """The names that the `phase` lines of a lexicon file give. In each version they come next after the first line."""
    names = []
    try:
        with open(path, encoding="utf-8", errors="replace") as file:
            file.readline(100)
            while (line := file.readline(100)).startswith("phase "):
                names.append(line[len("phase ") :].rstrip("\n"))
    except OSError as fault:
        raise CannotBuild(f"{path}: {fault.strerror}") from fault
    return names


def unsplit_rules(rules):
    """A rule file in which all pairs of letters are plain, so that forms may meet without sandhi everywhere."""
    content = tomllib.loads(rules)
    content["plain"] = ["<everyletter> <everyletter>"]
    classes = {**content.pop("classes", {}), "everyletter": EVERY_LETTER}
    lines = [f"{name} = {json.dumps(value, ensure_ascii=False)}" for name, value in content.items()]
    lines += ["[classes]"] + [f"{name} = {json.dumps(letters)}" for name, letters in classes.items()]
    return "\n".join(lines) + "\n"


class Builder:
    """Makes lexicon files of source files, each once, in a folder of its own."""

    def __init__(self, program, folder, tell=lambda words: None):
        self._program, self._folder, self._tell = program, Path(folder), tell

    def build(self, name, rules, tables, stems):
        """The path of the lexicon of these three texts. The file is there whole or not at all."""
        sources = (rules, tables, stems)
        digest = hashlib.sha256("\0".join((MADE_AS, *sources)).encode("utf-8")).hexdigest()
        target = self._folder / f"{name}-{digest[:12]}.lex"
        if target.exists():
            return target
        self._tell(f"The lexicon {name} is made, which takes some seconds.")
        self._folder.mkdir(parents=True, exist_ok=True)
        with tempfile.TemporaryDirectory(dir=self._folder, prefix="making-") as room:
            paths = [Path(room) / source for source in SOURCES]
            for path, text in zip(paths, sources):
                path.write_text(text, encoding="utf-8")
            made = Path(room) / "made.lex"
            run_build(self._program, paths, made)
            os.replace(made, target)
        return target


def run_build(program, sources, target):
    built = subprocess.run(
        [program, "build", *map(str, sources), str(target)], capture_output=True, text=True, check=False
    )
    if built.returncode != 0 or not target.exists():
        said = (built.stdout + built.stderr).strip().splitlines()
        raise CannotBuild(f"build ended with status {built.returncode}: {said[0] if said else 'it said nothing'}")


def starter_lexicons(program, sources, cache, tell=lambda words: None):
    """The starter lexicon, and its twin for texts that are written without sandhi between words. `tell` says what is made."""
    sources, builder = Path(sources), Builder(program, cache, tell)

    def texts():
        return [(sources / name).read_text(encoding="utf-8") for name in SOURCES]

    def plain_twin():
        rules, tables, stems = texts()
        return builder.build("starter-without-sandhi", unsplit_rules(rules), tables, stems)

    return (
        Lexicon(program, "starter", lambda: builder.build("starter", *texts()), sources),
        Lexicon(program, "starter-without-sandhi", plain_twin, sources),
    )


def own_lexicon(program, path):
    """The lexicon of a file of the reader's own."""
    path = Path(path).resolve()
    return Lexicon(program, path.name, lambda: path, path.parent)


class Meanings:
    """Roots and glosses of stems, where the lexicon's folder has `roots.csv` and `glosses.csv`."""

    def __init__(self, folder):
        self.roots = read_table(Path(folder) / "roots.csv")
        self.glosses = read_table(Path(folder) / "glosses.csv")

    def of(self, stem):
        """The roots of a stem, each with which stem of it this is, and its glosses."""
        roots = [" ".join(row[:2]) for row in self.roots.get(stem, ())]
        glosses = [row[1] for row in self.glosses.get(stem, ())]
        return {"roots": list(dict.fromkeys(roots)), "glosses": list(dict.fromkeys(glosses))}


def read_table(path):
    """The rows of a CSV file of three fields by their first field; no rows where the file cannot be read."""
    rows = {}
    try:
        if path.stat().st_size > MOST_TABLE_BYTES:
            return rows
        with path.open(encoding="utf-8", newline="") as file:
            for row in csv.reader(file):
                if len(row) == 3:
                    rows.setdefault(row[0], []).append(row[1:])
    except (OSError, ValueError, csv.Error):
        return {}
    return rows
