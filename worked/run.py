#!/usr/bin/env python3
"""Runs a program over the worked rows and compares what it does with what they say.

    worked/run.py [--migrated] PROGRAM [WORD]    runs all rows, or those whose name has the word in it

Each row is run in a folder of its own that has the row's files and nothing else. Each difference is told in a line; the last line
counts. With --migrated each lexicon file of version 1 goes through `migrate` first, which must write its newest text, and the rows that
have such a file without a fault are run over these texts. The exit status is 0 where there was no difference, and else 1. README.md here
says how a row is written."""

import json
import subprocess
import sys
import tempfile
from pathlib import Path

HERE = Path(__file__).resolve().parent
SECONDS = 60

sys.path.insert(0, str(HERE.parent / "recipes"))
from lexicon_file import Fault, read
from lexicon_text import newest_text


def content(said):
    """The bytes that a row says, in any of the ways in which it may say them."""
    if isinstance(said, str):
        return said.encode()
    if isinstance(said, list):
        return b"".join(line.encode() + b"\n" for line in said)
    if "file" in said:
        return (HERE / "files" / said["file"]).read_bytes()
    if "hex" in said:
        return bytes.fromhex(said["hex"])
    if "repeat" in said:
        return said["repeat"].encode() * said["times"]
    if "newest" in said:
        return newest_text(read(content(said["newest"])))
    return b"".join(content(part) for part in said["join"])


def rows():
    """The rows of all themes, each with its name."""
    for path in sorted((HERE / "rows").glob("*.json")):
        for row in json.loads(path.read_text(encoding="utf-8")):
            yield f"{path.stem}/{row['name']}", row


def files_of(row):
    return {name: content(said) for name, said in row.get("files", {}).items()}


def run(program, words, given, folder):
    return subprocess.run([program, *words], input=given, capture_output=True, cwd=folder, timeout=SECONDS)


def run_row(program, row, files, folder):
    """What differs when the program is run as the row says over these files, in this empty folder."""
    for name, held in files.items():
        (folder / name).write_bytes(held)
    words = [content(word) for word in row["words"]]
    try:
        ran = run(program, words, content(row.get("input", "")), folder)
    except subprocess.TimeoutExpired:
        return [f"it did not end within {SECONDS} seconds"]
    wanted = files | {name: content(said) for name, said in row.get("leaves", {}).items()}
    left = {path.name: path.read_bytes() for path in folder.iterdir()}
    return [
        *([f"the status is {ran.returncode}, not {row.get('status', 0)}"] if ran.returncode != row.get("status", 0) else []),
        *difference("the output", ran.stdout, content(row["output"])),
        *(f"the file {name} is {'not ' if name in wanted else ''}there" for name in sorted(left.keys() ^ wanted.keys())),
        *(text for name in sorted(left.keys() & wanted.keys()) for text in difference(f"the file {name}", left[name], wanted[name])),
    ]


def difference(what, found, wanted):
    """The first line in which the bytes differ, if they do."""
    if found == wanted:
        return []
    lines = zip(found.splitlines(True) + [b""], wanted.splitlines(True) + [b""])
    for number, (new, old) in enumerate(lines, 1):
        if new != old:
            return [f"{what} has in line {number} {new[:100]!r}, not {old[:100]!r}"]
    return [f"{what} goes on otherwise"]


def lexicon_of(held):
    """The lexicon of a file of version 1, or None where the file is none."""
    try:
        return read(held) if held.startswith(b"slx 1\n") else None
    except Fault:
        return None


def migrated(program, lexicon, held, folder):
    """What is written under OUT where the program migrates a file of version 1, and what is wrong with that."""
    (folder / "old").write_bytes(held)
    ran = run(program, ["migrate", "old", "new"], b"", folder)
    out = folder / "new"
    made = out.read_bytes() if out.exists() else b""
    wanted = newest_text(lexicon)
    nodes = b"nodes %d\n" % wanted.count(b"\nnode ")
    wrong = [] if ran.returncode == 0 else [f"the status is {ran.returncode}"]
    return made, [*wrong, *difference("the output", ran.stdout, nodes), *difference("OUT", made, wanted)]


def run_migrated(program, row, folder):
    """What differs when the row is run over files that were migrated; None where it has no file to migrate."""
    files = files_of(row)
    lexicons = {name: lexicon for name, held in files.items() if (lexicon := lexicon_of(held))}
    if not lexicons or row["words"][:1] == ["migrate"]:
        return None
    wrong = []
    for name, lexicon in lexicons.items():
        with tempfile.TemporaryDirectory() as other:
            files[name], found = migrated(program, lexicon, files[name], Path(other))
        wrong += [f"migrate of {name}: {text}" for text in found]
    return wrong or run_row(program, row, files, folder)


def main(words):
    over_migrated = words[:1] == ["--migrated"]
    words = words[1:] if over_migrated else words
    if len(words) not in (1, 2) or words[0].startswith("-"):
        print(__doc__)
        return 2
    program = str(Path(words[0]).resolve())
    count = failed = 0
    for name, row in rows():
        if words[1:] != [] and words[1] not in name:
            continue
        with tempfile.TemporaryDirectory() as folder:
            wrong = run_migrated(program, row, Path(folder)) if over_migrated else run_row(program, row, files_of(row), Path(folder))
        count += wrong is not None
        failed += bool(wrong)
        for text in wrong or ():
            print(f"{name}: {text}")
    print(f"{count} rows, {failed} with a difference")
    return 1 if failed or not count else 0


if __name__ == "__main__":
    sys.exit(main(sys.argv[1:]))
