#!/usr/bin/env python3
"""Reads a folder of notes again over a lexicon, and lists those that no longer hold.

    recipes/reread_notes.py LEX FOLDER

Each file of the folder whose name does not begin with `.` is read by `reread`, several at once. Each note that is refused is told in a
line with the reason, in the order of their names, and the last line counts. The status is 0 where all notes hold and 1 where one is
refused. It is 2 where the words of the command line are others or the folder can't be read. Where a run ends in another way, as where
the lexicon is refused, what it wrote is told on standard error, nothing is listed, and its status is that of the script. SANDHI may name another
program than ./sandhi of this folder."""

import os
import subprocess
import sys
from collections import Counter
from concurrent.futures import ThreadPoolExecutor
from pathlib import Path

HOLDS, BAD_FILE = 0, 5
REFUSED, BAD_WORDS = 1, 2


class Ended(Exception):
    """A run that ended neither well nor with the refusal of its note: what it wrote, and its status."""

    def __init__(self, written, status):
        super().__init__(written)
        self.status = status


def reason(program, lexicon, note):
    """Why the note is refused over the lexicon, or nothing where it holds."""
    ran = subprocess.run([program, "reread", "--", lexicon, str(note)], capture_output=True, check=False)
    written = ran.stdout.decode("utf-8", "replace")
    before = f"bad file {note}: "
    if ran.returncode == HOLDS:
        return ""
    if ran.returncode == BAD_FILE and written.startswith(before):
        return written.removeprefix(before).strip()
    raise Ended(written + ran.stderr.decode("utf-8", "replace"), ran.returncode)


def reread(program, lexicon, notes):
    """The notes that are refused with their reasons, in the order of the notes."""
    with ThreadPoolExecutor(max_workers=os.cpu_count()) as workers:
        reasons = list(workers.map(lambda note: reason(program, lexicon, note), notes))
    return [(note, why) for note, why in zip(notes, reasons) if why]


def main(words):
    if len(words) != 2:
        print(__doc__, file=sys.stderr)
        return BAD_WORDS
    lexicon, folder = words
    program = os.environ.get("SANDHI", str(Path(__file__).resolve().parent.parent / "sandhi"))
    try:
        notes = sorted(path for path in Path(folder).iterdir() if path.is_file() and not path.name.startswith("."))
        refused = reread(program, lexicon, notes)
    except Ended as ended:
        print(f"reread_notes: a run ended with status {ended.status}: {str(ended).strip()}", file=sys.stderr)
        return ended.status
    except OSError as fault:
        print(f"reread_notes: {fault}", file=sys.stderr)
        return BAD_WORDS
    for note, why in refused:
        print(f"{note}: {why}")
    counts = Counter(why for _, why in refused)
    told = ": " + ", ".join(f"{why} {count}" for why, count in sorted(counts.items())) if refused else ""
    print(f"{len(notes)} notes, {len(refused)} refused{told}")
    return REFUSED if refused else HOLDS


if __name__ == "__main__":
    sys.exit(main(sys.argv[1:]))
