#!/usr/bin/env python3
"""Tries notes that are cut off or damaged.

    samples/try_notes.py PROGRAM

The note of `worked/files` is cut off after each of its bytes, and each of its bytes is replaced by each of REPLACING. Each such file is
refused with a reason, `Json` just where Python too finds no JSON text in it, or its answer is printed, where it still has the value of
the note."""
import json
from collections import Counter
from concurrent.futures import ThreadPoolExecutor

from trial import SAMPLES, arguments_of, try_all

FILES = SAMPLES.parent / "worked" / "files"
REPLACING = b"\x00\xff \"0A,}"
WHYS = ("Json", "Shape", "Text", "Choice", "NotOnly", "Segments")
ANSWER = b"1: na[word] (a|A>A) Asti[word]\nend\n"


def value_of(note):
    """The JSON value of a note, or None where it is no JSON text."""
    try:
        return json.loads(note.decode("utf-8"))
    except ValueError:
        return None


def damaged(note):
    """Each front of the note, and the note with each byte replaced by each of the others."""
    yield from (note[:count] for count in range(len(note)))
    for place in range(len(note)):
        yield from (note[:place] + bytes((byte,)) + note[place + 1:] for byte in REPLACING if byte != note[place])


class Damaged:
    """Runs over damaged notes, each of which has a file of its own."""

    def __init__(self, trial):
        self.trial = trial
        self.whole = (FILES / "asti.note").read_bytes()

    def reason(self, number, note):
        """Why the note is refused, or nothing; or, in brackets, what is wrong with the run."""
        name = f"{number}.note"
        (self.trial.folder / name).write_bytes(note)
        ended = self.trial.run("reread", FILES / "asti.lex", name)
        (self.trial.folder / name).unlink()
        value = value_of(note)
        told = {f"bad file {name}: {why}\n".encode(): why for why in WHYS}.get(ended.stdout)
        if (ended.returncode, ended.stdout) == (0, ANSWER):
            return "" if value == value_of(self.whole) else "(taken)"
        if ended.returncode != 5 or told is None:
            return f"(status {ended.returncode})"
        return told if (told == "Json") == (value is None) else f"({told})"


def try_damaged(trial):
    runs = Damaged(trial)
    notes = list(damaged(runs.whole))
    with ThreadPoolExecutor() as workers:
        reasons = list(workers.map(runs.reason, range(len(notes)), notes))
    wrong = [f"{note!r} {reason}" for note, reason in zip(notes, reasons) if reason.startswith("(")]
    counts = Counter(reason or "taken" for reason in reasons)
    trial.tell(f"{len(notes)} damaged notes", not wrong, f" {dict(sorted(counts.items()))} {'; '.join(wrong[:3])}".rstrip())
    trial.tell("each reason comes", set(WHYS) <= counts.keys())


if __name__ == "__main__":
    try_all(arguments_of(__doc__).parse_args(), [try_damaged])
