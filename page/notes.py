"""Notes of finished lines: the program's command `annotate` writes them, and they are found again by their text."""

import hashlib
import json
import re
import subprocess
import threading
from pathlib import Path
from typing import NamedTuple

from bookmarks import Bookmark, read_bookmark
from reader import ADDRESS_SPACE
from readings import keys_of_only_answer
from replies import Refusal
from session import limit_memory

MOST_NOTE_BYTES = 33_554_432
MOST_NOTES = 10_000
MOST_SECONDS = 60  # that one `annotate` may take
NOTE_NAME = re.compile(r"(\d{6})-(\d{2})-[0-9a-f]{8}\.json")
# What the exit statuses of `annotate` say.
REFUSALS = {2: "this program has no command annotate", 10: "no answer", 11: "several", 12: "bookmark"}


class NotWritten(Exception):
    """A note could not be written. Its text says why."""


class Note(NamedTuple):
    """A note that was found in a folder, with the numbers of its line and part that its name gives."""

    name: str
    line: int
    part: int
    bookmark: Bookmark
    segments: list


def run_annotate(program, lexicon, mark, out):
    """The exit status of `sandhi annotate LEX MARK OUT`."""
    words = [program, "annotate", "--", str(lexicon), str(mark), str(out)]
    silent = subprocess.DEVNULL
    with subprocess.Popen(words, stdin=silent, stdout=silent, stderr=silent) as started:
        limit_memory(started.pid, ADDRESS_SPACE)
        try:
            return started.wait(timeout=MOST_SECONDS)
        finally:
            started.kill()


class NoteFolder:
    """The folder of notes beside a text."""

    def __init__(self, text_path):
        path = Path(text_path)
        self.path = path.with_name(path.name + ".notes")
        self._lock = threading.Lock()

    def finish(self, program, lexicon, line, part, bookmark):
        """Writes the note of a bookmark for a part of a line of the text. Notes of other texts for it are removed."""
        digest = hashlib.sha256(bookmark.line.encode("ascii")).hexdigest()[:8]
        name = f"{line:06}-{part:02}-{digest}.json"
        with self._lock:
            self.path.mkdir(exist_ok=True)
            new = self.path / f".{name}.new"
            try:
                status = run_annotate(program, lexicon, bookmark.at_first(), new)
                if status != 0:
                    raise NotWritten(REFUSALS.get(status, f"annotate ended with status {status}"))
                new.replace(self.path / name)
            except (OSError, subprocess.TimeoutExpired) as fault:
                raise NotWritten(str(fault)) from fault
            finally:
                new.unlink(missing_ok=True)
            self._remove(line, part, name)
        return name

    def reopen(self, line, part):
        """Removes the notes of a part of a line, so that it is no longer finished."""
        with self._lock:
            self._remove(line, part, None)

    def _remove(self, line, part, kept):
        for path in self.path.glob(f"{line:06}-{part:02}-*.json"):
            if path.name != kept and NOTE_NAME.fullmatch(path.name):
                path.unlink(missing_ok=True)

    def notes(self):
        """The notes of the folder that have the form of one, by their names."""
        if not self.path.is_dir():
            return []
        paths = sorted(path for path in self.path.iterdir() if NOTE_NAME.fullmatch(path.name))
        return [note for note in map(read_note, paths[:MOST_NOTES]) if note]


def read_note(path):
    """The note of a file, or None where the file has not the form of one."""
    line, part = map(int, NOTE_NAME.fullmatch(path.name).groups())
    try:
        if path.stat().st_size > MOST_NOTE_BYTES:
            return None
        content = json.loads(path.read_text(encoding="utf-8"))
        bookmark = read_bookmark(f"1;{content['text']};{','.join(content['choices'])};0;")
        segments = [told_segment(segment) for segment in content["segments"]]
    except (OSError, ValueError, KeyError, TypeError, RecursionError):
        return None
    return Note(path.name, line, part, bookmark, segments) if bookmark else None


def told_segment(segment):
    told = {name: segment[name] for name in ("at", "lead", "taken", "rule", "form", "phase", "tags")}
    told["tags"] = [tag.split(" ", 1) for tag in told["tags"]]
    return told


def is_finished(exchange, note, phases):
    """Whether the note's text and choices have one answer, which is that of its segments."""
    try:
        found = keys_of_only_answer(exchange, note.bookmark)
    except Refusal:
        return False
    if not found:
        return False
    answer, keys = found
    read = [
        (step.segment.at, step.segment.lead, step.segment.form, phases[phase], taken, rule)
        for step, (phase, taken, rule) in zip(answer.steps, keys)
    ]
    noted = [
        tuple(segment[name] for name in ("at", "lead", "form", "phase", "taken", "rule")) for segment in note.segments
    ]
    return read == noted
