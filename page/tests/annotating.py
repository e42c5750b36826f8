"""The notes of bookmarks as the replies of `read` tell them, against which those of the command `annotate` are held."""

import json

from bookmarks import read_bookmark
from lexicons import read_phases
from replies import read_analyses, read_page, read_summary
from session import Session

ROOM = 2 * 1024**3


def told_segments(session, answer, phases):
    """The segments of the answer, with the analyses that the session tells of each."""
    keys = read_bookmark(session.ask("mark")[0]).keys.split(",")
    numbers = {item.segment: item.number for item in read_summary(session.ask("summary"))}
    for step, key in zip(answer.steps, keys):
        phase, taken, rule = map(int, key.split("."))
        tags = [" ".join(pair) for pair in read_analyses(session.ask(f"tags {numbers[step.segment]}"))]
        at, lead, _, form = step.segment
        yield {"at": at, "form": form, "lead": lead, "phase": phases[phase], "rule": rule, "tags": tags, "taken": taken}


def told_note(session, bookmark, phases):
    """The exit status for the bookmark, and the text of its note, where there is one."""
    if session.ask(f"resume {bookmark.at_first()}") != ["ok"]:
        return 12, None
    page = read_page(session.ask("page 2"))
    if len(page.answers) != 1:
        return (11 if page.answers else 10), None
    note = {
        "choices": [text for text in bookmark.choices.split(",") if text],
        "segments": list(told_segments(session, page.answers[0], phases)),
        "text": bookmark.line,
        "version": 1,
    }
    return 0, json.dumps(note, sort_keys=True, separators=(",", ":"), ensure_ascii=False) + "\n"


def told_by_replies(program, lexicon, mark):
    """The exit status and the note that `annotate` should have for the text of a bookmark."""
    bookmark = read_bookmark(mark)
    if not bookmark:
        return 12, None
    session = Session(program, lexicon, ROOM)
    try:
        return told_note(session, bookmark, read_phases(lexicon))
    finally:
        session.close()
