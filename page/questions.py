"""The questions that the page asks the server, each a name with a function from its fields to the answer."""

from bookmarks import MOST_BYTES, Segment, read_bookmark
from guards import Refused
from lexicons import CannotBuild, Meanings
from notes import NoteFolder, NotWritten, is_finished
from reader import Busy, TooManyCommands
from readings import (
    MOST_ANALYSES,
    PAGE,
    PROGRAM_SCHEMES,
    analyses_of,
    mark_of_text,
    read_from,
    shown_answers,
    state_of,
)
from replies import Refusal
from session import BadCommand, BadLexicon, Ended, OutOfTime
from stretch import find_stretch
from texts import NoText

MOST_SHOWN = 100  # answers that are handed on at once
MOST_STATES = 40  # lines of a text whose states are asked for at once
MOST_LINE_NUMBER = 999_999
MOST_PARTS = 99
REFUSALS = (Refusal, NoText, NotWritten, CannotBuild, BadLexicon)


class Questions:
    """Answers questions over the lexicons, the texts and the notes of one server."""

    def __init__(self, program, lexicons, texts, status_of_program):
        self._program, self._texts = program, texts
        self._lexicons = list(lexicons)
        self._status_of_program = status_of_program
        self._meanings = {}
        self._by_name = {
            name: getattr(self, f"_{name}")
            for name in ("start", "line", "reading", "analyses", "stretch", "states", "open", "finish", "reopen")
        }

    def answer(self, name, fields):
        """The answer to a question. What the program or the server refuses is an answer too, with its reason."""
        question = self._by_name.get(name)
        if not question:
            raise Refused(404, "there is no such question")
        try:
            return question(fields)
        except REFUSALS as refusal:
            return {"refused": getattr(refusal, "why", str(refusal)), "at": getattr(refusal, "at", None)}
        except BadCommand as fault:
            raise Refused(400, str(fault)) from fault
        except TooManyCommands as fault:
            raise Refused(400, "the request would ask too much of the program") from fault
        except Busy as fault:
            raise Refused(503, "too many requests are waiting") from fault
        except OutOfTime as fault:
            raise Refused(504, "the program took too long and was stopped") from fault
        except Ended as fault:
            raise Refused(502, "the program ended before it answered") from fault

    def warm(self):
        """Starts the program over the first lexicon, so that the first line finds it read."""
        self._lexicons[0].warm()

    def close(self):
        for lexicon in self._lexicons:
            lexicon.close()

    # What the fields of a question have.

    def _lexicon(self, fields):
        number = fields.number("lexicon", 0, len(self._lexicons) - 1)
        return self._lexicons[number].open()

    @staticmethod
    def _bookmark(fields):
        bookmark = read_bookmark(fields.text("bookmark", MOST_BYTES))
        if not bookmark:
            raise Refusal("? bookmark")
        return bookmark

    # The questions.

    def _start(self, fields):
        """What the page has to know at its start."""
        fields.done()
        own = self._lexicons[0].open()
        return {
            "lexicon": own.key,
            "name": own.name,
            "phases": own.phases,
            "hasTwin": len(self._lexicons) > 1,
            "program": self._status_of_program,
            "texts": self._texts.names(),
            "given": self._texts.given,
        }

    def _line(self, fields):
        """The reading of a text as it was typed."""
        lexicon = self._lexicon(fields)
        scheme, text = fields.one_of("scheme", PROGRAM_SCHEMES), fields.text("text")
        view = View(fields)
        bookmark = lexicon.answer(lambda exchange: mark_of_text(exchange, scheme, text))
        return view.of(self._reading_of(lexicon, bookmark))

    def _reading(self, fields):
        """The reading of a bookmark, or a further part of its answers."""
        lexicon, bookmark, view = self._lexicon(fields), self._bookmark(fields), View(fields)
        return view.of(self._reading_of(lexicon, bookmark))

    @staticmethod
    def _reading_of(lexicon, bookmark):
        reading = lexicon.kept.get(bookmark)
        if not reading:
            reading = lexicon.answer(lambda exchange: read_from(exchange, bookmark, lexicon.phases))
            lexicon.kept.put(bookmark, reading)
        return reading

    def _analyses(self, fields):
        """The analyses of segments of a reading, with the roots and glosses of their stems."""
        lexicon, bookmark = self._lexicon(fields), self._bookmark(fields)
        segments = fields.list("segments", MOST_ANALYSES, read_segment)
        fields.done()
        if lexicon not in self._meanings:
            self._meanings[lexicon] = Meanings(lexicon.folder)
        found = lexicon.answer(lambda exchange: analyses_of(exchange, bookmark, segments))
        stems = {stem: self._meanings[lexicon].of(stem) for analyses in found for stem, _ in analyses}
        return {"analyses": found, "stems": stems}

    def _stretch(self, fields):
        """Which pieces of a line without an answer stand in no run that can be read."""
        lexicon, bookmark = self._lexicon(fields), self._bookmark(fields)
        fields.done()
        stretch = lexicon.answer(lambda exchange: find_stretch(exchange, bookmark))
        return {
            "pieces": stretch.pieces,
            "isRead": stretch.is_read,
            "isCrossed": stretch.is_crossed,
            "questions": stretch.questions,
            "isWhole": stretch.is_whole,
        }

    def _states(self, fields):
        """How many answers lines of a text have."""
        lexicon = self._lexicon(fields)
        lines = fields.list("lines", MOST_STATES, read_line)
        fields.done()
        return {"states": [lexicon.answer(lambda exchange, line=line: state_of(exchange, *line)) for line in lines]}

    def _open(self, fields):
        """The lines of a text and its notes."""
        lexicon, name = self._lexicon(fields), fields.text("text")
        fields.done()
        lines = self._texts.lines(name)
        folder = NoteFolder(self._texts.path(name))
        return {"name": name, "lines": lines, "notes": [self._told_note(lexicon, note) for note in folder.notes()]}

    @staticmethod
    def _told_note(lexicon, note):
        finished = lexicon.answer(lambda exchange: is_finished(exchange, note, lexicon.phases))
        return {
            "line": note.line,
            "part": note.part,
            "bookmark": str(note.bookmark),
            "segments": note.segments,
            "isFinished": finished,
        }

    def _finish(self, fields):
        """Writes the note of a line of a text."""
        lexicon, bookmark, name = self._lexicon(fields), self._bookmark(fields), fields.text("text")
        line, part = read_place(fields)
        fields.done()
        folder = NoteFolder(self._texts.path(name))
        folder.finish(self._program, lexicon.path, line, part, bookmark)
        written = [note for note in folder.notes() if (note.line, note.part) == (line, part)]
        return {"note": self._told_note(lexicon, written[0])} if written else {"refused": "the note is not there"}

    def _reopen(self, fields):
        """Removes the note of a line of a text."""
        name = fields.text("text")
        line, part = read_place(fields)
        fields.done()
        NoteFolder(self._texts.path(name)).reopen(line, part)
        return {}


class View:
    """Which of a reading's answers are handed on, and in which order."""

    def __init__(self, fields):
        self._order = fields.one_of("order", ("program", "words"))
        self._begin = fields.number("begin", 0, PAGE)
        self._most = fields.number("most", 0, MOST_SHOWN)
        fields.done()

    def of(self, reading):
        bookmark = reading.bookmark
        return {
            "bookmark": str(bookmark.at_first()),
            "line": bookmark.line,
            "choices": [choice._asdict() for choice in bookmark.choice_list()],
            "printed": bookmark.printed,
            "count": len(reading.answers),
            "hasMore": reading.has_more,
            "next": reading.next_mark,
            "boxes": [told_box(box) for box in reading.boxes],
            "answers": [
                told_answer(answer) for answer in shown_answers(reading, self._order, self._begin, self._most)
            ],
        }


def told_box(box):
    ways = [{**way.segment._asdict(), "rules": [rule and str(rule) for rule in way.rules]} for way in box.ways]
    return {
        "start": box.start,
        "end": box.end,
        "form": box.form,
        "phase": box.phase,
        "ways": ways,
        "isCertain": box.is_certain,
        "inFirst": box.in_first,
    }


def told_answer(answer):
    steps = [
        {
            **step.segment._asdict(),
            "taken": step.taken,
            "writtenTo": step.written_to,
            "rule": step.rule._asdict() if step.rule else None,
        }
        for step in answer.steps
    ]
    return {"number": answer.number, "steps": steps}


def read_segment(value):
    """A segment of a request: `[at, lead, phase, form]`."""
    if type(value) is not list or [type(part) for part in value] != [int, int, str, str]:
        raise Refused(400, "a segment is not right")
    return Segment(*value)


def read_line(value):
    """A line of a request: `[scheme, text]`."""
    if type(value) is not list or [type(part) for part in value] != [str, str] or value[0] not in PROGRAM_SCHEMES:
        raise Refused(400, "a line is not right")
    return value


def read_place(fields):
    """The numbers of a line of a text and of its part, from 1."""
    return fields.number("line", 1, MOST_LINE_NUMBER), fields.number("part", 1, MOST_PARTS)
