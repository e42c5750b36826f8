"""The server's own modules: bookmarks, replies, boxes, sessions, lexicons, texts and notes."""

import os
import tempfile
import threading
import tomllib
import unittest
from pathlib import Path

from bookmarks import MOST_CHOICES, Bookmark, Segment, read_bookmark
from boxes import make_boxes
from lexicons import Builder, Meanings, own_lexicon, read_phases, unsplit_rules
from notes import NoteFolder, NotWritten, is_finished, run_annotate
from reader import Reader, TooManyCommands
from readings import mark_of_text, read_from, shown_answers, state_of
from replies import Refusal, Rule, read_page
from session import BadCommand, BadLexicon, Ended, OutOfTime, Session, as_line
from stretch import find_stretch, runs_of, texts_of
from texts import NoText, Texts

import reference
from annotating import told_by_replies
from serving import PROGRAM, TOP, readings

SAMPLES = TOP / "samples"
SMALL = (
    "slx 1\nphase word\ngrammar word+\nrule a|a>A\nrule a|A>A\nform word asti as pr.ac.3.sg\n"
    "form word Asti Asti ind\nform word na na ind\nend\n"
)
MANY = "slx 1\nphase word\ngrammar word+\nplain a a\nform word a a ind\nform word aa aa ind\nend\n"
SLEEPER = "#!/bin/sh\nread line\nsleep 60\n"


class WithFolder(unittest.TestCase):
    def setUp(self):
        room = tempfile.TemporaryDirectory(prefix="page-test-")
        self.addCleanup(room.cleanup)
        self.folder = Path(room.name)

    def file(self, name, text, mode=0o644):
        path = self.folder / name
        path.write_text(text, encoding="utf-8")
        path.chmod(mode)
        return path

    def lexicon(self, text, program=PROGRAM):
        lexicon = own_lexicon(program, self.file("some.lex", text))
        self.addCleanup(lexicon.close)
        return lexicon


class Bookmarks(unittest.TestCase):
    def test_texts_are_read_back_and_others_refused(self):
        for text in (
            "1;nAsti;;0;",
            "1;rAmo_rAjA;+2.1.0.Asti,-0.0.15.na;1;0.1.2,0.3.0",
            "1;a;;1000000000000000;0.1.0",
        ):
            self.assertEqual(str(read_bookmark(text)), text)
        for text in (
            "",
            "1;;;0;",
            "2;na;;0;",
            "1;na_;;0;",
            "1;_na;;0;",
            "1;na;+1.0.0;0;",
            "1;na;,;0;",
            "1;na;;x;",
            "1;na;;0;\n",
            "1;na;;\u0661;",
            "1;né;;0;",
            "1;" + "a" * 65_000 + ";;0;",
        ):
            self.assertIsNone(read_bookmark(text), text[:40])

    def test_blanks_and_choices(self):
        bookmark = read_bookmark("1;rAmo_rAjA_na;-4.1.2.rAjA;0;")
        self.assertEqual((bookmark.letters, bookmark.blanks), ("rAmorAjAna", [4, 8]))
        self.assertEqual(bookmark.choice_list(), [(False, 4, 1, 2, "rAjA")])
        more = bookmark.choosing(True, [Segment(8, 0, "ind", "na")], ["noun", "ind"])
        self.assertEqual(str(more), "1;rAmo_rAjA_na;-4.1.2.rAjA,+8.0.1.na;0;")
        full = Bookmark("na", ",".join(["+0.0.0.na"] * MOST_CHOICES))
        self.assertIsNone(full.choosing(True, [Segment(0, 0, "ind", "na")], ["ind"]))


class Replies(unittest.TestCase):
    def test_a_joint_belongs_to_the_form_before_but_for_letters_left_as_they_are(self):
        for (u, v, w), shared in {
            ("a", "i", "e"): 1,
            ("aH", "v", "ov"): 1,
            ("H", "st", "st"): 0,
            ("t", "S", "cC"): 2,
            ("e", "a", "e'"): 2,
            ("m", "", "M"): 1,
        }.items():
            self.assertEqual(Rule(u, v, w).shared, shared, (u, v, w))

    def test_places_of_segments(self):
        page = read_page(["1: na[word] (a|a>A) asti[word]", "2: na[ind] + asti[verb] (i|>I)", "more"])
        told = [[(*step.segment, step.taken, step.end) for step in answer.steps] for answer in page.answers]
        self.assertEqual(told[0], [(0, 0, "word", "na", 1, 2), (2, 1, "word", "asti", 3, 5)])
        self.assertEqual(told[1], [(0, 0, "ind", "na", 2, 2), (2, 0, "verb", "asti", 3, 6)])
        self.assertTrue(page.has_more)


class Sessions(WithFolder):
    def test_commands_that_would_be_several_lines_are_refused(self):
        for command in ("text slp1 a\nquit", "page 1\r", "mark\0", "text slp1 " + "a" * 65_536, "text slp1 \ud800"):
            with self.assertRaises(BadCommand):
                as_line(command)

    def test_a_program_that_was_killed_is_started_again_once(self):
        lexicon = self.lexicon(SMALL)
        first = lexicon.answer(lambda exchange: exchange.ask("text slp1 nAsti"))
        os.kill(lexicon.reader.process, 9)
        self.assertEqual(lexicon.answer(lambda exchange: exchange.ask("text slp1 nAsti")), first)

        def kills(exchange):
            os.kill(lexicon.reader.process, 9)
            return exchange.ask("mark")

        with self.assertRaises(Ended):
            lexicon.answer(kills)
        self.assertEqual(lexicon.answer(lambda exchange: exchange.ask("text slp1 nAsti")), first)

    def test_a_new_program_is_begun_before_the_input_is_full(self):
        path = self.file("some.lex", SMALL)
        reader = Reader(PROGRAM, str(path), most_input=100)
        self.addCleanup(reader.close)
        numbers = set()
        for _ in range(12):
            reply = reader.answer(lambda exchange: [exchange.ask("resume 1;nAsti;;0;"), exchange.ask("page 9")][1])
            self.assertEqual(reply[-1], "end")
            numbers.add(reader.process)
        self.assertGreater(len(numbers), 2)

    def test_a_request_that_no_program_can_take_is_refused(self):
        reader = Reader(PROGRAM, str(self.file("some.lex", SMALL)), most_input=100)
        self.addCleanup(reader.close)
        with self.assertRaises(TooManyCommands):
            reader.answer(lambda exchange: [exchange.ask("text slp1 nAsti") for _ in range(20)])
        with self.assertRaises(TooManyCommands):
            self.lexicon(SMALL).answer(
                lambda exchange: [exchange.ask("mark") for _ in range(1001)]
            )

    def test_a_program_that_takes_too_long_is_stopped_and_not_asked_again(self):
        asked = self.folder / "asked"
        program = self.file("slow", f"#!/bin/sh\necho run >>'{asked}'\nread line\nexec sleep 60\n", 0o755)
        reader = Reader(str(program), "some.lex", seconds=0.3)
        self.addCleanup(reader.close)
        with self.assertRaises(OutOfTime):
            reader.answer(lambda exchange: exchange.ask("page 1"))
        self.assertEqual(asked.read_text(), "run\n")

    def test_a_lexicon_that_is_refused_is_named(self):
        lexicon = self.lexicon(SMALL.replace("asti as", "asti"))
        gone = Reader(PROGRAM, str(self.folder / "none.lex"))
        self.addCleanup(gone.close)
        for _ in range(3):
            with self.assertRaisesRegex(BadLexicon, "some.lex line 6: Field"):
                lexicon.answer(lambda exchange: exchange.ask("text slp1 na"))
            with self.assertRaisesRegex(BadLexicon, "none.lex can't be read"):
                gone.answer(lambda exchange: exchange.ask("text slp1 na"))

    def test_the_address_space_is_limited(self):
        session = Session(PROGRAM, str(self.file("some.lex", SMALL)), 1234 * 1024 * 1024)
        self.addCleanup(session.close)
        session.ask("text slp1 na")
        limits = Path(f"/proc/{session.number}/limits").read_text(encoding="ascii")
        self.assertRegex(limits, rf"Max address space +{1234 * 1024 * 1024} ")

    def test_closing_ends_the_program_in_the_middle_of_a_request(self):
        reader = Reader(str(self.file("slow", SLEEPER, 0o755)), "some.lex")
        threading.Timer(0.3, reader.close).start()
        with self.assertRaises(Ended):
            reader.answer(lambda exchange: exchange.ask("page 1"))


class Boxes(WithFolder):
    def test_more_than_a_thousand_answers(self):
        """Of `a` thirty times the answers can't all be listed; each box has an end all the same, that of its form."""
        lexicon = self.lexicon(MANY)
        mark = lexicon.answer(lambda exchange: mark_of_text(exchange, "slp1", "a" * 30))
        reading = lexicon.answer(lambda exchange: read_from(exchange, mark, lexicon.phases))
        self.assertTrue(reading.has_more)
        self.assertEqual(len(reading.boxes), 59)
        self.assertEqual({box.end - box.start - len(box.form) for box in reading.boxes}, {0})
        self.assertFalse(any(box.is_certain for box in reading.boxes))
        later = lexicon.answer(lambda exchange: read_from(exchange, read_bookmark(reading.next_mark), lexicon.phases))
        self.assertEqual(later.answers[0].number, 1001)

    def test_a_segment_in_every_answer_is_one_whose_reject_leaves_nothing(self):
        lexicon = self.lexicon(
            MANY.replace("plain a a\n", "plain a a\nplain a k\nplain k a\n").replace("end", "form word k k ind\nend")
        )
        mark = lexicon.answer(lambda exchange: mark_of_text(exchange, "slp1", "a" * 20 + "k" + "a" * 20))
        reading = lexicon.answer(lambda exchange: read_from(exchange, mark, lexicon.phases))
        self.assertTrue(reading.has_more)
        self.assertEqual([box.form for box in reading.boxes if box.is_certain], ["k"])

    def test_boxes_of_readings_are_those_of_all_answers(self):
        """Over the sample lexicon: boxes, ends and what is certain, against the answers that `segment` prints."""
        folder = Builder(PROGRAM, self.folder)
        texts = [(SAMPLES / name).read_text(encoding="utf-8") for name in ("rules.toml", "tables.csv", "stems.csv")]
        path = folder.build("sample", *texts)
        lexicon = own_lexicon(PROGRAM, path)
        self.addCleanup(lexicon.close)
        for text in (
            "senAgacCati",
            "rAmo vanaM gacCati",
            "rAmo nadIM ca paSyati",
            "naroSvaH",
            "devAgacCati",
            "rAmasyASvaH",
        ):
            mark = lexicon.answer(lambda exchange, text=text: mark_of_text(exchange, "slp1", text))
            reading = lexicon.answer(lambda exchange, mark=mark: read_from(exchange, mark, lexicon.phases))
            answers = reference.answers_of(PROGRAM, str(path), text, "slp1")
            self.assertEqual(len(reading.answers), len(answers))
            ends = {}
            for segment in (segment for answer in answers for segment in answer):
                ends.setdefault(segment.key, set()).add(segment.end)
            ways = [way.segment for box in reading.boxes for way in box.ways]
            self.assertEqual(sorted(ways), sorted(ends))
            for box in reading.boxes:
                keys = [tuple(way.segment) for way in box.ways]
                self.assertIn(box.end, set().union(*(ends[key] for key in keys)), (text, box))
                self.assertTrue(all(max(0, at - lead) == box.start for at, lead, _, _ in keys), (text, box))
                without = reference.under_choices(answers, [(False, key) for key in keys])
                self.assertEqual(box.is_certain, not without, (text, box))


class Questions(WithFolder):
    def test_runs_are_asked_longest_first(self):
        self.assertEqual(list(runs_of(3)), [(0, 2), (1, 3), (0, 1), (1, 2), (2, 3)])

    def test_a_run_is_asked_for_as_it_may_have_been_before_sandhi(self):
        self.assertEqual(texts_of(["rAmo", "vanaM"], 0, 1), ["rAmo", "rAmaH"])
        self.assertEqual(texts_of(["so", "'smi"], 1, 2), ["'smi", "asmi"])
        self.assertEqual(texts_of(["rAmo", "vanaM"], 1, 2), ["vanaM"])
        self.assertEqual(texts_of(["na", "'", "na"], 1, 2), ["'", "a"])

    def test_what_is_in_no_run_that_can_be_read(self):
        lexicon = self.lexicon(SMALL)
        stretch = lexicon.answer(lambda exchange: find_stretch(exchange, Bookmark("na_kk_na")))
        self.assertEqual((stretch.is_read, stretch.is_whole), ([True, False, True], True))
        self.assertEqual(stretch.is_crossed, [False, False])

    def test_blanks_across_which_nothing_is_read(self):
        lexicon = self.lexicon(SMALL.replace("rule a|a>A\n", "plain i n\nrule a|a>A\n"))
        stretch = lexicon.answer(lambda exchange: find_stretch(exchange, Bookmark("asti_na_na")))
        self.assertEqual((stretch.is_read, stretch.is_crossed), ([True, True, True], [True, False]))

    def test_states(self):
        lexicon = self.lexicon(SMALL)
        states = [
            lexicon.answer(lambda exchange, text=text: state_of(exchange, "slp1", text))
            for text in ("na", "nAsti", "k", "n!")
        ]
        self.assertEqual([state.get("answers", state.get("refused")) for state in states], [1, 2, 0, "spelling"])

    def test_fewest_words_first_keeps_the_order_among_equals(self):
        lexicon = self.lexicon(MANY)
        mark = lexicon.answer(lambda exchange: mark_of_text(exchange, "slp1", "aaaaa"))
        reading = lexicon.answer(lambda exchange: read_from(exchange, mark, lexicon.phases))
        shown = shown_answers(reading, "words", 0, 10)
        self.assertEqual(
            [(len(answer.steps), answer.number) for answer in shown], sorted((len(a.steps), a.number) for a in shown)
        )
        self.assertNotEqual(shown, shown_answers(reading, "program", 0, 10))

    def test_a_bookmark_of_another_lexicon_is_refused(self):
        lexicon = self.lexicon(SMALL)
        with self.assertRaises(Refusal):
            lexicon.answer(lambda exchange: read_from(exchange, read_bookmark("1;na;+0.0.7.na;0;"), lexicon.phases))


class Lexicons(WithFolder):
    def test_the_twin_has_all_pairs_plain(self):
        rules = (TOP / "lexicons" / "starter" / "rules.toml").read_text(encoding="utf-8")
        before, after = tomllib.loads(rules), tomllib.loads(unsplit_rules(rules))
        self.assertEqual(
            [before[name] for name in ("phases", "grammar", "rules")],
            [after[name] for name in ("phases", "grammar", "rules")],
        )
        self.assertEqual(after["plain"], ["<everyletter> <everyletter>"])

    def test_the_twin_reads_words_without_sandhi(self):
        builder = Builder(PROGRAM, self.folder)
        rules, tables, stems = [
            (SAMPLES / name).read_text(encoding="utf-8") for name in ("rules.toml", "tables.csv", "stems.csv")
        ]
        text = "text slp1 rAmaH ASvam gacCati"
        counts = []
        for twin in (rules, unsplit_rules(rules)):
            lexicon = own_lexicon(PROGRAM, builder.build("sample", twin, tables, stems.replace("aSva", "ASva")))
            self.addCleanup(lexicon.close)
            counts.append(lexicon.answer(lambda exchange: [exchange.ask(text), exchange.ask("page 1")][1]))
        self.assertEqual(counts[0], ["end"])
        self.assertIn("ASvam[noun]", counts[1][0])

    def test_a_lexicon_is_built_once(self):
        builder = Builder(PROGRAM, self.folder)
        texts = [(SAMPLES / name).read_text(encoding="utf-8") for name in ("rules.toml", "tables.csv", "stems.csv")]
        path = builder.build("sample", *texts)
        before = path.stat().st_mtime_ns
        self.assertEqual((builder.build("sample", *texts), path.stat().st_mtime_ns), (path, before))
        self.assertEqual(list(self.folder.iterdir()), [path])
        self.assertEqual(read_phases(path)[:2], ["noun", "verb"])

    def test_phases_are_told_by_the_head_of_a_file_of_any_version(self):
        for version in (1, 2, 3):
            path = self.file("some.lex", f"slx {version}\nphase noun\nphase {'v' * 16}\ngrammar noun\nplain a a\n")
            self.assertEqual(read_phases(path), ["noun", "v" * 16])

    def test_meanings(self):
        self.file("roots.csv", "gacCa,gam,present\n")
        self.file("glosses.csv", 'gacCa,pr.a,"go, come"\nbad\n')
        self.assertEqual(Meanings(self.folder).of("gacCa"), {"roots": ["gam present"], "glosses": ["go, come"]})
        self.assertEqual(Meanings(self.folder).of("na"), {"roots": [], "glosses": []})
        self.assertEqual(Meanings(self.folder / "none").of("na"), {"roots": [], "glosses": []})


class TextFiles(WithFolder):
    def test_only_texts_of_the_folder_are_opened(self):
        self.file("verse.txt", "\ufeffna\r\nnAsti\n")
        self.file(".secret.txt", "x")
        self.file("x.bin", "x")
        outside = self.file("outside.txt", "na")
        (self.folder / "sub").mkdir()
        texts = Texts(self.folder, self.file("given.any", "na"))
        self.assertEqual(texts.lines("verse.txt"), ["na", "nAsti", ""])
        self.assertEqual(texts.lines("given.any"), ["na"])
        for name in (".secret.txt", "x.bin", "sub", "../outside.txt", str(outside), "", "none.txt"):
            with self.assertRaises(NoText):
                texts.lines(name)
        self.file("latin.txt", "").write_bytes(b"r\xe4ma")
        with self.assertRaises(NoText):
            texts.lines("latin.txt")


class Notes(WithFolder):
    def setUp(self):
        super().setUp()
        self.small = self.lexicon(SMALL)
        self.notes = NoteFolder(self.file("verses.txt", "nAsti\n"))

    def finish(self, bookmark, line=1, part=1):
        return self.notes.finish(PROGRAM, self.small.path, line, part, read_bookmark(bookmark))

    def test_a_program_without_the_command_is_told(self):
        program = str(self.file("none", "#!/bin/sh\necho usage\nexit 2\n", 0o755))
        with self.assertRaisesRegex(NotWritten, "no command annotate"):
            self.notes.finish(program, self.small.path, 1, 1, read_bookmark("1;na;;0;"))
        self.assertEqual(self.notes.notes(), [])

    def test_a_line_with_one_answer_is_finished_and_found_again(self):
        name = self.finish("1;nAsti;+2.1.0.Asti;0;")
        self.assertEqual([path.name for path in self.notes.path.iterdir()], [name])
        (note,) = self.notes.notes()
        self.assertEqual((note.line, note.part, str(note.bookmark)), (1, 1, "1;nAsti;+2.1.0.Asti;0;"))
        self.assertEqual(note.segments[1]["tags"], [["Asti", "ind"]])
        self.assertTrue(self.small.answer(lambda exchange: is_finished(exchange, note, self.small.phases)))

    def test_the_command_writes_the_note_that_the_replies_of_read_tell(self):
        for mark in (
            "1;nAsti;+2.1.0.Asti;0;",
            "1;nAsti;-2.1.0.Asti;0;",
            "1;na;;0;",
            "1;nAsti;;0;",
            "1;nAsti;+0.0.0.asti;0;",
            "1;nAsti;+0.0.9.asti;0;",
            "1;n!;;0;",
        ):
            out = Path(self.file("told", ""))
            status = run_annotate(PROGRAM, self.small.path, mark, out)
            text = out.read_text(encoding="utf-8") or None
            self.assertEqual((status, text), told_by_replies(PROGRAM, self.small.path, mark), mark)

    def test_a_line_with_several_answers_or_none_is_not_finished(self):
        for bookmark, why in {
            "1;nAsti;;0;": "several",
            "1;nAsti;-2.1.0.Asti,-2.1.0.asti;0;": "no answer",
            "1;na;+0.0.9.na;0;": "bookmark",
        }.items():
            with self.assertRaisesRegex(NotWritten, why):
                self.finish(bookmark)
        self.assertEqual(list(self.notes.path.iterdir()), [])

    def test_a_note_of_other_segments_or_of_another_lexicon_does_not_count(self):
        path = self.notes.path / self.finish("1;nAsti;+2.1.0.Asti;0;")
        for old, new in (
            ('"rule":2', '"rule":1'),
            ('"choices":["+2.1.0.Asti"]', '"choices":[]'),
            ("+2.1.0", "+2.1.7"),
        ):
            text = path.read_text(encoding="utf-8")
            path.write_text(text.replace(old, new), encoding="utf-8")
            (note,) = self.notes.notes()
            self.assertFalse(
                self.small.answer(lambda exchange, note=note: is_finished(exchange, note, self.small.phases)), old
            )
            path.write_text(text, encoding="utf-8")

    def test_what_is_no_note_is_passed_over(self):
        path = self.notes.path / self.finish("1;na;;0;")
        text = path.read_text(encoding="utf-8")
        for damaged in (
            "",
            "[]",
            "null",
            '{"text":1}',
            "[" * 100_000,
            text.replace('"text":"na"', '"text":"n!"'),
            text[:-20],
        ):
            path.write_text(damaged, encoding="utf-8")
            self.assertEqual(self.notes.notes(), [], damaged[:40])

    def test_finishing_again_leaves_one_note_and_reopening_none(self):
        self.finish("1;nAsti;+2.1.0.Asti;0;", 3, 2)
        self.finish("1;na;;0;", 3, 2)
        self.finish("1;na;;0;", 3, 1)
        self.assertEqual(
            [(note.line, note.part, note.bookmark.line) for note in self.notes.notes()], [(3, 1, "na"), (3, 2, "na")]
        )
        self.notes.reopen(3, 2)
        self.assertEqual([(note.line, note.part) for note in self.notes.notes()], [(3, 1)])


class Reference(unittest.TestCase):
    def test_readings_have_the_parts_that_their_rules_say(self):
        self.assertGreaterEqual(len(readings()), 400)
        told = reference.placed("ca[word] (a|i>e) iti[word] (i|>I)")
        self.assertEqual(told, [(0, 0, "word", "ca", 2), (2, 1, "word", "iti", 4)])


if __name__ == "__main__":
    unittest.main()
