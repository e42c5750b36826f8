"""A text on the page: its lines and their states, finishing them, opening them again, and the export."""

import json
import tempfile
import time
import unittest
from pathlib import Path

from browser import Browser
from serving import TOP, PageServer
from test_browser import FAINT, Page, check_controls, count_of, starter_path

VERSES = """आसीद्राजा नलो नाम वीरसेनसुतो बली । उपपन्नो गुणैरिष्टै रूपवानश्वकोविदः ॥ १ ॥

धर्मक्षेत्रे कुरुक्षेत्रे समवेता युयुत्सवः
क्ष्ढ्प वनं गच्छति
रामो राजा बभूव ह
x € y
"""
LINES = """
return [...document.querySelectorAll('#text-lines li')].map((line) => {
  return [...line.querySelectorAll('span')].map((part) => part.textContent);
});
"""


class WithText(unittest.TestCase):
    def setUp(self):
        room = tempfile.TemporaryDirectory(prefix="page-texts-")
        self.addCleanup(room.cleanup)
        self.folder = Path(room.name)
        self.text = self.folder / "verses.txt"
        self.text.write_text(VERSES, encoding="utf-8")
        self.browser = Browser(1400, 1000)
        self.addCleanup(self.browser.close)
        self.start()

    def start(self):
        self.server = PageServer(starter_path(), self.text, folder=self.folder)
        self.addCleanup(self.server.stop)
        self.page = Page(self.browser, self.server.address).open().setting(output="slp1").open()
        self.wait_for_states()

    def wait_for_states(self):
        self.browser.wait("return document.querySelectorAll('#text-lines li').length > 0")
        self.browser.wait(
            "return ![...document.querySelectorAll('#text-lines .state')].some((state) => state.textContent === '…')"
        )

    def lines(self):
        return self.browser.run(LINES)

    def open_line(self, number):
        return self.page.click(f"#text-lines li:nth-child({number}) button")

    def finish(self):
        self.page.click("#finish")
        self.browser.wait(
            "return document.getElementById('finish').textContent === 'Next line' || document.querySelector('.fault')"
        )
        self.assertEqual(self.browser.all("#notice .fault"), [])


class Lines(WithText):
    def test_lines_and_their_states(self):
        told = [(number, state) for number, _, state in self.lines()]
        self.assertEqual(
            told,
            [
                ("1.1", "several answers"),
                ("1.2", "one answer"),
                ("3", "several answers"),
                ("4", "no answer"),
                ("5", "one answer"),
                ("6", "not read"),
            ],
        )
        self.assertEqual(self.lines()[1][1], "upapanno guRErizwE rUpavAnaSvakovidaH")

    def test_a_click_reads_a_line_and_the_address_leads_back_to_it(self):
        seen = self.open_line(2)
        self.assertEqual(count_of(seen["count"]), 1)
        self.assertIn("line=1", seen["address"])
        self.browser.reload()
        self.wait_for_states()
        self.assertEqual(self.page.seen()["boxes"], seen["boxes"])
        self.assertEqual(
            self.browser.run("return document.querySelector('.text-line[aria-current] .number').textContent"), "1.2"
        )

    def test_choices_are_still_there_when_a_line_is_opened_again(self):
        self.open_line(1)
        chosen = self.page.reject(2)
        self.assertEqual(len(chosen["choices"]), 1)
        self.open_line(2)
        self.assertEqual(self.open_line(1)["boxes"], chosen["boxes"])


class ManyLines(WithText):
    FIRST = "उपपन्नो गुणैरिष्टै रूपवानश्वकोविदः"

    def setUp(self):
        super().setUp()
        (self.folder / "long.txt").write_text("\n".join([self.FIRST] + ["रामो राजा बभूव ह"] * 400), encoding="utf-8")
        (self.folder / "short.txt").write_text(f"{self.FIRST}\n", encoding="utf-8")
        place = {"lexicon": 0, "text": "long.txt", "line": 1, "part": 1}
        bookmark = "1;upapanno_guRErizwE_rUpavAnaSvakovidaH;;0;"
        self.assertIn("note", self.server.ask("finish", {**place, "bookmark": bookmark})[1])
        self.page.open()
        self.wait_for_states()

    def choose(self, *names):
        self.browser.run(
            "const file = document.getElementById('text-name');"
            "for (const name of arguments[0]) { file.value = name; file.dispatchEvent(new Event('change')); }",
            names,
        )

    def test_a_text_that_is_left_for_another_gives_it_nothing(self):
        self.choose("long.txt", "short.txt")
        self.browser.wait("return document.querySelectorAll('#text-lines li').length === 1")
        self.wait_for_states()
        self.page.seen()
        self.assertEqual([state for _, _, state in self.lines()], ["one answer"])
        self.choose("long.txt")
        self.browser.wait("return document.querySelectorAll('#text-lines li').length === 401")
        self.choose("short.txt")
        self.wait_for_states()
        self.page.seen()
        self.assertEqual([state for _, _, state in self.lines()], ["one answer"])

    def test_a_line_keeps_its_element_and_the_focus_while_states_come(self):
        self.choose("long.txt")
        self.browser.wait("return document.querySelectorAll('#text-lines li').length === 401")
        last = self.browser.find("#text-lines li:last-child button")
        self.browser.run("document.querySelector('#text-lines li:last-child button').focus()")
        self.wait_for_states()
        self.browser.wait("return document.querySelector('#text-lines .finished')")
        self.browser.click(last)
        self.assertEqual(count_of(self.page.seen()["count"]), 1)
        self.assertTrue(self.browser.run("return document.activeElement.matches('#text-lines li:last-child button')"))


class Finishing(WithText):
    def test_finished_lines_are_opened_again_finished(self):
        self.open_line(1)
        self.assertTrue(self.browser.run("return document.getElementById('finish').disabled"))
        while count_of(self.page.seen()["count"]) > 1:
            seen = self.page.seen()
            wrong = next(box for box in seen["boxes"] if box["form"] in ("analaH", "rAja", "vIra"))
            self.page.reject(wrong["number"])
        self.finish()
        self.page.click("#finish")
        self.browser.wait("return location.hash.includes('part=2')")
        self.browser.wait("return !document.getElementById('finish').disabled")
        self.finish()
        self.assertEqual([state for _, _, state in self.lines()][:2], ["finished", "finished"])
        notes = sorted(path.name for path in (self.folder / "verses.txt.notes").iterdir())
        self.assertEqual([name[:9] for name in notes], ["000001-01", "000001-02"])
        note = json.loads((self.folder / "verses.txt.notes" / notes[1]).read_text(encoding="utf-8"))
        self.assertEqual(
            (note["version"], note["choices"], note["text"]), (1, [], "upapanno_guRErizwE_rUpavAnaSvakovidaH")
        )

        self.server.stop()
        self.start()
        self.assertEqual(
            [state for _, _, state in self.lines()],
            ["finished", "finished", "several answers", "no answer", "one answer", "not read"],
        )
        self.assertEqual(count_of(self.open_line(1)["count"]), 1)
        self.assertGreater(len(self.page.seen()["choices"]), 0)
        self.assertEqual(self.exported()[0], "line\treading\tanalyses")
        rows = [row.split("\t") for row in self.exported()[1:]]
        self.assertEqual(
            rows[1][:2], ["upapanno guRErizwE rUpavAnaSvakovidaH", "upa-pannaH guREH izwEH rUpavAn aSva-kovidaH"]
        )
        self.assertIn("guREH: guRa m.pl.ins", rows[1][2])
        self.assertEqual(len(rows), 2)

    def test_a_finished_line_is_finished_again_with_other_choices(self):
        self.open_line(2)
        self.finish()
        (first,) = (self.folder / "verses.txt.notes").iterdir()
        before = first.read_text(encoding="utf-8")
        self.page.keep(0)
        self.assertEqual(
            self.browser.run("return document.getElementById('finish').textContent"), "Finish this line again"
        )
        self.finish()
        (second,) = (self.folder / "verses.txt.notes").iterdir()
        note = json.loads(second.read_text(encoding="utf-8"))
        self.assertEqual((second.name, len(note["choices"])), (first.name, 1))
        self.assertNotEqual(second.read_text(encoding="utf-8"), before)

    def test_the_list_and_its_controls(self):
        for theme in ("light", "dark"):
            self.page.setting(output="slp1", theme=theme).open()
            self.wait_for_states()
            self.open_line(2)
            if theme == "light":
                self.finish()
            self.assertTrue(self.browser.run("return document.getElementById('export').checkVisibility()"))
            self.assertGreater(check_controls(self), 20)
            self.assertEqual(self.browser.run(FAINT), [], theme)

    def test_what_is_typed_in_between_is_no_reading_of_the_line(self):
        seen = self.open_line(2)
        self.page.type("रामो राजा बभूव ह")
        finish = "return document.getElementById('finish').textContent"
        self.assertEqual(self.browser.run(finish), "Finish line 1 with this text")
        self.open_line(3)
        self.assertEqual(self.open_line(2)["boxes"], seen["boxes"])
        self.assertEqual(self.browser.run(finish), "Finish this line")
        self.page.type("रामो राजा बभूव ह")
        self.finish()
        self.assertEqual(self.lines()[1][2], "finished with another text")
        self.assertEqual(self.page.click("#reopen")["boxes"], self.page.seen()["boxes"])

    def test_lines_by_keys_alone(self):
        def number():
            return self.browser.run("return document.querySelector('.text-line[aria-current] .number')?.textContent")

        def go(key, to):
            self.browser.press(key)
            self.browser.wait("return document.querySelector('[aria-current] .number')?.textContent === arguments[0]", to)
            self.page.seen()

        go("n", "1.1")
        self.assertIsNotNone(self.browser.run("return document.activeElement.closest('.box')"))
        go("n", "1.2")
        go("p", "1.1")
        go("n", "1.2")
        self.browser.press("f")
        self.browser.wait("return document.getElementById('finish').textContent === 'Next line'")
        self.assertEqual(self.lines()[1][2], "finished")
        go("f", "3")
        self.browser.press("f")
        self.assertEqual((number(), self.lines()[2][2]), ("3", "several answers"))
        go("n", "4")
        go("n", "5")

    def test_a_finished_line_can_be_taken_back(self):
        self.open_line(2)
        self.assertTrue(self.browser.run("return document.getElementById('reopen').hidden"))
        self.finish()
        self.page.click("#reopen")
        self.browser.wait("return document.getElementById('reopen').hidden")
        self.assertEqual(self.lines()[1][2], "one answer")
        self.assertEqual(list((self.folder / "verses.txt.notes").iterdir()), [])

    def exported(self):
        path = self.browser.downloads / "verses.txt.tsv"
        path.unlink(missing_ok=True)
        self.browser.click(self.browser.find("#export"))
        for _ in range(100):
            if path.exists() and path.read_text(encoding="utf-8").endswith("\n"):
                return path.read_text(encoding="utf-8").splitlines()
            time.sleep(0.05)
        self.fail("nothing was exported")

    def test_a_damaged_note_and_a_moved_line(self):
        self.open_line(2)
        self.finish()
        (path,) = (self.folder / "verses.txt.notes").iterdir()
        self.server.stop()
        self.text.write_text("रामो राजा बभूव ह\n" + VERSES, encoding="utf-8")
        self.start()
        states = {number: state for number, _, state in self.lines()}
        self.assertEqual(states["2.2"], "finished")
        self.assertEqual([number for number, state in states.items() if state == "finished"], ["2.2"])
        self.server.stop()
        self.text.write_text(VERSES.replace("उपपन्नो", "उपपन्नौ"), encoding="utf-8")
        self.start()
        self.assertEqual(self.lines()[1][2], "finished with another text")
        self.server.stop()
        path.write_text(path.read_text(encoding="utf-8").replace('"rule":0', '"rule":1', 1), encoding="utf-8")
        self.start()
        self.assertNotIn("finished", [state for _, _, state in self.lines()])


class Meanings(unittest.TestCase):
    def test_roots_and_glosses_stand_beside_the_analyses(self):
        room = tempfile.TemporaryDirectory(prefix="page-meanings-")
        self.addCleanup(room.cleanup)
        folder = Path(room.name)
        lexicon = folder / "first.lex"
        lexicon.write_bytes((TOP / "samples" / "first.lex").read_bytes())
        (folder / "roots.csv").write_text("gam,gam,present\n", encoding="utf-8")
        (folder / "glosses.csv").write_text("rAma,a.m,<b>a name</b>\n", encoding="utf-8")
        server = PageServer(lexicon)
        self.addCleanup(server.stop)
        browser = Browser()
        self.addCleanup(browser.close)
        page = Page(browser, server.address).open()
        page.type("rAmo vanaM gacCati")
        page.click("#answers .all-analyses")
        browser.wait("return document.querySelector('#answers .analyses')")
        told = browser.run(
            "return [...document.querySelectorAll('#answers .meaning')].map((meaning) => meaning.textContent)"
        )
        self.assertEqual(told, ["<b>a name</b>", "", "√gam (present)"])


class Twin(unittest.TestCase):
    def test_a_text_without_sandhi_is_read_by_the_twin_of_the_starter_lexicon(self):
        server = PageServer("-")
        self.addCleanup(server.stop)
        browser = Browser()
        self.addCleanup(browser.close)
        page = Page(browser, server.address).open()
        text = "रामः च इति आह"
        self.assertEqual(count_of(page.type(text)["count"]), 0)
        browser.click(browser.find("#twin"))
        browser.wait("return document.querySelectorAll('#answers li').length > 0", seconds=90)
        seen = page.seen()
        self.assertGreater(count_of(seen["count"]), 0)
        self.assertIn("twin=1", seen["address"])
        page.open(seen["address"])
        self.assertEqual(page.seen()["boxes"], seen["boxes"])
        own = PageServer(TOP / "samples" / "first.lex")
        self.addCleanup(own.stop)
        Page(browser, own.address).open()
        self.assertTrue(browser.run("return document.getElementById('twin-field').hidden"))


if __name__ == "__main__":
    unittest.main()
