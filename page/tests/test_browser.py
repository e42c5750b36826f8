"""The page in a real browser: lines, clicks, links, tabs, keys, hostile texts."""

import os
import re
import signal
import time
import unittest

import reference
from browser import Browser, Fault
from lexicons import starter_lexicons
from serving import LEXICON, PROGRAM, TOP, PageServer, readings

TRIED = 40  # readings that are clicked down to one answer
SHOWN = 10  # answers on a page of the list
PART = re.compile(r"([^ \[\]()]+)\[([a-z0-9_]+)\]")
SEEN = """
const boxes = [...document.querySelectorAll('#grid .box')].map((box) => {
  const { start, end, form, phase } = box.dataset;
  const number = Number(box.dataset.number);
  return { number, start: Number(start), end: Number(end), form, phase, classes: [...box.classList] };
});
const answers = [...document.querySelectorAll('#answers > li')].map((answer) => {
  return [...answer.querySelectorAll('.words .form')].map((form) => [form.dataset.phase, form.textContent]);
});
const text = (id) => document.getElementById(id).hidden ? '' : document.getElementById(id).textContent;
return {
  boxes, answers, count: text('reading') && text('count'), notice: text('notice'), stretch: text('stretch'),
  choices: [...document.querySelectorAll('#choices li')].map((choice) => choice.textContent),
  address: location.hash, isBusy: document.querySelector('[aria-busy]') !== null,
};
"""
COUNT = re.compile(r"([\d,]+) answers")
CONTROLS = "button, input, select, textarea, summary, a[href]"
ROLES = ("button", "radio", "checkbox", "combobox", "textbox", "link", "DisclosureTriangle")
# Texts that stand out too little from what is behind them: by a ratio under 4.5, or under 3 where they are large.
FAINT = """
const canvas = new OffscreenCanvas(1, 1).getContext('2d', { willReadFrequently: true });
const inNumbers = (colour) => {
  canvas.clearRect(0, 0, 1, 1);
  canvas.fillStyle = colour;
  canvas.fillRect(0, 0, 1, 1);
  return [...canvas.getImageData(0, 0, 1, 1).data];
};
const luminance = (colour) => {
  const [r, g, b] = inNumbers(colour).map((part) => part / 255).map((part) => {
    return part <= 0.03928 ? part / 12.92 : ((part + 0.055) / 1.055) ** 2.4;
  });
  return 0.2126 * r + 0.7152 * g + 0.0722 * b;
};
const behind = (element) => {
  const colour = getComputedStyle(element).backgroundColor;
  return inNumbers(colour)[3] === 255 || !element.parentElement ? colour : behind(element.parentElement);
};
const isShown = (element) => element.checkVisibility() && !element.closest(':disabled, .unseen, .skip, option');
return [...document.querySelectorAll('body *')].flatMap((element) => {
  const text = [...element.childNodes].filter((node) => node.nodeType === 3).map((node) => node.data.trim()).join('');
  if (!text || !isShown(element)) return [];
  const { color, fontSize } = getComputedStyle(element);
  const [one, other] = [luminance(color), luminance(behind(element))].sort((a, b) => b - a);
  const ratio = (one + 0.05) / (other + 0.05);
  return ratio < (parseFloat(fontSize) >= 24 ? 3 : 4.5) ? [[element.className, text.slice(0, 20), ratio]] : [];
});
"""


def starter_path():
    """The path of the starter lexicon, made where it is not there."""
    if LEXICON != "-":
        return LEXICON
    from server import cache_folder

    return starter_lexicons(PROGRAM, TOP / "lexicons" / "starter", cache_folder())[0].path


def count_of(words):
    """The number of answers that the page tells."""
    found = COUNT.fullmatch(words)
    return int(found[1].replace(",", "")) if found else {"one answer": 1, "no answer": 0}[words]


class Page:
    """A tab of the page, used as a reader uses it."""

    def __init__(self, browser, address):
        self.browser = browser
        self.address = address

    def open(self, hash_=""):
        # A fragment alone does not load a page again, so the tab goes away from it first.
        self.browser.open("about:blank")
        self.browser.open(self.address + hash_)
        self.browser.wait("return document.documentElement.dataset.ready || document.querySelector('.fault')")
        return self

    def setting(self, **settings):
        """Sets what the page keeps, before it is opened."""
        self.browser.run("localStorage.setItem('sandhi-page', JSON.stringify(arguments[0]))", settings)
        return self

    def seen(self):
        return self.browser.wait(f"const seen = (() => {{{SEEN}}})(); return seen.isBusy ? null : seen;")

    def type(self, text):
        """Puts a text into the line, and reads it."""
        self.browser.run(
            "const line = document.getElementById('line-text'); line.value = arguments[0];"
            "line.dispatchEvent(new Event('input')); document.getElementById('line-form').requestSubmit();",
            text,
        )
        return self.seen()

    def click(self, selector):
        """Clicks as a reader does, where the browser finds the element free to be clicked."""
        self.browser.click(self.browser.find(selector))
        return self.seen()

    def box(self, number):
        return f"#grid .box[data-number='{number}']"

    def keep(self, number):
        return self.click(f"{self.box(number)} .keep")

    def reject(self, number):
        return self.click(f"{self.box(number)} .reject")


def check_controls(test):
    """Holds each control that is shown to have a role and a name; gives how many there are."""
    shown = [element for element in test.browser.all(CONTROLS) if test.browser.is_shown(element)]
    for element in shown:
        role, label = test.browser.role(element), test.browser.label(element)
        test.assertIn(role, ROLES, label)
        test.assertTrue(label.strip(), role)
    return len(shown)


class WithPage(unittest.TestCase):
    size = (1280, 1000)

    @classmethod
    def setUpClass(cls):
        cls.lexicon = starter_path()
        cls.server = PageServer(cls.lexicon)
        cls.addClassCleanup(cls.server.stop)
        cls.browser = Browser(*cls.size)
        cls.addClassCleanup(cls.browser.close)
        cls.page = Page(cls.browser, cls.server.address).open().setting(output="slp1", scheme="slp1").open()

    def tearDown(self):
        """Nothing that a test did made the browser complain, and nothing broke the policy of the page."""
        expected = ("Failed to load resource",)
        self.assertEqual([line for line in self.browser.console() if not any(part in line for part in expected)], [])


class Clicks(WithPage):
    """Readings are clicked down to one answer; after each click the page is held against `segment`."""

    def compare(self, seen, answers, choices, told):
        left = reference.under_choices(answers, choices)
        self.assertEqual(count_of(seen["count"]), len(left), told)
        shown = [[[segment.phase, segment.form] for segment in answer] for answer in left[:SHOWN]]
        self.assertEqual(seen["answers"], shown, told)
        ends = {}
        for segment in (segment for answer in left for segment in answer):
            place = max(0, segment.at - segment.lead), segment.form, segment.phase
            ends.setdefault(place, set()).add(max(segment.end, place[0] + 1))
        self.assertEqual(
            sorted((box["start"], box["form"], box["phase"]) for box in seen["boxes"]), sorted(ends), told
        )
        for box in seen["boxes"]:
            place = box["start"], box["form"], box["phase"]
            self.assertIn(box["end"], ends[place], (told, box))
            with_it = [
                answer for answer in left if any((max(0, s.at - s.lead), s.form, s.phase) == place for s in answer)
            ]
            self.assertEqual("certain" in box["classes"], len(with_it) == len(left), (told, box))
        return left

    def ways(self, answers, box):
        """The segments that a box stands for."""
        place = box["start"], box["form"], box["phase"]
        return sorted(
            {s.key for answer in answers for s in answer if (max(0, s.at - s.lead), s.form, s.phase) == place}
        )

    def keep(self, box, wanted, ways):
        """Keeps a box; where it is entered in several ways, that of the reading is chosen in the question."""
        self.browser.click(self.browser.find(f"{self.page.box(box['number'])} .keep"))
        if len(ways) > 1:
            buttons = self.browser.all("#which-way[open] button")
            self.assertEqual(len(buttons), len(ways) + 1)
            self.browser.click(buttons[ways.index(wanted)])
        return self.page.seen()

    def click_down(self, number, text, parts):
        answers = reference.answers_of(PROGRAM, self.lexicon, text)
        target = next(answer for answer in answers if [(s.form, s.phase) for s in answer] == parts)
        choices = []
        seen = self.page.type(text)
        left = self.compare(seen, answers, choices, (number, "at first"))
        for segment in target:
            if len(left) == 1:
                break
            box = next(
                b
                for b in seen["boxes"]
                if (b["start"], b["form"], b["phase"])
                == (max(0, segment.at - segment.lead), segment.form, segment.phase)
            )
            ways = self.ways(left, box)
            if len(ways) == 1 and "certain" in box["classes"]:
                continue
            seen = self.keep(box, segment.key, ways)
            choices.append((True, segment.key))
            left = self.compare(seen, answers, choices, (number, choices))
        keys = {segment.key for segment in target}
        while len(left) > 1:
            box, ways = next((b, w) for b in seen["boxes"] if not keys & set(w := self.ways(left, b)))
            seen = self.page.reject(box["number"])
            choices += [(False, way) for way in ways]
            left = self.compare(seen, answers, choices, (number, choices))
        self.assertEqual([(s.form, s.phase) for s in left[0]], parts, number)
        return len(choices)

    def test_readings_are_clicked_down_to_one_answer(self):
        rows = readings()
        tried = rows[:: len(rows) // TRIED][:TRIED]
        clicks = 0
        for number, _, text, chain in tried:
            clicks += self.click_down(number, text, PART.findall(chain))
        self.assertEqual(len(tried), TRIED)
        self.assertGreater(clicks, TRIED)

    def test_the_line_with_most_answers(self):
        rows = readings()
        counts = reference.counts_of(PROGRAM, self.lexicon, [text for _, _, text, _ in rows])
        self.assertEqual(len(counts), len(rows))
        self.assertGreater(max(counts), SHOWN)
        number, _, text, chain = rows[counts.index(max(counts))]
        self.click_down(number, text, PART.findall(chain))

    def test_choices_are_taken_back_in_any_order(self):
        answers = reference.answers_of(PROGRAM, self.lexicon, "sa tu tIraM samAsAdya tamasAyA munistadA", "slp1")
        seen = self.page.type("sa tu tIraM samAsAdya tamasAyA munistadA")
        choices = []
        for form in ("adya", "tamasA"):
            box = next(b for b in seen["boxes"] if b["form"] == form)
            ways = self.ways(answers, box)
            choices.append([(False, way) for way in ways])
            seen = self.page.reject(box["number"])
        self.compare(seen, answers, choices[0] + choices[1], "both")
        seen = self.page.click("#choices li:first-child button")
        self.compare(seen, answers, choices[1], "the second")
        self.assertEqual(len(seen["choices"]), 1)
        seen = self.page.click("#choices li:first-child button")
        self.compare(seen, answers, [], "none")


class Links(WithPage):
    LINE = "sa tu tIraM samAsAdya tamasAyA munistadA"

    def test_reload_back_and_a_link_lead_to_the_same_reading(self):
        first = self.page.type(self.LINE)
        chosen = self.page.reject(0)
        self.assertNotEqual(first["address"], chosen["address"])
        self.browser.reload()
        self.browser.wait("return document.documentElement.dataset.ready")
        self.assertEqual(self.page.seen(), chosen)
        self.browser.back()
        self.browser.wait("return location.hash === arguments[0]", first["address"])
        self.browser.wait("return document.querySelectorAll('#choices li').length === 0")
        self.assertEqual(self.page.seen(), first)
        self.page.open(chosen["address"])
        self.assertEqual(self.page.seen()["boxes"], chosen["boxes"])

    def test_going_back_takes_the_question_which_way_away(self):
        self.page.open().type("rAmo rAjA baBUva ha")
        seen = self.page.type(self.LINE)
        several = "return document.querySelector(\"#grid .keep[aria-label*='ways']\").parentNode.dataset.number"
        self.browser.click(self.browser.find(f"{self.page.box(self.browser.run(several))} .keep"))
        self.browser.wait("return document.querySelector('#which-way[open]')")
        self.browser.run("history.back()")
        self.browser.wait("return !document.querySelector('#which-way[open]')")
        self.assertEqual(count_of(self.page.seen()["count"]), 1)
        self.assertEqual(self.page.seen()["choices"], [])
        self.assertNotEqual(self.page.seen()["boxes"], seen["boxes"])

    def test_two_tabs_share_one_program(self):
        first = self.page.type(self.LINE)
        before = self.browser.new_tab()
        try:
            other = Page(self.browser, self.server.address).open()
            second = other.type("rAmo rAjA baBUva ha")
            self.assertEqual(count_of(second["count"]), 1)
            self.browser.go_to(before)
            self.page.reject(0)
            self.assertEqual(self.page.click("#choices li:first-child button")["boxes"], first["boxes"])
            self.assertEqual(len(self.server.programs()), 1)
        finally:
            self.browser.go_to(before)
            for tab in self.browser.call("GET", "/window/handles"):
                if tab != before:
                    self.browser.go_to(tab)
                    self.browser.close_tab(before)

    def test_an_old_link_is_told(self):
        seen = self.page.open("#lexicon=starter-000000&mark=1%3Bna%3B%3B0%3B").seen()
        self.assertIn("starter-000000", seen["notice"])
        name = self.page.open().type("na")["address"].split("&")[0]
        for mark in ("1;na;%2B0.0.0.xyzz;0;", "1;na;%2B0.0.99.na;0;", "2;na;;0;", "quit"):
            seen = self.page.open(f"{name}&mark={mark}").seen()
            if mark != "1;na;%2B0.0.0.xyzz;0;":
                self.assertIn("the lexicon has not", seen["notice"], mark)
        self.page.open()

    def test_a_killed_program_is_not_noticed(self):
        first = self.page.type(self.LINE)
        os.kill(self.server.programs()[0], signal.SIGKILL)
        self.page.reject(0)
        self.assertEqual(self.page.click("#choices li:first-child button")["boxes"], first["boxes"])


class Texts(WithPage):
    """What is typed: schemes, cleaning, faults, hostile texts."""

    def test_one_line_in_six_schemes(self):
        texts = [
            "रामो वनं गच्छति",
            "rāmo vanaṃ gacchati",
            "rAmo vanaM gacCati",
            "rAmo vanaM gacchati",
            "raamo vana.m gacchati",
            "rAmo vanaM gacCawi",
        ]
        read = [self.page.type(text)["boxes"] for text in texts]
        self.assertTrue(read[0])
        self.assertEqual(read, [read[0]] * 6)

    def test_a_verse_as_it_is_printed(self):
        seen = self.page.type(
            "“धर्मक्षेत्रे कुरु-क्षेत्रे समवेता युयुत्सवः ।\nमामकाः पाण्डवाश्चैव किमकुर्वत संजय ॥ १ ॥”"
        )
        half = reference.answers_of(PROGRAM, self.lexicon, "धर्मक्षेत्रे कुरुक्षेत्रे समवेता युयुत्सवः")
        self.assertEqual(count_of(seen["count"]), len(half))
        self.assertIn("Not read as it was typed", seen["notice"])
        self.assertEqual(len(self.browser.all("#parts button")), 2)
        second = self.page.click("#parts button:nth-child(2)")
        self.assertIn("anusvara", second["notice"])
        self.assertGreater(count_of(second["count"]), 0)
        typed = self.page.click("#notice button")
        self.assertIn("no letter of Devanagari", typed["notice"])

    def test_a_verse_that_is_read_across_its_danda_can_be_cut_there(self):
        verse = "कर्मण्येवाधिकारस्ते मा फलेषु कदाचन । मा कर्मफलहेतुर्भूर्मा ते सङ्गोऽस्त्वकर्मणि ॥ ४७ ॥"
        self.assertGreater(count_of(self.page.type(verse)["count"]), 1)
        self.assertIn("as one line", self.page.seen()["notice"])
        self.page.click("#notice button")
        self.assertEqual(len(self.browser.all("#parts button")), 2)

    def test_another_scheme_is_tried_where_the_guess_has_no_answer(self):
        self.page.setting(output="slp1", scheme="hk").open()
        seen = self.page.type("astyuttarasyAM diSi devatAtmA himAlayo nAma nagADirAjaH")
        self.assertGreater(count_of(seen["count"]), 0)
        self.assertEqual(
            self.browser.run("return document.getElementById('scheme').options[0].textContent"), "guessed: SLP1"
        )

    def test_a_fault_is_marked_in_what_was_typed(self):
        for text, fault in (("rāmo xyz", "x"), ("रामो वनx", "x"), ("rAmo va€naM", "€"), ("रामो \u093f", "\u093f")):
            self.page.type(text)
            self.assertEqual(self.browser.run("return document.querySelector('#notice mark').textContent"), fault)
            self.assertTrue(self.browser.run("return document.getElementById('reading').hidden"))

    def test_what_can_not_be_read_is_told(self):
        self.page.type("rAmo vanaM blubBaM gacCati")
        self.browser.wait("return document.querySelector('.stretch-line')")
        self.assertEqual(
            self.browser.run("return [...document.querySelectorAll('.unread')].map((piece) => piece.textContent)"),
            ["blubBaM"],
        )

    def test_a_blank_across_which_nothing_is_read_is_told(self):
        """Between words m is written as an anusvara before n, so the two words have no answer as they stand here."""
        self.page.type("rAmo vanam nayati ca")
        self.browser.wait("return document.querySelector('.stretch-line')")
        self.assertEqual(self.browser.all(".unread"), [])
        self.assertEqual(len(self.browser.all(".unread-blank")), 1)
        self.assertIn("vanam nayati.", self.page.seen()["stretch"])

    def test_a_word_made_unknown_is_found(self):
        """In 40 readings the stretch has the unknown word and at most its two neighbours."""
        tried = 0
        for number, _, text, _ in readings():
            pieces = text.split(" ")
            place = int(number) % len(pieces)
            if tried == 40 or len(pieces) < 4 or len(pieces[place]) < 4:
                continue
            pieces[place] = pieces[place][0] + "क्ष्ठ्ढ्प" + pieces[place][-1]
            if count_of(self.page.type(" ".join(pieces))["count"]) > 0:
                continue
            self.browser.wait("return document.querySelector('.stretch-line')")
            unread = self.browser.run(
                "return [...document.querySelector('.stretch-line').children].flatMap((piece, i) => piece.matches('.unread') ? [i] : [])"
            )
            self.assertIn(place, unread, number)
            self.assertTrue(all(abs(place - other) <= 1 for other in unread), (number, place, unread))
            tried += 1
        self.assertEqual(tried, 40)

    def test_hostile_texts(self):
        hostile = (
            "<script>alert(1)</script>",
            "<img src=x onerror=alert(1)>",
            "a" * 1000,
            "a" * 1001,
            "rA" * 32_768,
            "\u202e\u0000\ufffe",
            "'; quit",
            "1;na;;0;",
            "\\",
            "%0aquit",
            "na\nquit\nna",
            "\ud83d\ude00",
        )
        for text in hostile:
            started = time.monotonic()
            seen = self.page.type(text)
            self.assertTrue(seen["notice"] or seen["count"], text[:30])
            self.assertLess(time.monotonic() - started, 10, text[:30])
        self.assertEqual(self.browser.run("return document.querySelectorAll('main script, main img').length"), 0)
        self.assertEqual(count_of(self.page.type("rAmo vanaM gacCati")["count"]), 1)

    def test_what_is_typed_stays_text(self):
        self.page.type("<script>alert(1)</script>€")
        self.assertIn("<script>", self.browser.run("return document.querySelector('#notice .marked').textContent"))
        with self.assertRaises(Fault):
            self.browser.call("GET", "/alert/text")


class Answers(WithPage):
    LINE = "sa tu tIraM samAsAdya tamasAyA munistadA"

    def numbers(self):
        return self.browser.run(
            "return [...document.querySelectorAll('#answers > li')].map((answer) => answer.value)"
        )

    def test_pages(self):
        self.page.type(self.LINE)
        self.assertEqual(self.numbers(), list(range(1, SHOWN + 1)))
        self.page.click("#pager button:last-child")
        self.assertEqual(self.numbers(), list(range(SHOWN + 1, 2 * SHOWN + 1)))
        while not self.browser.run("return document.querySelector('#pager button:last-child').disabled"):
            self.page.click("#pager button:last-child")
        count = len(reference.answers_of(PROGRAM, self.lexicon, self.LINE, "slp1"))
        self.assertGreater(count, 2 * SHOWN)
        self.assertEqual(self.numbers()[-1], count)
        self.assertTrue(self.browser.run("return document.querySelector('#pager button:last-child').disabled"))
        self.page.click("#pager button:first-child")
        self.assertEqual(self.numbers(), list(range(1, SHOWN + 1)))

    def test_fewest_words_first(self):
        self.page.type(self.LINE)
        self.page.click("#order-switch label:nth-of-type(2)")
        answers = reference.answers_of(PROGRAM, self.lexicon, self.LINE, "slp1")
        order = sorted(range(len(answers)), key=lambda number: len(answers[number]))
        self.assertEqual(self.numbers(), [number + 1 for number in order[:SHOWN]])
        self.page.click("#order-switch label:nth-of-type(1)")
        self.assertEqual(self.numbers(), list(range(1, SHOWN + 1)))

    def test_analyses_in_words(self):
        self.page.type("rAmo vanaM gacCati")
        self.page.click("#answers li .form")
        self.browser.wait("return document.querySelector('#answers .analyses')")
        told = self.browser.run("return document.querySelector('#answers .analyses tbody').textContent")
        self.assertIn("masculine, singular, nominative", told)
        self.assertIn("m. sg. nom.", told)
        self.page.click("#answers li .form")
        self.assertEqual(self.browser.all("#answers .analyses"), [])
        self.page.click("#answers .all-analyses")
        self.browser.wait("return document.querySelectorAll('#answers .analyses tbody').length === 3")

    def test_analyses_of_a_box_by_a_right_click_and_by_a_key(self):
        self.page.type("rAmo vanaM gacCati")
        told = "return document.querySelector('#segment-analyses tbody')?.textContent"
        self.browser.run(
            "document.querySelector(\"#grid .box[data-form='rAmaH'] .form\")"
            ".dispatchEvent(new MouseEvent('contextmenu', { bubbles: true, cancelable: true }))"
        )
        self.assertIn("masculine, singular, nominative", self.browser.wait(told))
        self.browser.run("document.querySelector(\"#grid .box[data-form='gacCati'] .keep\").focus()")
        self.browser.press("a")
        self.browser.wait(f"{told}.includes('present')")

    def test_letters_of_the_answers_are_remembered(self):
        self.page.type("rAmo vanaM gacCati")
        forms = "return document.querySelector('#answers .form').textContent"
        for label, form in ((1, "रामः"), (2, "rāmaḥ"), (3, "rAmaH")):
            self.page.click(f"#output-switch label:nth-of-type({label})")
            self.assertEqual(self.browser.run(forms), form)
            self.browser.reload()
            self.browser.wait("return document.documentElement.dataset.ready")
            self.assertEqual(self.browser.run(forms), form)

    def test_compounds_have_hyphens(self):
        seen = self.page.type("Darmakzetre kurukzetre samavetA yuyutsavaH")
        first = next(box for box in seen["boxes"] if (box["form"], box["phase"]) == ("kuru", "iic"))
        self.page.keep(first["number"])
        words = self.browser.run("return document.querySelector('#answers .words').textContent")
        self.assertTrue(words.startswith("Darma-kzetre kuru-kzetre "), words)


class Keys(WithPage):
    def here(self):
        return self.browser.run("const box = document.activeElement.closest('.box'); return box && box.dataset.form")

    def test_the_grid_by_keys_alone(self):
        self.page.type("sa tu tIraM samAsAdya tamasAyA munistadA")
        self.browser.run("document.querySelector('#grid .keep[tabindex=\"0\"]').focus()")
        self.assertEqual(self.here(), "sa")
        self.browser.press("right")
        self.assertEqual(self.here(), "tu")
        self.browser.press("left", "down")
        self.assertNotIn(self.here(), (None, "sa", "tu"))
        below = self.here()
        self.browser.press("delete")
        seen = self.page.seen()
        self.assertEqual(len(seen["choices"]), 1)
        self.assertIn(below, seen["choices"][0])
        self.assertIsNotNone(self.here())
        self.browser.press("u")
        self.assertEqual(self.page.seen()["choices"], [])
        self.browser.press("enter")
        self.browser.wait(
            "return document.querySelectorAll('#choices li').length === 1 || document.querySelector('dialog[open]')"
        )

    def test_keys_do_nothing_where_nothing_is_read(self):
        self.page.open().type("rAmo €")
        self.browser.run("document.activeElement.blur()")
        self.browser.press("f", "n", "p", "g", "u", "r", "a")
        self.assertIn("no letter", self.page.seen()["notice"])

    def test_a_slash_goes_to_the_line_and_g_to_the_grid(self):
        self.page.open()
        self.browser.press("/")
        self.assertEqual(self.browser.run("return document.activeElement.id"), "line-text")
        self.browser.press(*"nagaram", "enter")
        self.assertEqual(self.browser.run("return document.getElementById('line-text').value"), "nagaram")
        self.browser.wait("return document.querySelectorAll('#grid .box').length > 0")
        self.browser.run("document.activeElement.blur()")
        self.browser.press("g")
        self.assertIsNotNone(self.here())

    def test_each_control_has_a_role_and_a_name(self):
        self.page.open().type("sa tu tIraM samAsAdya tamasAyA munistadA")
        self.page.reject(3)
        self.page.click("#answers .all-analyses")
        self.assertGreater(check_controls(self), 60)


class Colours(WithPage):
    def test_texts_stand_out_in_light_and_in_dark(self):
        for theme in ("light", "dark"):
            self.page.setting(output="iast", theme=theme).open()
            for text in ("saH tu tIraM samAsAdya tamasAyA munistadA", "rAmo vanaM blubBaM gacCati", "rAmo € vanam"):
                seen = self.page.type(text)
                for number in [box["number"] for box in seen["boxes"]][:2]:
                    self.page.keep(number)
                self.assertEqual(self.browser.run(FAINT), [], (theme, text))
        self.page.setting(output="slp1", scheme="slp1").open()


SCROLLING = """
return [...document.querySelectorAll('body *')]
  .filter((part) => part.scrollWidth > part.clientWidth + 1 && getComputedStyle(part).overflowX === 'auto')
  .map((part) => part.id || part.className);
"""


class Widths(WithPage):
    def test_at_360_pixels_only_the_grid_scrolls(self):
        sizes = {"width": 360, "height": 740, "deviceScaleFactor": 1, "mobile": True}
        self.browser.call("POST", "/goog/cdp/execute", {"cmd": "Emulation.setDeviceMetricsOverride", "params": sizes})
        try:
            for theme in ("light", "dark"):
                self.page.setting(output="iast", theme=theme).open()
                for text in (
                    "sa tu tIraM samAsAdya tamasAyA munistadA",
                    "a" * 300 + "!",
                    "<" * 500,
                    "rAmo vanaM blubBaM gacCati",
                ):
                    self.page.type(text)
                    width, grid, frame = self.browser.run(
                        "const frame = document.getElementById('grid-frame');"
                        "return [document.documentElement.scrollWidth, frame.scrollWidth, frame.clientWidth]"
                    )
                    self.assertLessEqual(width, 360, (theme, text[:20]))
                    if text.startswith("sa tu"):
                        self.assertGreater(grid, frame)
                        self.page.click("#answers .all-analyses")
                        self.browser.wait("return document.querySelector('#answers .analyses')")
                    self.assertLessEqual(set(self.browser.run(SCROLLING)), {"grid-frame"}, (theme, text[:20]))
        finally:
            self.browser.call(
                "POST", "/goog/cdp/execute", {"cmd": "Emulation.clearDeviceMetricsOverride", "params": {}}
            )
            self.page.setting(output="slp1", scheme="slp1").open()

    def test_boxes_stand_under_their_letters(self):
        """What is drawn: a box begins and ends where the letters of its columns do, and boxes do not overlap."""
        self.page.type("sa tu tIraM samAsAdya tamasAyA munistadA")
        letters, boxes = self.browser.run(
            "const edges = (element) => { const { left, right, top, bottom } = element.getBoundingClientRect(); return [left, right, top, bottom]; };"
            "return [[...document.querySelectorAll('#grid .letter')].map(edges),"
            " [...document.querySelectorAll('#grid .box')].map((box) => [Number(box.dataset.start), Number(box.dataset.end), ...edges(box)])];"
        )
        for start, end, left, right, _, _ in boxes:
            self.assertAlmostEqual(left, letters[start][0], delta=2)
            self.assertAlmostEqual(right, letters[end - 1][1], delta=2)
        for i, one in enumerate(boxes):
            for other in boxes[:i]:
                apart = one[3] <= other[2] or other[3] <= one[2] or one[5] <= other[4] or other[5] <= one[4]
                self.assertTrue(apart, (one, other))


if __name__ == "__main__":
    unittest.main()
