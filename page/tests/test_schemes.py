"""The page's spelling tables, guess and cleaning, in the browser, against the program and against texts as they are typed."""

import random
import re
import subprocess
import tempfile
import tomllib
import unittest
from pathlib import Path

from browser import Browser
from serving import PROGRAM, TOP, PageServer, readings
from session import Session
from slp1 import slp1_of_devanagari

LETTERS = "aAiIuUfFxeEoOM~HkKgGNcCjJYwWqQRtTdDnpPbBmyrlvSzsh'"
NATIVE = ("slp1", "wx", "velthuis", "devanagari")
ALL = (*NATIVE, "iast", "hk")
WORDS = 1_000

PRINT = """
const done = arguments[arguments.length - 1];
const [scheme, words] = arguments;
import('/js/schemes.js').then(({ printWord }) => done(words.map((word) => printWord(scheme, word))));
"""
READ = """
const done = arguments[arguments.length - 1];
const [scheme, texts] = arguments;
import('/js/tokens.js').then(({ tokensOf }) => done(texts.map((text) => {
  return tokensOf(scheme, text).map(({ kind, letters }) => (kind === 'letter' || kind === 'skip' ? letters : '?')).join('');
})));
"""
STRICT = """
const done = arguments[arguments.length - 1];
const [scheme, texts] = arguments;
import('/js/tokens.js').then(({ toSlp1 }) => done(texts.map((text) => toSlp1(scheme, text))));
"""
GUESS = """
const done = arguments[arguments.length - 1];
const [texts, last] = arguments;
import('/js/guess.js').then(({ guessScheme }) => done(texts.map((text) => guessScheme(text, last))));
"""
CLEAN = """
const done = arguments[arguments.length - 1];
const [scheme, text] = arguments;
import('/js/cleaning.js').then(({ clean }) => done(clean(scheme, text)));
"""
PHASES = """
const done = arguments[arguments.length - 1];
const [phases] = arguments;
import('/js/phases.js').then(({ hueOf, isJoined, phaseInWords }) => done({
  words: phases.map(phaseInWords), hues: phases.map((phase) => hueOf(phase, [])),
  joined: phases.map((phase) => phases.filter((next) => isJoined(phase, next))),
}));
"""
HEADS = """
const done = arguments[arguments.length - 1];
const [scheme, letters, blanks] = arguments;
import('/js/aksharas.js').then(({ headsOf }) => done(headsOf(scheme, letters, blanks).map(({ text, from, to }) => [text, from, to])));
"""


def drawn_words():
    """Words drawn by lot from all letters, so that each letter comes after each other one many times."""
    lot = random.Random(35)
    return list(LETTERS) + ["".join(lot.choices(LETTERS, k=lot.randint(1, 12))) for _ in range(WORDS)]


class WithPage(unittest.TestCase):
    @classmethod
    def setUpClass(cls):
        cls.server = PageServer(TOP / "samples" / "first.lex")
        cls.addClassCleanup(cls.server.stop)
        cls.browser = Browser()
        cls.addClassCleanup(cls.browser.close)
        cls.browser.open(cls.server.address)

    def later(self, script, *arguments):
        """What a script gives by calling its last argument."""
        return self.browser.call("POST", "/execute/async", {"script": script, "args": list(arguments)})


class Tables(WithPage):
    """Each word is printed by the page and read by the program; and the page reads what it printed."""

    @classmethod
    def setUpClass(cls):
        super().setUpClass()
        cls.session = Session(PROGRAM, str(TOP / "samples" / "first.lex"), 2 * 1024**3)
        cls.addClassCleanup(cls.session.close)

    def read_by_program(self, scheme, text):
        reply = self.session.ask(f"text {scheme} {text}")
        return self.session.ask("mark")[0].split(";")[1] if reply == ["ok"] else reply[0]

    def test_the_program_reads_what_the_page_prints(self):
        words = drawn_words()
        for scheme in NATIVE:
            printed = self.later(PRINT, scheme, words)
            self.assertEqual([self.read_by_program(scheme, text) for text in printed], words, scheme)

    def test_the_page_reads_what_it_prints(self):
        words = drawn_words()
        for scheme in ALL:
            self.assertEqual(self.later(READ, scheme, self.later(PRINT, scheme, words)), words, scheme)

    def test_the_page_reads_what_the_program_reads(self):
        """Texts drawn by lot from pieces of a scheme, with faults among them: the same letters, or a fault for both."""
        lot = random.Random(36)
        pieces = {
            "slp1": list(LETTERS) + ["!"],
            "wx": list("aAiIuUqQLeEoOMzHkKgGfcCjJFtTdDNwWxXnpPbBmyrlvSRshZ") + ["V"],
            "velthuis": 'a A aa i I ii u .r .rr .l ai au e o .m ~m .h k kh g "n c ch ~n .t .th t th d n p m y r l v "s .s s h .a _ ~ .'.split(),
            "devanagari": list("अआइईउऋॠऌएऐओऔंँःकखगघङचजञटडणतथदनपमयरलवशषसहऽािीुूृॄॢेैोौ्")
            + ["\u200c", "\u200d", "\u093c", "x"],
        }
        for scheme in NATIVE:
            texts = ["".join(lot.choices(pieces[scheme], k=lot.randint(1, 7))) for _ in range(600)]
            read = self.later(READ, scheme, texts)
            for text, letters in zip(texts, read):
                told = self.read_by_program(scheme, text)
                self.assertEqual(
                    "?" if told.startswith("?") else told, "?" if "?" in letters else letters or "?", (scheme, text)
                )

    def test_iast_and_harvard_kyoto(self):
        told = self.later(
            STRICT,
            "iast",
            ["rāmo vanaṃ gacchati |", "a\u0304", "nareṇa", "a_i", "ai", "a__i", "Rama", "rāmo 12", "1 rā", "_a"],
        )
        self.assertEqual(
            [each.get("text", each.get("fault")) for each in told],
            ["rAmo vanaM gacCati  ", "A", "nareRa", "ai", "E", 1, 0, "rAmo   ".replace("   ", "  "), 0, 0],
        )
        told = self.later(STRICT, "hk", ["lR", "l_R", "RR", "R_R", "n!", "gacchati", "zaGkha JAna"])
        self.assertEqual(
            [each.get("text", each.get("fault")) for each in told], ["x", "lf", "F", "ff", 1, "gacCati", "SaNKa YAna"]
        )

    def test_the_page_and_convert_agree(self):
        """Each word in each scheme, converted by the program to each other one, is what the page prints there."""
        words = drawn_words()
        printed = {scheme: self.later(PRINT, scheme, words) for scheme in ALL}
        with tempfile.TemporaryDirectory() as folder:
            source, target = Path(folder) / "source", Path(folder) / "target"
            for scheme in ALL:
                source.write_text("".join(f"{text}\n" for text in printed[scheme]), encoding="utf-8")
                for other in ALL:
                    subprocess.run(
                        [PROGRAM, "convert", scheme, other, str(source), str(target)], check=True, capture_output=True
                    )
                    self.assertEqual(target.read_text(encoding="utf-8").splitlines(), printed[other], (scheme, other))


class Guess(WithPage):
    def test_ninety_of_a_hundred_readings_are_guessed_right_in_each_scheme(self):
        """Readings with even numbers, which the guess was not made from; what was chosen last is another scheme."""
        lines = [slp1_of_devanagari(row[2]) for row in readings() if int(row[0]) % 2 == 0]
        for scheme in ALL:
            words = self.later(PRINT, scheme, [word for line in lines for word in line.split()])
            texts = []
            for line in lines:
                count = len(line.split())
                texts.append(" ".join(words[:count]))
                words = words[count:]
            for last in ("devanagari", "slp1" if scheme != "slp1" else "hk"):
                right = self.later(GUESS, texts, last).count(scheme)
                self.assertGreaterEqual(right / len(texts), 0.9, (scheme, last))

    def test_schemes_that_are_likely_are_tried_in_their_order(self):
        likely = self.later(GUESS.replace("guessScheme", "likelySchemes"), ["astyuttarasyAM diSi devatAtmA"], "hk")[0]
        self.assertEqual(likely[0], "hk")
        self.assertIn("slp1", likely)

    def test_where_several_fit_the_one_chosen_last_is_taken(self):
        for last in ("slp1", "hk", "iast"):
            self.assertEqual(self.later(GUESS, ["na", "na me"], last), [last, last])


class Cleaning(WithPage):
    def clean(self, scheme, text):
        answer = self.later(CLEAN, scheme, text)
        return answer.get("fault", [part["slp1"] for part in answer["parts"]])

    def test_what_is_set_aside(self):
        for scheme, text, parts in (
            ("iast", "“Rāmo ’pi” vanaṃ-gacchati // 1.12 //", ["rAmo 'pi vanaNgacCati"]),
            ("devanagari", "ॐ रामः संगच्छति । वनं याति ॥ १.२ ॥", ["rAmaH saNgacCati", "vanaM yAti"]),
            ("slp1", "12. rAmaH (saH) saMBavati, ca. nadI?", ["rAmaH saH samBavati ca", "nadI"]),
            ("hk", "rAmaH | sItA || ③ Ⅳ ४", ["rAmaH", "sItA"]),
            ("velthuis", 'raama.h; "sata.m .tiikaa.', ["rAmaH", "SataM wIkA"]),
            ("wx", "saFjaya uvAca — rAmaH", ["saYjaya uvAca  rAmaH".replace("  ", " ")]),
            ("iast", "saṁgama r̥ṣi", ["saNgama fzi"]),
            ("devanagari", "तं च संवादं संस्कृतम्", ["taM ca saMvAdaM saMskftam"]),
            ("iast", "rāmaḥ // BhG_1.1 // sītā (Rām. 2.3) 12ab", ["rAmaH", "sItA"]),
            ("iast", "sthitaḥ mānadaṇḍaḥ // KumS 1.1 //", ["sTitaH mAnadaRqaH"]),
            ("devanagari", "रामः ॥ रघु १.१ ॥ वनम्", ["rAmaH", "vanam"]),
            ("hk", "rAmaH || zloka 12", ["rAmaH"]),
            ("hk", "rAmaH | vanam yAti 12 |", ["rAmaH", "vanam yAti"]),
            ("slp1", "rAmaH1 vanaM2 gacCati3", ["rAmaH vanaM gacCati"]),
            ("slp1", "", []),
            ("slp1", "|| 12 ||", []),
        ):
            self.assertEqual(self.clean(scheme, text), parts, text)

    def test_a_sign_that_is_nothing_is_a_fault_at_its_place(self):
        self.assertEqual(
            [self.clean("iast", "rāmo xa"), self.clean("slp1", "rAma €"), self.clean("devanagari", "रामx")], [5, 5, 3]
        )

    def test_what_was_changed_is_told(self):
        (part,) = self.later(CLEAN, "iast", "“saṃgama-saṃdhi”")["parts"]
        told = {change["what"].split(" ")[0]: change["count"] for change in part["changes"]}
        self.assertEqual(told, {"quotes,": 2, "hyphens": 1, "anusvara": 2})
        self.assertEqual(self.later(CLEAN, "iast", "saṅgama")["parts"][0]["changes"], [])


class Phases(WithPage):
    STARTER = TOP / "lexicons" / "starter" / "rules.toml"

    def test_each_phase_of_the_starter_lexicon_is_told_in_words_and_has_its_hue(self):
        phases = tomllib.loads(self.STARTER.read_text(encoding="utf-8"))["phases"]
        told = self.later(PHASES, ["none", *phases])
        self.assertEqual(told["words"][0], "none")
        for phase, words, hue in zip(phases, told["words"][1:], told["hues"][1:]):
            self.assertNotEqual(words, phase)
            self.assertTrue(hue != told["hues"][0] or phase in ("noun", "stem"), phase)
        self.assertLessEqual(len(set(told["hues"])), 8)

    def test_hyphens_stand_where_one_segment_makes_one_word_with_the_next(self):
        phases = ["iic", "stem", "noun", "pv", "verb", "part", "encl"]
        joined = dict(zip(phases, self.later(PHASES, phases)["joined"]))
        self.assertEqual(joined["iic"], ["iic", "stem", "noun", "pv", "part"])
        self.assertEqual(joined["stem"], ["iic", "stem", "noun", "part"])
        self.assertEqual(joined["pv"], ["pv", "verb", "part"])
        self.assertEqual([joined[phase] for phase in ("noun", "verb", "part", "encl")], [[], [], [], []])


class Heads(WithPage):
    def test_syllables_stand_over_their_letters(self):
        told = self.later(HEADS, "devanagari", "rAmovanaMkimatra", [4, 9, 12])
        self.assertEqual(
            told,
            [
                ["रा", 0, 2],
                ["मो", 2, 4],
                ["व", 4, 6],
                ["नं", 6, 9],
                ["कि", 9, 11],
                ["म्", 11, 12],
                ["अ", 12, 13],
                ["त्र", 13, 16],
            ],
        )
        told = self.later(HEADS, "iast", "KaH", [])
        self.assertEqual(told, [["kh", 0, 1], ["a", 1, 2], ["ḥ", 2, 3]])

    def test_every_letter_is_under_one_head(self):
        for word in drawn_words()[50:250]:
            told = self.later(HEADS, "devanagari", word, [])
            self.assertEqual([begin for _, begin, _ in told], [0, *[end for _, _, end in told[:-1]]], word)
            self.assertEqual(told[-1][2], len(word))
            self.assertTrue(all(re.search(r"\S", text) for text, _, _ in told))


if __name__ == "__main__":
    unittest.main()
