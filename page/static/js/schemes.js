// The six spelling schemes: their tables, and how a word in SLP1 is written in each.
//
// Inside the page a letter is one SLP1 sign, and a word is a string of them. The tables are those of the program.

export const LETTERS = "aAiIuUfFxeEoOM~HkKgGNcCjJYwWqQRtTdDnpPbBmyrlvSzsh'";

const TABLES = {
  slp1: [...LETTERS],
  wx: [..."aAiIuUqQLeEoOMzHkKgGfcCjJFtTdDNwWxXnpPbBmyrlvSRshZ"],
  velthuis: words(
    `a aa i ii u uu .r .rr .l e ai o au .m ~m .h k kh g gh "n c ch j jh ~n .t .th .d .dh .n t th d dh n p ph b bh ` +
      `m y r l v "s .s s h .a`
  ),
  devanagari: [..."अआइईउऊऋॠऌएऐओऔ\u0902\u0901\u0903कखगघङचछजझञटठडढणतथदधनपफबभमयरलवशषसहऽ"],
  iast: words(
    `a ā i ī u ū ṛ ṝ ḷ e ai o au ṃ ~ ḥ k kh g gh ṅ c ch j jh ñ ṭ ṭh ḍ ḍh ṇ t th d dh n p ph b bh ` +
      `m y r l v ś ṣ s h '`
  ),
  hk: words(
    `a A i I u U R RR lR e ai o au M ~ H k kh g gh G c ch j jh J T Th D Dh N t th d dh n p ph b bh ` +
      `m y r l v z S s h '`
  ),
};

/** The schemes in the order in which they are offered. The program reads those that are `native`. */
export const SCHEMES = [
  { id: "devanagari", name: "Devanagari", native: true },
  { id: "iast", name: "IAST", native: false },
  { id: "slp1", name: "SLP1", native: true },
  { id: "hk", name: "Harvard-Kyoto", native: false },
  { id: "velthuis", name: "Velthuis", native: true },
  { id: "wx", name: "WX", native: true },
];

const SIGNS = [...["ा", "ि", "ी", "ु", "ू", "ृ", "ॄ", "ॢ", "े", "ै", "ो", "ौ"]]; // of the vowels from A on
export const VIRAMA = "\u094d";
export const JOINERS = "\u200c\u200d"; // passed over in Devanagari wherever they stand

const SEPARATED = new Set(["velthuis", "iast", "hk"]); // `_` keeps two spellings apart in these

function words(text) {
  return text.split(" ");
}

export function schemeNamed(id) {
  return SCHEMES.find((scheme) => scheme.id === id);
}

export function isVowel(letter) {
  return LETTERS.indexOf(letter) < 13 && LETTERS.includes(letter);
}

export function isConsonant(letter) {
  const place = LETTERS.indexOf(letter);
  return place >= 16 && place < 49;
}

/** The spelling of each letter by itself in a scheme. */
export const SPELLINGS = Object.fromEntries(
  Object.entries(TABLES).map(([id, spellings]) => [id, new Map([...LETTERS].map((letter, i) => [letter, spellings[i]]))])
);

/** The letter of each spelling in a scheme. Vowels' signs are not among them. */
export const LETTERS_BY_SPELLING = Object.fromEntries(
  Object.entries(TABLES).map(([id, spellings]) => [id, new Map(spellings.map((spelling, i) => [spelling, LETTERS[i]]))])
);
for (const [spelling, letter] of [["A", "A"], ["I", "I"], ["U", "U"]]) {
  LETTERS_BY_SPELLING.velthuis.set(spelling, letter);
}

/** The vowel of each sign of Devanagari. */
export const VOWELS_BY_SIGN = new Map(SIGNS.map((sign, i) => [sign, LETTERS[i + 1]]));
const SIGN_OF_VOWEL = new Map(SIGNS.map((sign, i) => [LETTERS[i + 1], sign]));

/** How many signs the longest spelling has that begins at a place of a text, 0 where none begins there. */
export function longestSpelling(scheme, text, place) {
  const table = LETTERS_BY_SPELLING[scheme];
  for (let length = 3; length > 0; length -= 1) {
    const spelling = text.slice(place, place + length);
    if (spelling.length === length && table.has(spelling)) return length;
  }
  return 0;
}

export function keepsApart(scheme) {
  return SEPARATED.has(scheme);
}

/** A word in a scheme. */
export function printWord(scheme, word) {
  if (scheme === "slp1") return word;
  if (scheme === "devanagari") return printDevanagari(word);
  let printed = "";
  let last = "";
  for (const letter of word) {
    const spelling = SPELLINGS[scheme].get(letter);
    if (last && keepsApart(scheme) && longestSpelling(scheme, last + spelling, 0) !== last.length) printed += "_";
    printed += spelling;
    last = spelling;
  }
  return printed;
}

function printDevanagari(word) {
  const spelling = SPELLINGS.devanagari;
  let printed = "";
  for (let i = 0; i < word.length; i += 1) {
    const [before, letter, after] = [word[i - 1], word[i], word[i + 1]];
    if (isVowel(letter) && i > 0 && isConsonant(before)) printed += SIGN_OF_VOWEL.get(letter) ?? "";
    else printed += spelling.get(letter);
    if (isConsonant(letter) && (after === undefined || !isVowel(after))) printed += VIRAMA;
  }
  return printed;
}

const MOST_SHOWN = 5000; // words that are kept
const shown = new Map();

/** A word for reading: as `printWord`, but in IAST no `_` stands between letters. Words come again, so they are kept. */
export function showWord(scheme, word) {
  const key = `${scheme} ${word}`;
  const known = shown.get(key);
  if (known !== undefined) return known;
  if (shown.size >= MOST_SHOWN) shown.clear();
  const printed = printWord(scheme, word);
  shown.set(key, scheme === "iast" ? printed.replaceAll("_", "") : printed);
  return shown.get(key);
}
