// A typed text cut into tokens: letters of a scheme, gaps, numbers, dandas, and marks that are no letters.
//
// A token is `{ kind, from, to, letters }`. `from` and `to` are places in the text as it was typed; `letters` is what a
// token of the kind `letter` stands for in SLP1. The other kinds are `gap`, `number`, `danda`, `stop`, `mark`, `joint`,
// `loose` (a letter by a spelling that the scheme has not, but that is common in print), `skip` and `other`.

import {
  JOINERS, LETTERS_BY_SPELLING, SPELLINGS, VIRAMA, VOWELS_BY_SIGN, isConsonant, keepsApart, longestSpelling,
} from "./schemes.js";

const JOINTS = "-\u2010\u2011\u2012\u2013\u2014\u2015\u00ad_+=";
const STOPS = ".;!?\u2026\u0970";
const QUOTES = "\"'`\u00b4\u2018\u2019\u201a\u201b\u201c\u201d\u201e\u00ab\u00bb\u2039\u203a";
const BRACKETS = "()[]{}<>\u27e8\u27e9";
const OTHER_MARKS = ",:*\u0950\u02bc\u02bd\u0951\u0952\u200b\u200c\u200d\u2060\ufeff";
const NUMBER = /\p{N}+(?:[.,:/\u2013-]\p{N}+)*[a-d]{0,2}(?!\p{L})|\p{N}+/uy;
const REFERENCE = /[([][^()[\]]*\p{N}[^()[\]]*[)\]]|\p{L}[\p{L}\p{M}]{0,5}[_.,]+\p{N}[\p{N}.,:_-]*[a-d]{0,2}(?!\p{L})/uy;
// What stands between dandas, or after the last one, and is a word with a number: `KumS 1.1`.
const NUMBERED = /\p{L}[\p{L}\p{M}]{0,9}\.?[ \t]{0,2}\p{N}[\p{N}.,:_-]*[a-d]{0,2}(?=\s*(?:[|/\u0964\u0965]|$))/uy;
const DANDA = /\|+|\/+|[\u0964\u0965]+/uy;

// Spellings of IAST as it is printed, beside those that the scheme has.
const LOOSE = {
  iast: new Map([
    ["ṁ", "M"], ["m̐", "~"], ["r̥", "f"], ["r̥̄", "F"], ["l̥", "x"], ["ē", "e"], ["ō", "o"], ["ḹ", "x"],
  ]),
};

/** The tokens of a text in a scheme. */
export function tokensOf(scheme, text) {
  const tokens = [];
  let place = 0;
  while (place < text.length) {
    const token = reference(text, place, tokens) ?? spelled(scheme, text, place, tokens) ?? unspelled(scheme, text, place);
    tokens.push(token);
    place = token.to;
  }
  return tokens;
}

/** A reference such as `BhG_1.1`, `(2.47)` or `KumS 1.1`, which stands where a word begins. It counts as a number. */
function reference(text, place, tokens) {
  if (tokens.at(-1)?.kind === "letter") return null;
  const isAfterDanda = tokens.findLast(({ kind }) => kind !== "gap")?.kind === "danda";
  const found = matchAt(REFERENCE, text, place) ?? (isAfterDanda ? matchAt(NUMBERED, text, place) : undefined);
  return found ? { kind: "number", from: place, to: place + found.length, letters: "" } : null;
}

function spelled(scheme, text, place, tokens) {
  if (scheme === "devanagari") return devanagariLetter(text, place);
  if (scheme === "iast") return iastLetter(text, place, tokens);
  const length = longestSpelling(scheme, text, place);
  if (length > 0) return letter(place, place + length, LETTERS_BY_SPELLING[scheme].get(text.slice(place, place + length)));
  return separator(scheme, text, place, tokens, longestSpelling(scheme, text, place + 1));
}

function letter(from, to, letters) {
  return { kind: "letter", from, to, letters };
}

/** A `_` between two spellings, which only keeps them apart. */
function separator(scheme, text, place, tokens, next) {
  const isBetween = keepsApart(scheme) && text[place] === "_" && tokens.at(-1)?.kind === "letter" && next > 0;
  return isBetween ? { kind: "skip", from: place, to: place + 1, letters: "" } : null;
}

function devanagariLetter(text, place) {
  const sign = text[place];
  if (JOINERS.includes(sign)) return { kind: "skip", from: place, to: place + 1, letters: "" };
  const found = LETTERS_BY_SPELLING.devanagari.get(sign);
  if (!found) return null;
  if (!isConsonant(found)) return letter(place, place + 1, found);
  let next = place + 1;
  while (next < text.length && JOINERS.includes(text[next])) next += 1;
  if (text[next] === VIRAMA) return letter(place, next + 1, found);
  const vowel = VOWELS_BY_SIGN.get(text[next]);
  return vowel ? letter(place, next + 1, found + vowel) : letter(place, place + 1, `${found}a`);
}

/** A letter of IAST, which may be typed with combining signs; they are composed first. */
function iastLetter(text, place, tokens) {
  const first = cluster(text, place);
  const second = cluster(text, first.to);
  for (const [sign, to] of [[first.sign + second.sign, second.to], [first.sign, first.to]]) {
    const found = LETTERS_BY_SPELLING.iast.get(sign);
    if (found) return letter(place, to, found);
  }
  const loose = LOOSE.iast.get(first.sign) ?? LOOSE.iast.get(first.sign.toLowerCase());
  if (loose) return { kind: "loose", from: place, to: first.to, letters: loose };
  const small = LETTERS_BY_SPELLING.iast.get(first.sign.toLowerCase());
  if (small) return capital(text, place, first, second);
  return separator("iast", text, place, tokens, longestSpelling("iast", second.sign, 0));
}

function capital(text, place, first, second) {
  const both = LETTERS_BY_SPELLING.iast.get((first.sign + second.sign).toLowerCase());
  const letters = both ?? LETTERS_BY_SPELLING.iast.get(first.sign.toLowerCase());
  return { kind: "loose", from: place, to: both ? second.to : first.to, letters };
}

/** A sign with the combining signs after it, composed. */
function cluster(text, place) {
  let to = place + 1;
  while (to < text.length && /\p{M}/u.test(text[to])) to += 1;
  return { sign: text.slice(place, to).normalize("NFC"), to };
}

function unspelled(scheme, text, place) {
  const sign = text[place];
  const one = (kind) => ({ kind, from: place, to: place + 1, letters: "" });
  if (/\s/u.test(sign)) return one("gap");
  const number = matchAt(NUMBER, text, place);
  if (number) return { kind: "number", from: place, to: place + number.length, letters: "" };
  const danda = matchAt(DANDA, text, place);
  if (danda) return { kind: "danda", from: place, to: place + danda.length, letters: "" };
  if (JOINTS.includes(sign)) return one("joint");
  if (STOPS.includes(sign)) return one("stop");
  if ((QUOTES + BRACKETS + OTHER_MARKS).includes(sign)) return one("mark");
  const code = String.fromCodePoint(text.codePointAt(place));
  return { kind: "other", from: place, to: place + code.length, letters: "" };
}

function matchAt(pattern, text, place) {
  pattern.lastIndex = place;
  return pattern.exec(text)?.[0];
}

const PROGRAM_GAPS = "\t\n\r |";

/**
 * A text in IAST or Harvard-Kyoto in SLP1, as strictly as the program reads its own schemes: gaps stay, numbers after the
 * last letter are left out. Gives `{ text }`, or `{ fault }` with the first place that is no letter.
 */
export function toSlp1(scheme, typed) {
  const tokens = tokensOf(scheme, typed);
  const last = tokens.findLastIndex((token) => token.kind === "letter");
  let text = "";
  for (const [i, token] of tokens.entries()) {
    const typedHere = typed.slice(token.from, token.to);
    const isGap = [...typedHere].every((sign) => PROGRAM_GAPS.includes(sign));
    const isNumber = i > last && /^[0-9]+$/.test(typedHere);
    if (token.kind === "letter") text += token.letters;
    else if (isGap || isNumber) text += " ";
    else if (token.kind !== "skip") return { fault: token.from };
  }
  return { text };
}

/** The place in a typed text of a byte of its UTF-8. */
export function placeOfByte(text, byte) {
  const encoder = new TextEncoder();
  let bytes = 0;
  let place = 0;
  for (const sign of text) {
    if (bytes >= byte) break;
    bytes += encoder.encode(sign).length;
    place += sign.length;
  }
  return place;
}

/** The nasal of the series of a stop, or undefined where the letter is no stop. */
export function nasalOfSeries(stop) {
  const place = [...SPELLINGS.slp1.keys()].indexOf(stop) - 16;
  if (place < 0 || place >= 25 || place % 5 === 4) return undefined;
  return "NYRnm"[Math.floor(place / 5)];
}
