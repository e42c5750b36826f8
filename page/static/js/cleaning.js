// A typed text as it may be meant: marks set aside, numbers left out, a verse cut into its half-verses.
//
// Cleaning is a guess of the page and not of the program, so what it changed is told, and it can be taken back.

import { tokensOf, nasalOfSeries } from "./tokens.js";

const NASAL = "anusvara before a stop written as the nasal of its series";
const MARKS = "quotes, brackets and signs set aside";
const JOINTS = "hyphens set aside";
const NUMBERS = "numbers set aside";
const STOPS = "cut at stops";
const DANDAS = "cut at dandas";
const LOOSE = "capitals and other spellings read as letters of the scheme";
const APOSTROPHES = "an apostrophe read as avagraha";
const APOSTROPHE = "\u2019\u2018\u02bc'";

/**
 * The parts of a text after cleaning. Each part is `{ slp1, from, to, changes }`: its letters and blanks in SLP1, where
 * it stands in the typed text, and what was changed as `[{ what, count }]`. Where a sign can't be read, the answer has
 * its place as `fault`.
 */
export function clean(scheme, typed) {
  const tokens = tokensOf(scheme, typed);
  const fault = tokens.find((token) => token.kind === "other");
  if (fault) return { parts: [], fault: fault.from };
  const parts = [];
  let part = newPart(0);
  for (const [i, token] of tokens.entries()) {
    if (isPause(token)) {
      part = closePart(parts, part, token, token.kind === "danda" ? DANDAS : STOPS);
    } else {
      addToken(part, token, tokens, i, typed);
    }
  }
  closePart(parts, part, { from: typed.length, to: typed.length }, null);
  return { parts: parts.map((each) => finished(each, parts.length)) };
}

function isPause(token) {
  return token.kind === "danda" || token.kind === "stop";
}

function newPart(from) {
  return { slp1: "", from, to: from, counts: new Map(), cut: null };
}

function closePart(parts, part, token, cut) {
  if (!part.slp1.trim()) {
    const last = parts.at(-1);
    if (last) part.counts.forEach((count, what) => note(last, what, count));
    return Object.assign(newPart(token.to), { counts: last ? new Map() : part.counts });
  }
  parts.push(Object.assign(part, { to: token.from, cut }));
  return newPart(token.to);
}

function note(part, what, count = 1) {
  part.counts.set(what, (part.counts.get(what) ?? 0) + count);
}

function addToken(part, token, tokens, i, typed) {
  const { kind, letters } = token;
  if (kind === "letter" || kind === "loose") {
    if (kind === "loose") note(part, LOOSE);
    part.slp1 += letters;
  } else if (kind === "gap") {
    part.slp1 += " ";
  } else if (kind === "number") {
    note(part, NUMBERS);
    part.slp1 += " ";
  } else if (kind === "joint") {
    note(part, JOINTS);
  } else if (kind === "mark" && isAvagraha(typed, token, tokens, i)) {
    note(part, APOSTROPHES);
    part.slp1 += "'";
  } else if (kind === "mark") {
    note(part, MARKS);
  }
}

/** An apostrophe before a letter, after e or o, is an avagraha in many prints. */
function isAvagraha(typed, token, tokens, i) {
  if (!APOSTROPHE.includes(typed.slice(token.from, token.to))) return false;
  let before = i - 1;
  while (tokens[before]?.kind === "gap") before -= 1;
  return /[eo]$/.test(tokens[before]?.letters ?? "") && tokens[i + 1]?.kind === "letter";
}

function finished(part, count) {
  const { slp1, nasals } = withNasals(part.slp1.trim().replace(/ +/g, " "));
  if (nasals > 0) note(part, NASAL, nasals);
  if (part.cut && count > 1) note(part, part.cut);
  const changes = [...part.counts].map(([what, times]) => ({ what, count: times }));
  return { slp1, from: part.from, to: part.to, changes };
}

function withNasals(slp1) {
  let nasals = 0;
  const written = slp1.replace(/M(?=(.))/g, (_, next) => {
    const nasal = nasalOfSeries(next);
    if (!nasal) return "M";
    nasals += 1;
    return nasal;
  });
  return { slp1: written, nasals };
}
