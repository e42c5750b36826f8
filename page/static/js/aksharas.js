// The heads of the columns: what is written over the letters of a line.

import { isConsonant, isVowel, printWord, showWord } from "./schemes.js";

const MARKS = "M~H";

/** The cells over the letters: `{ text, from, to }`, a letter each, and in Devanagari a syllable each. */
export function headsOf(scheme, letters, blanks) {
  if (scheme !== "devanagari") {
    return [...letters].map((letter, at) => ({ text: showWord(scheme, letter), from: at, to: at + 1 }));
  }
  return aksharasOf(letters, new Set(blanks)).map(([from, to]) => {
    return { text: printWord("devanagari", letters.slice(from, to)), from, to };
  });
}

/** Where each syllable begins and ends: consonants, a vowel, and marks. A blank ends one too. */
function aksharasOf(letters, blanks) {
  const found = [];
  let from = 0;
  for (let at = 0; at < letters.length; at += 1) {
    const next = at + 1;
    if (next === letters.length || blanks.has(next) || isLast(letters, at)) {
      found.push([from, next]);
      from = next;
    }
  }
  return found;
}

/** Whether a letter ends its syllable, whatever comes after it but a blank. */
function isLast(letters, at) {
  const [letter, after] = [letters[at], letters[at + 1]];
  if (MARKS.includes(after)) return false;
  if (isConsonant(letter)) return !isConsonant(after) && !isVowel(after);
  return true;
}
