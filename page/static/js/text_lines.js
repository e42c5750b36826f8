// The lines of a text, cut into parts at dandas, with the state of each.

import { ask } from "./api.js";
import { clean } from "./cleaning.js";
import { guessScheme } from "./guess.js";
import { schemeNamed } from "./schemes.js";
import { toSlp1 } from "./tokens.js";

const AT_ONCE = 40; // lines whose states are asked for in one question
const GUESSED_FROM = 2000; // signs of a text from which its scheme is guessed

/** The parts of a text's lines: `{ line, part, typed, cleaned }`, numbers from 1, `cleaned` in SLP1. */
export function entriesOf(lines, scheme) {
  return lines.flatMap((text, number) => {
    const { parts, fault } = clean(scheme, text);
    if (fault !== undefined) return [{ line: number + 1, part: 1, typed: text.trim(), cleaned: null }];
    return parts.map(({ slp1, from, to }, part) => {
      return { line: number + 1, part: part + 1, typed: text.slice(from, to).trim(), cleaned: slp1 };
    });
  });
}

/** The scheme of all lines together. */
export function schemeOfText(lines, last) {
  return guessScheme(lines.join(" ").slice(0, GUESSED_FROM), last);
}

/**
 * Asks for the states of entries: as they are typed, and where this has no answer, cleaned. Sets `lineText` (of the
 * bookmark), `answers` (0, 1, or 2 for several) or `refused`. `tell` is called with the entries of each question.
 * Where `isWanted` is no longer so, no more is asked.
 */
export async function askForStates(entries, scheme, lexicon, tell, isWanted) {
  const askAll = (some, textOf) => askInTurn(some, textOf, lexicon, tell, isWanted);
  await askAll(entries, (entry) => asTyped(entry, scheme));
  const unread = entries.filter((entry) => entry.cleaned !== null && !(entry.answers > 0));
  await askAll(unread, (entry) => ["slp1", entry.cleaned]);
}

function asTyped({ typed, cleaned }, scheme) {
  if (schemeNamed(scheme).native) return [scheme, typed.replace(/[\r\n\0]/g, " ")];
  const { text } = toSlp1(scheme, typed);
  return ["slp1", text ?? cleaned ?? ""];
}

async function askInTurn(entries, textOf, lexicon, tell, isWanted) {
  for (let begin = 0; begin < entries.length && isWanted(); begin += AT_ONCE) {
    const some = entries.slice(begin, begin + AT_ONCE);
    const { states } = await ask("states", { lexicon, lines: some.map(textOf) });
    some.forEach((entry, number) => adoptState(entry, states[number]));
    tell(some);
  }
}

function adoptState(entry, { refused, line, answers }) {
  if (refused && entry.lineText) return;
  Object.assign(entry, refused ? { refused } : { refused: undefined, lineText: line, answers });
}

/**
 * Gives each note to the entry with its text: that of its own number first, else the first that has none. A note whose
 * text no line has is given to the line of its number, and is said to be of another text.
 */
export function giveNotes(entries, notes) {
  for (const note of notes) {
    const text = note.bookmark.split(";")[1];
    const same = entries.filter((entry) => entry.lineText === text && !entry.note);
    const byNumber = entries.find((entry) => entry.line === note.line && entry.part === note.part && !entry.note);
    const entry = same.find((each) => each === byNumber) ?? same[0] ?? byNumber;
    if (entry) Object.assign(entry, { note, bookmark: note.bookmark, isOtherText: entry.lineText !== text });
  }
}

/** The state of an entry in a word. */
export function stateInWords(entry) {
  if (entry.note?.isFinished) return entry.isOtherText ? "finished with another text" : "finished";
  if (entry.refused) return "not read";
  if (entry.answers === undefined) return "…";
  return ["no answer", "one answer", "several answers"][entry.answers];
}
