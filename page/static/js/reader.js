// Reading a line: what is asked of the server, and what of its answers the page keeps.

import { ask, wasReplaced } from "./api.js";
import { atFirst, choosing, parts as bookmarkParts, withChoices, withoutChoices } from "./bookmark.js";
import { clean } from "./cleaning.js";
import { schemeNamed } from "./schemes.js";
import { setting } from "./settings.js";
import { state } from "./state.js";
import { placeOfByte, toSlp1 } from "./tokens.js";

export const SHOWN = 10; // answers on a page of the list
const MOST_CHOICES = 200; // of a session

let asking = new AbortController();

/** Asks for a reading. A question that is still on its way is given up for it. */
function askForReading(name, fields, begin = 0) {
  asking.abort();
  asking = new AbortController();
  const view = { order: setting("order"), begin, most: SHOWN };
  return ask(name, { lexicon: state.twin, ...fields, ...view }, asking.signal);
}

/** A text as the program takes it: in one of its schemes, or brought to SLP1; or the place of its fault. */
function forProgram(scheme, typed) {
  const line = typed.replace(/[\r\n\0]/g, " ");
  if (schemeNamed(scheme).native) return { scheme, text: line };
  const { text, fault } = toSlp1(scheme, line);
  return fault === undefined ? { scheme: "slp1", text } : { fault };
}

/** How a text is answered as it was typed: a reading, or a refusal with the place of the fault in what was typed. */
async function readAsTyped(scheme, typed) {
  const { fault, ...fields } = forProgram(scheme, typed);
  if (fault !== undefined) return { refused: "spelling", place: fault };
  const answer = await askForReading("line", fields);
  if (answer.refused === "spelling") answer.place = placeOfByte(fields.text, answer.at);
  return answer;
}

/** How a text is answered in a scheme: as it was typed, or cleaned where that has no answer or a fault. */
async function tryScheme(typed, scheme, how) {
  const asTyped = how === "cleaned" ? { refused: "no answer" } : await readAsTyped(scheme, typed);
  const base = { typed, scheme, parts: [], part: 0, changes: [], mayCut: false, reading: asTyped };
  const cleaned = how === "typed" ? { parts: [] } : clean(scheme, typed);
  if (!asTyped.refused && asTyped.count > 0) return { ...base, mayCut: cleaned.parts.length > 1 };
  if (how === "cleaned" || cleaned.parts.length > 1 || cleaned.parts[0]?.changes.length > 0) {
    const reading = await askForReading("line", { scheme: "slp1", text: cleaned.parts[0].slp1 });
    const isBetter = !reading.refused && (reading.count > 0 || asTyped.refused || cleaned.parts.length > 1);
    if (isBetter) return { ...base, parts: cleaned.parts, changes: cleaned.parts[0].changes, reading };
  }
  return asTyped.refused ? { ...base, reading: null, fault: asTyped.refused, place: cleaned.fault ?? asTyped.place } : base;
}

/**
 * Reads what was typed in the first of these schemes in which it has an answer, or in the first. `how` is `best`, `typed`
 * for only as it was typed, or `cleaned`. Gives `{ fault, place }` where it is no line.
 */
export async function readTyped(typed, schemes, how = "best") {
  let first = null;
  for (const scheme of schemes) {
    const found = await tryScheme(typed, scheme, how);
    first ??= found;
    if (found.reading?.count > 0) return adoptLine(found);
  }
  return adoptLine(first);
}

function adoptLine({ fault, place, ...found }) {
  adopt({ ...found, stretch: null, begin: 0 });
  return fault === undefined ? {} : { fault, place };
}

/** Reads another part of the verse that was cut. */
export async function readPart(part) {
  const { slp1, changes } = state.parts[part];
  const reading = await askForReading("line", { scheme: "slp1", text: slp1 });
  return adopt({ part, changes, reading, stretch: null, begin: 0 });
}

/** Reads a bookmark. Gives `{ refused }` where the lexicon has no such line and choices. */
export async function readBookmark(bookmark) {
  const reading = await askForReading("reading", { bookmark: atFirst(bookmark) });
  return reading.refused ? reading : adopt({ reading, begin: 0, stretch: null });
}

function adopt(changes) {
  Object.assign(state, changes);
  return {};
}

export function keep(segment) {
  return choose(true, [segment]);
}

export function reject(segments) {
  return choose(false, segments);
}

async function choose(isKept, segments) {
  if (state.reading.choices.length + segments.length > MOST_CHOICES) return { refused: "too many" };
  return readBookmark(choosing(state.reading.bookmark, isKept, segments, state.server.phases));
}

export function takeBack(numbers) {
  return readBookmark(withoutChoices(state.reading.bookmark, numbers));
}

/** The thousand answers from which some are shown: how many were printed before them, and the mark of the next ones. */
export function blockShown() {
  const { bookmark, printed, count, next, block } = state.reading;
  return block ?? { mark: bookmark, printed, count, next };
}

/** Shows another part of the answers. `begin` counts from the first answer of the thousand of `mark`. */
export async function showAnswers(begin, mark = blockShown().mark) {
  const answer = await askForReading("reading", { bookmark: mark }, begin);
  if (answer.refused) return answer;
  const block = { mark, printed: answer.printed, count: answer.count, next: answer.next };
  return adopt({ reading: { ...state.reading, answers: answer.answers, block }, begin });
}

/** Asks which stretch of a line without an answer can't be read. */
export async function findStretch() {
  const { line } = bookmarkParts(state.reading.bookmark);
  const stretch = await ask("stretch", { lexicon: state.twin, bookmark: withChoices(line, []) });
  return stretch.refused ? stretch : adopt({ stretch });
}

/** The analyses of segments of the reading, as the server answers them. */
export function askForAnalyses(segments) {
  const told = segments.map(({ at, lead, phase, form }) => [at, lead, phase, form]);
  return ask("analyses", { lexicon: state.twin, bookmark: state.reading.bookmark, segments: told });
}

export { wasReplaced };
