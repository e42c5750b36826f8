// The scheme that a text is most likely written in.
//
// A text is read in each scheme, and the letters that come out are held against how often letters follow one another in
// Sanskrit. The scheme with the least cost is guessed. Where others cost little more, the one that was chosen last is.

import { COSTS, ORDER } from "./bigrams.js";
import { SCHEMES } from "./schemes.js";
import { tokensOf } from "./tokens.js";

const COST_OF_KIND = { number: 0, danda: 0, skip: 0, joint: 3, stop: 3, mark: 3, loose: 15, other: 24 };
const NEARLY = 4; // costs that are so near to the least are as good
const LIKELY = 24; // those that are so near are tried too, where the guess has no answer
const MOST_SIGNS = 400; // of a text that are looked at

/** What a text costs in each scheme, the least first. */
export function costsOf(text) {
  const beginning = text.slice(0, MOST_SIGNS);
  const costs = SCHEMES.map(({ id }) => ({ id, cost: costIn(id, beginning) }));
  return costs.sort((one, other) => one.cost - other.cost);
}

function costIn(scheme, text) {
  let cost = 0;
  let before = " ";
  for (const token of tokensOf(scheme, text)) {
    const letters = token.kind === "gap" || token.kind === "danda" ? " " : token.letters;
    cost += COST_OF_KIND[token.kind] ?? 0;
    for (const letter of letters) {
      if (letter !== " " || before !== " ") cost += costAfter(before, letter);
      before = letter;
    }
  }
  return cost;
}

function costAfter(before, letter) {
  return parseInt(COSTS[ORDER.indexOf(before)][ORDER.indexOf(letter)], 36);
}

/** The scheme of a text. `last` is the one that was chosen last. */
export function guessScheme(text, last) {
  return likelySchemes(text, last)[0];
}

/** The schemes that a text may be in, the likeliest first. */
export function likelySchemes(text, last) {
  const costs = costsOf(text);
  const least = costs[0].cost;
  const likely = costs.filter(({ cost }) => cost <= least + LIKELY).map(({ id }) => id);
  const isNear = costs.some(({ id, cost }) => id === last && cost <= least + NEARLY);
  return isNear ? [last, ...likely.filter((id) => id !== last)] : likely;
}
