// What the reader chose, each with a way to take it back; how many answers are left; and what can't be read.

import { byId, fill, make, show } from "./dom.js";
import { hueOf } from "./phases.js";
import { showWord } from "./schemes.js";
import { setting } from "./settings.js";
import { state } from "./state.js";

/** How many answers are left, in words. */
export function countInWords({ count, hasMore }) {
  if (hasMore) return "more than 1,000 answers";
  if (count === 0) return "no answer";
  return count === 1 ? "one answer" : `${count.toLocaleString("en")} answers`;
}

/** The choices of a reading, those of one form that were rejected together as one. */
function groupedChoices(choices) {
  const groups = [];
  choices.forEach((choice, number) => {
    const last = groups.at(-1);
    const isSame = last && !choice.is_kept && !last.choice.is_kept && sameBox(last.choice, choice);
    if (isSame) last.numbers.push(number);
    else groups.push({ choice, numbers: [number] });
  });
  return groups;
}

function sameBox(one, other) {
  return one.form === other.form && one.phase === other.phase && one.at - one.lead === other.at - other.lead;
}

export function drawChoices(actions) {
  const { choices } = state.reading;
  byId("count").textContent = countInWords(state.reading);
  const { phases } = state.server;
  const items = groupedChoices(choices).map(({ choice, numbers }) => {
    const phase = phases[choice.phase];
    const form = showWord(setting("output"), choice.form);
    const verb = choice.is_kept ? "kept" : "rejected";
    return make("li", { class: `choice ${verb} hue-${hueOf(phase, phases)}` },
      make("span", { class: "verb" }, verb), " ",
      make("span", { class: "form sanskrit" }, form), " ", make("span", { class: "phase" }, phase),
      make("button", {
        type: "button", "aria-label": `Take back: ${verb} ${form}, ${phase}`, title: "Take back",
        on: { click: () => actions.takeBack(numbers) },
      }, "↶"));
  });
  const all = choices.map((_, number) => number);
  const takeAll = { type: "button", class: "quiet", on: { click: () => actions.takeBack(all) } };
  fill(byId("choices"), items.length === 0 ? null : make("div", { class: "choices" },
    make("ul", { "aria-label": "Your choices" }, items),
    items.length > 1 ? make("button", takeAll, "Take all back") : null));
}

/** Marks what can't be read in a line without an answer. */
export function drawStretch() {
  const { stretch, reading } = state;
  show(byId("stretch"), reading.count === 0);
  if (reading.count > 0) return;
  if (reading.choices.length > 0) {
    fill(byId("stretch"), make("p", { class: "note" }, "No answer is left under these choices."));
  } else if (!stretch) {
    fill(byId("stretch"), make("p", { class: "note" }, "Looking for what can't be read …"));
  } else {
    fill(byId("stretch"), toldStretch(stretch));
  }
}

function toldStretch(stretch) {
  const { pieces, isRead, questions, isWhole } = stretch;
  const written = pieces.map((piece) => showWord(setting("output"), piece));
  const blanks = uncrossed(stretch);
  const words = written.flatMap((word, number) => {
    const element = isRead[number] ? make("span", {}, word) : make("mark", { class: "unread" }, word);
    if (number === 0) return [element];
    return [blanks.includes(number) ? make("mark", { class: "unread-blank" }, "\u2002") : " ", element];
  });
  const asked = `${questions} ${questions === 1 ? "question" : "questions"} to the program`;
  return make("div", { class: "stretch" },
    make("p", { class: "sanskrit stretch-line" }, words),
    make("p", { class: "note" }, inWords(stretch, blanks, written),
      questions > 0 ? ` (${asked}${isWhole ? "" : ", and no more were asked"}.)` : null));
}

/** The blanks that no run crosses, by the numbers of the pieces after them, where all pieces are read. */
function uncrossed({ isRead, isCrossed, isWhole }) {
  if (isRead.includes(false) || !isWhole) return [];
  return isCrossed.flatMap((is, number) => (is ? [] : [number + 1]));
}

function inWords({ isRead }, blanks, written) {
  if (isRead.length === 1) return "This is not read: a word may be lacking in the lexicon, or be misspelled.";
  if (!isRead.includes(true)) return "No run of these pieces is read by itself.";
  if (isRead.includes(false)) {
    return "What is marked is not read here or at its edges: a word may be lacking in the lexicon, or be misspelled.";
  }
  if (blanks.length === 0) return "Each piece is read with its neighbours, but not the whole line.";
  const pairs = blanks.map((number) => `${written[number - 1]} ${written[number]}`).join("; ");
  return `Each piece is read, but none across the marked blank, as it is written: ${pairs}.`;
}
