// The line: what is typed, its scheme, what was changed in it, and a fault where it stands.

import { byId, fill, make, show } from "./dom.js";
import { likelySchemes } from "./guess.js";
import { SCHEMES, schemeNamed, showWord } from "./schemes.js";
import { choose, setting } from "./settings.js";
import { state } from "./state.js";

const GUESS = "guess";
const FAULTS = {
  "no letters": "There are no letters in this line.",
  "too long": "A line has at most 1,000 letters.",
  "long line": "This is too long for a line.",
  "too many": "A line has at most 200 choices. Take some back first.",
  bookmark: "This address has a line or choices that the lexicon has not. It may be of an earlier version of the lexicon.",
};

/** Fills the list of schemes. Its first entry is the guess. */
export function prepareLine(actions) {
  const options = SCHEMES.map(({ id, name }) => make("option", { value: id }, name));
  fill(byId("scheme"), make("option", { value: GUESS }, "guessed"), options);
  byId("line-form").addEventListener("submit", (event) => {
    event.preventDefault();
    actions.read();
  });
  byId("line-text").addEventListener("input", showGuess);
  byId("line-text").addEventListener("keydown", (event) => {
    if (event.key !== "Enter" || event.shiftKey || event.isComposing) return;
    event.preventDefault();
    actions.read();
  });
  byId("scheme").addEventListener("change", () => {
    if (byId("scheme").value !== GUESS) choose("scheme", byId("scheme").value);
    showGuess();
    if (byId("line-text").value.trim()) actions.read();
  });
  byId("twin").addEventListener("change", () => actions.changeTwin(byId("twin").checked ? 1 : 0));
  showGuess();
}

/** The typed line, and the schemes that it may be in: the one that was chosen, or those that are likely. */
export function typedLine() {
  const typed = byId("line-text").value;
  const chosen = byId("scheme").value;
  const isGuessed = chosen === GUESS;
  return { typed, schemes: isGuessed ? likelySchemes(typed, setting("scheme")) : [chosen], isGuessed };
}

function showGuess() {
  const { typed, schemes } = typedLine();
  nameGuess(typed.trim() ? schemes[0] : null);
}

function nameGuess(scheme) {
  byId("scheme").options[0].textContent = scheme ? `guessed: ${schemeNamed(scheme).name}` : "guessed";
}

/** Puts a line into the field, as after a link or in a text. */
export function putLine(typed, scheme = null) {
  byId("line-text").value = typed;
  byId("scheme").value = scheme ?? GUESS;
  showGuess();
}

/** The line of a reading as it is typed in the letters of the answers. */
export function lineInOutput(line) {
  return line.split("_").map((word) => showWord(setting("output"), word)).join(" ");
}

export function drawLine(actions) {
  byId("twin").checked = state.twin === 1;
  if (state.isGuessed && byId("scheme").value === GUESS && state.typed) nameGuess(state.scheme);
  drawParts(actions);
  drawChanges(actions);
}

function drawParts(actions) {
  const nav = byId("parts");
  show(nav, state.parts.length > 1);
  fill(nav, state.parts.map((part, number) => {
    const words = part.slp1.split(" ").map((word) => showWord(setting("output"), word)).join(" ");
    const isHere = number === state.part;
    const attributes = {
      type: "button", class: "part", "aria-current": isHere && "true", on: { click: () => actions.readPart(number) },
    };
    return make("button", attributes, make("span", { class: "part-number" }, String(number + 1)), " ", words);
  }));
}

function drawChanges(actions) {
  if (state.mayCut) return drawCut(actions);
  if (state.changes.length === 0) return fill(byId("notice"));
  const told = state.changes.map(({ what, count }) => make("li", {}, count > 1 ? `${what} (${count} times)` : what));
  const read = lineInOutput(state.reading.line);
  fill(
    byId("notice"),
    make("div", { class: "changed" },
      make("p", {}, "Not read as it was typed, but as ", make("span", { class: "sanskrit" }, read)),
      make("ul", {}, told),
      make("button", { type: "button", class: "quiet", on: { click: actions.readAsTyped } }, "Read as it was typed")
    )
  );
}

/** Offers to cut a verse at its dandas, where it was read across them. */
function drawCut(actions) {
  fill(
    byId("notice"),
    make("div", { class: "changed" },
      make("p", {}, "Read as one line, as if sandhi were made across the danda too. ",
        make("button", { type: "button", class: "quiet", on: { click: actions.cut } }, "Cut it there")))
  );
}

/** Shows why a line was not read, with the fault marked in what was typed. */
export function drawFault({ fault, place }) {
  const { typed } = state;
  if (fault !== "spelling") {
    fill(byId("notice"), make("p", { class: "fault" }, FAULTS[fault] ?? `The line was not read: ${fault}.`));
    return;
  }
  const sign = String.fromCodePoint(typed.codePointAt(place) ?? 32);
  const after = typed.slice(place + sign.length);
  const scheme = schemeNamed(state.scheme).name;
  fill(
    byId("notice"),
    make("div", { class: "fault" },
      make("p", {}, `This sign is no letter of ${scheme} here: `, make("strong", {}, sign.trim() ? sign : "(a blank)")),
      make("p", { class: "sanskrit marked" },
        shorten(typed.slice(0, place), true), make("mark", {}, sign), shorten(after, false))
    )
  );
  byId("line-text").setSelectionRange(place, place + sign.length);
}

function shorten(text, isBefore) {
  const most = 60;
  if (text.length <= most) return text;
  return isBefore ? `… ${text.slice(-most)}` : `${text.slice(0, most)} …`;
}

/** Says in a line what went wrong. */
export function drawFailure(message) {
  fill(byId("notice"), make("p", { class: "fault", role: "alert" }, FAULTS[message] ?? message));
}

