// A text: its lines in a list, the line that is read, finished lines, and their export.

import { ask } from "./api.js";
import { byId, fill, make, show } from "./dom.js";
import { tsvOf } from "./export.js";
import { lineInOutput, putLine } from "./line_view.js";
import { setting } from "./settings.js";
import { state } from "./state.js";
import { askForStates, entriesOf, giveNotes, schemeOfText, stateInWords } from "./text_lines.js";

const room = { name: null, scheme: null, entries: [], opening: null, drawn: null };
const elements = new WeakMap(); // of the entries

export function prepareTextRoom(actions) {
  const { texts, given } = state.server;
  show(byId("text-room"), texts.length > 0);
  document.querySelector(".rooms").classList.toggle("with-text", texts.length > 0);
  fill(byId("text-name"), make("option", { value: "" }, "none"), texts.map((name) => make("option", { value: name }, name)));
  byId("text-name").addEventListener("change", () => actions.openText(byId("text-name").value));
  byId("export").addEventListener("click", exportFinished);
  byId("reopen").addEventListener("click", actions.reopen);
  byId("finish").addEventListener("click", () => (isFinished() ? actions.nextLine() : actions.finish()));
  return given;
}

/** Opens a text: its lines, their states, and its notes. Where another one is opened meanwhile, this one is given up. */
export async function openText(name) {
  const opening = {};
  Object.assign(room, { name: null, entries: [], opening });
  const isWanted = () => room.opening === opening;
  state.place = null;
  byId("text-name").value = name;
  drawTextRoom();
  if (!name) return {};
  const answer = await ask("open", { lexicon: state.twin, text: name });
  if (answer.refused) return answer;
  if (!isWanted()) return {};
  room.name = name;
  room.scheme = schemeOfText(answer.lines, setting("scheme"));
  room.entries = entriesOf(answer.lines, room.scheme);
  drawTextRoom();
  await askForStates(room.entries, room.scheme, state.twin, (some) => some.forEach(drawEntry), isWanted);
  if (!isWanted()) return {};
  giveNotes(room.entries, answer.notes);
  drawTextRoom();
  return {};
}

export function isOpen(name) {
  return room.name === name;
}

/** Opens the text anew with the lexicon that is used now, at the same line. */
export async function openAgain() {
  const { place } = state;
  if (!room.name) return {};
  const outcome = await openText(room.name);
  state.place = place && entryAt(place) ? place : null;
  return outcome;
}

export function entryAt({ line, part }) {
  return room.entries.find((entry) => entry.line === line && entry.part === part);
}

function hereEntry() {
  return state.place && entryAt(state.place);
}

/** Whether the line that is read is finished with the choices that are made now. */
function isFinished() {
  const { note } = hereEntry() ?? {};
  return Boolean(note?.isFinished && note.bookmark === state.reading?.bookmark);
}

/** The next entry that is not finished: after the one that is read, or from the beginning; else the one after it. */
export function nextEntry() {
  const later = room.entries.slice(room.entries.indexOf(hereEntry()) + 1);
  const isOpen = (entry) => !entry.note?.isFinished;
  return later.find(isOpen) ?? room.entries.find(isOpen) ?? later[0];
}

/** The entry so many after the one that is read; without one, the first. */
export function entryAfter(by) {
  const here = room.entries.indexOf(hereEntry());
  return here < 0 ? room.entries[0] : room.entries[here + by];
}

/** Makes an entry the one that is read. */
export function goToEntry(entry) {
  state.place = { text: room.name, line: entry.line, part: entry.part };
  putLine(entry.typed, room.scheme);
  return { typed: entry.typed, scheme: room.scheme, bookmark: entry.bookmark };
}

/** Keeps how far the reader came with the line of a text. What was typed in its place is not kept. */
export function rememberReading() {
  const entry = hereEntry();
  if (entry && state.reading?.line === entry.lineText) entry.bookmark = state.reading.bookmark;
}

/** Writes the note of the line that is read. */
export async function finishLine() {
  const { line, part } = state.place;
  const answer = await ask("finish", { lexicon: state.twin, bookmark: state.reading.bookmark, text: room.name, line, part });
  if (answer.refused) return answer;
  const entry = hereEntry();
  const { bookmark } = answer.note;
  Object.assign(entry, { note: answer.note, bookmark, isOtherText: entry.lineText !== bookmark.split(";")[1] });
  return answer;
}

/** Removes the note of the line that is read. */
export async function reopenLine() {
  const { line, part } = state.place;
  const answer = await ask("reopen", { text: room.name, line, part });
  if (!answer.refused) delete hereEntry().note;
  return answer;
}

let actionsOfLines = null;

export function useActions(actions) {
  actionsOfLines = actions;
}

export function drawTextRoom() {
  const finished = room.entries.filter((entry) => entry.note?.isFinished).length;
  byId("text-note").textContent = room.name ? noteOfRoom(finished) : "";
  show(byId("export"), finished > 0);
  if (room.drawn !== room.entries) makeList();
  room.entries.forEach(drawEntry);
  markLine();
}

/** Makes the list of the lines anew. Otherwise its elements stay, so that no click and no focus is lost while it is drawn. */
function makeList() {
  const cut = new Set(room.entries.filter((entry) => entry.part > 1).map((entry) => entry.line));
  fill(byId("text-lines"), room.entries.map((entry) => make("li", {}, entryElement(entry, cut.has(entry.line)))));
  room.drawn = room.entries;
}

/** Marks the line that is read, and draws the control that finishes it. */
export function markLine() {
  const here = room.entries.indexOf(hereEntry());
  byId("text-lines").querySelector("[aria-current]")?.removeAttribute("aria-current");
  byId("text-lines").children[here]?.firstChild.setAttribute("aria-current", "true");
  drawFinish();
}

/** Scrolls the list, and not the page, to where the line that is read can be seen. */
export function scrollToLine() {
  const list = byId("text-lines");
  const here = list.querySelector("[aria-current]")?.getBoundingClientRect();
  if (!here) return;
  const { top, bottom } = list.getBoundingClientRect();
  if (here.top < top) list.scrollTop -= top - here.top;
  else if (here.bottom > bottom) list.scrollTop += here.bottom - bottom;
}

function noteOfRoom(finished) {
  const count = room.entries.length;
  const lines = count === 1 ? "1 line" : `${count} lines`;
  return `${lines}, ${finished} finished`;
}

function entryElement(entry, isCut) {
  const parts = { text: make("span", { class: "text sanskrit" }), state: make("span", { class: "state" }) };
  const button = make("button", { type: "button", on: { click: () => actionsOfLines.openEntry(entry) } },
    make("span", { class: "number" }, isCut ? `${entry.line}.${entry.part}` : String(entry.line)), parts.text, parts.state);
  elements.set(entry, { button, ...parts });
  return button;
}

/** Shows what is known of an entry, in its element. */
function drawEntry(entry) {
  const { button, text, state: told } = elements.get(entry);
  told.textContent = stateInWords(entry);
  button.className = `text-line ${told.textContent.replaceAll(" ", "-")}`;
  const shown = `${setting("output")} ${entry.lineText ?? ""}`;
  if (text.dataset.shown === shown) return;
  text.dataset.shown = shown;
  text.textContent = entry.lineText ? lineInOutput(entry.lineText) : entry.typed;
}

/** The control that finishes the line, which is on where one answer is left. */
function drawFinish() {
  const button = byId("finish");
  const entry = hereEntry();
  const { reading } = state;
  show(button, Boolean(entry && reading));
  show(byId("reopen"), Boolean(entry?.note && reading));
  if (!entry || !reading) return;
  if (isFinished()) button.textContent = "Next line";
  else if (reading.line !== entry.lineText) button.textContent = `Finish line ${entry.line} with this text`;
  else button.textContent = entry.note?.isFinished ? "Finish this line again" : "Finish this line";
  button.disabled = !isFinished() && (reading.count !== 1 || reading.hasMore);
}

function exportFinished() {
  const finished = room.entries.filter((entry) => entry.note?.isFinished);
  const blob = new Blob([tsvOf(finished, setting("output"))], { type: "text/tab-separated-values" });
  const link = make("a", { href: URL.createObjectURL(blob), download: `${room.name}.tsv` });
  link.click();
  URL.revokeObjectURL(link.href);
}
