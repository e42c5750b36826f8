// The page: its start, what a reader does, and what is drawn after it.

import { analysesTable } from "./analyses_view.js";
import { Failed, ask } from "./api.js";
import { drawAnswers } from "./answers_view.js";
import { drawChoices, drawStretch } from "./choices_view.js";
import { byId, fill, make, show } from "./dom.js";
import { drawGrid, drawLegend, focusGrid } from "./grid.js";
import { drawFailure, drawFault, drawLine, lineInOutput, prepareLine, putLine, typedLine } from "./line_view.js";
import * as reader from "./reader.js";
import { choose, setting } from "./settings.js";
import { addressOf, readAddress, state } from "./state.js";
import * as texts from "./text_room.js";
import { askWhichWay } from "./which_way.js";

const OUTPUTS = [["devanagari", "देव", "Devanagari"], ["iast", "IAST", "IAST"], ["slp1", "SLP1", "SLP1"]];
const THEMES = [["auto", "auto", "Light or dark as the system"], ["light", "light", "Light"], ["dark", "dark", "Dark"]];
const ORDERS = [
  ["program", "program’s order", "In the program’s order"],
  ["words", "fewest words first", "With fewest words first"],
];

/** What a reader can do. Each is safe to call at any time. */
const actions = {
  guarded,
  read: () => guarded(async () => {
    const { typed, schemes, isGuessed } = typedLine();
    if (!typed.trim()) return;
    state.isGuessed = isGuessed;
    const outcome = await reader.readTyped(typed, schemes);
    choose("scheme", state.scheme);
    await settle(outcome);
  }),
  readAsTyped: () => guarded(async () => settle(await reader.readTyped(state.typed, [state.scheme], "typed"))),
  cut: () => guarded(async () => settle(await reader.readTyped(state.typed, [state.scheme], "cleaned"))),
  readPart: (part) => guarded(async () => settle(await reader.readPart(part))),
  changeTwin: (twin) => guarded(async () => {
    state.twin = twin;
    const { refused } = await texts.openAgain();
    if (refused) drawFailure(refused);
    await actions.read();
  }),
  keep: (box) => guarded(async () => {
    const way = box.ways.length === 1 ? box.ways[0] : await askWhichWay(box);
    if (way) await settle(await reader.keep(way));
  }),
  reject: (box) => guarded(async () => settle(await reader.reject(box.ways))),
  undo: () => guarded(async () => {
    const choices = state.reading?.choices ?? [];
    if (choices.length > 0) await settle(await reader.takeBack([choices.length - 1]));
  }),
  takeBack: (numbers) => guarded(async () => settle(await reader.takeBack(numbers))),
  showAnswers: (begin, mark) => guarded(async () => {
    if (!state.reading) return;
    const { refused } = await reader.showAnswers(begin, mark);
    if (refused) return drawFailure(refused);
    drawAnswers(actions);
    byId("answers-heading").scrollIntoView({ block: "nearest" });
  }),
  showAnalyses: (box) => guarded(async () => {
    const answer = await reader.askForAnalyses(box.ways.slice(0, 1));
    fill(byId("segment-analyses"), answer.refused ? null : analysesTable(box.ways.slice(0, 1), answer));
  }),
  openText: (name) => guarded(async () => {
    const { refused } = await texts.openText(name);
    if (refused) drawFailure(refused);
  }),
  openEntry: (entry) => guarded(() => readEntry(entry)),
  nextLine: () => guarded(async () => {
    const entry = texts.nextEntry();
    if (entry) await readEntry(entry);
  }),
  goToLine: (by) => guarded(async () => {
    const entry = texts.entryAfter(by);
    if (!entry) return;
    await readEntry(entry);
    focusGrid();
  }),
  finish: () => guarded(async () => {
    const { refused } = await texts.finishLine();
    if (refused) drawFailure(`The line was not finished: ${refused}.`);
    texts.drawTextRoom();
  }),
  reopen: () => guarded(async () => {
    const { refused } = await texts.reopenLine();
    if (refused) drawFailure(refused);
    texts.drawTextRoom();
  }),
};

async function readEntry(entry) {
  const { typed, scheme, bookmark } = texts.goToEntry(entry);
  const asTyped = await reader.readTyped(typed, [scheme]);
  const isFurther = bookmark && bookmark !== state.reading?.bookmark;
  await settle(isFurther ? await reader.readBookmark(bookmark) : asTyped);
  texts.scrollToLine();
  byId("reading-heading").scrollIntoView({ block: "nearest" });
}

let running = 0; // things that the reader did and that are not done yet

/** Runs what a reader did. A fault is told on the page; a question that a newer one replaced is passed over. */
async function guarded(act) {
  running += 1;
  byId("reading").setAttribute("aria-busy", "true");
  try {
    await act();
  } catch (fault) {
    if (reader.wasReplaced(fault)) return;
    drawFailure(fault instanceof Failed ? fault.message : `Something went wrong: ${fault.message}`);
    if (!(fault instanceof Failed)) throw fault;
  } finally {
    running -= 1;
    if (running === 0) byId("reading").removeAttribute("aria-busy");
  }
}

/** Draws what came of an action, and puts it into the address. */
async function settle(outcome, { isNew = true } = {}) {
  byId("which-way").close(); // which asked of the reading before
  if (outcome.refused) return drawFailure(outcome.refused);
  draw();
  if (outcome.fault) return drawFault(outcome);
  texts.rememberReading();
  if (isNew) remember();
  if (state.reading?.count === 0 && state.reading.choices.length === 0) await tellStretch();
}

async function tellStretch() {
  const { bookmark } = state.reading;
  const { refused } = await reader.findStretch();
  if (!refused && state.reading?.bookmark === bookmark) drawStretch();
}

function remember() {
  const { typed, scheme, parts, part, changes, mayCut } = state;
  const address = addressOf(state);
  const kept = { typed, scheme, parts, part, changes, mayCut };
  if (address === location.hash) history.replaceState(kept, "", address);
  else history.pushState(kept, "", address);
}

function draw() {
  const { reading } = state;
  show(byId("reading"), Boolean(reading));
  show(byId("answers-section"), Boolean(reading));
  fill(byId("segment-analyses"));
  if (!reading) {
    fill(byId("notice"));
    show(byId("parts"), false);
    return;
  }
  drawLine(actions);
  drawChoices(actions);
  drawStretch();
  for (const id of ["grid-frame", "legend", "box-details"]) show(byId(id), reading.boxes.length > 0);
  drawGrid(actions);
  drawLegend();
  drawAnswers(actions);
  texts.markLine();
}

/** Draws all anew in other letters. */
function redraw() {
  if (state.reading) draw();
  texts.drawTextRoom();
}

/** Reads what the address says, as after a link, a reload, or going back. */
async function followAddress() {
  const address = readAddress(location.hash);
  if (!address) return;
  const { server } = state;
  if (address.lexicon !== server.lexicon) {
    const name = address.lexicon ?? "no lexicon";
    return drawFailure(`This address is of the lexicon ${name}, and the page reads with ${server.lexicon}.`);
  }
  state.twin = server.hasTwin ? address.twin : 0;
  if (address.place && !texts.isOpen(address.place.text) && server.texts.includes(address.place.text)) {
    await texts.openText(address.place.text);
  }
  state.place = address.place && texts.entryAt(address.place) ? address.place : null;
  if (!address.mark) return;
  const kept = history.state ?? { typed: "", parts: [], part: 0, changes: [], mayCut: false };
  Object.assign(state, kept);
  const outcome = await reader.readBookmark(address.mark);
  if (outcome.refused) return drawFailure(outcome.refused);
  putLine(kept.typed || lineInOutput(state.reading.line), kept.typed ? null : setting("output"));
  await settle(outcome, { isNew: false });
}

// The start.

function prepareSwitch(id, name, values, onChange) {
  const choices = values.map(([value, words, title]) => make("label", { title },
    make("input", { type: "radio", name: id, value, checked: setting(name) === value, "aria-label": title }),
    make("span", {}, words)));
  byId(id).append(...choices);
  byId(id).addEventListener("change", (event) => {
    choose(name, event.target.value);
    onChange();
  });
}

function applyTheme() {
  const theme = setting("theme");
  if (theme === "auto") delete document.documentElement.dataset.theme;
  else document.documentElement.dataset.theme = theme;
}

function drawServer() {
  const { name, program, hasTwin } = state.server;
  const notes = {
    unproved: "This program is not proved yet. What it answers is not claimed to be right.",
    unknown: "The program was given by its path, and the page does not know whether it is proved.",
  };
  byId("lexicon-name").textContent = `Lexicon: ${name}`;
  byId("program-note").textContent = notes[program] ?? "";
  show(byId("program-note"), program in notes);
  show(byId("twin-field"), hasTwin);
}

/** Keys that can be pressed anywhere but in a field. */
const SHORTCUTS = {
  "/": () => byId("line-text").focus(),
  g: focusGrid,
  f: () => {
    const button = byId("finish");
    if (button.checkVisibility()) button.click();
  },
  n: () => actions.goToLine(1),
  p: () => actions.goToLine(-1),
};

function prepareShortcuts() {
  document.addEventListener("keydown", (event) => {
    const isTyping = event.target.closest("textarea, select, dialog, input:not([type='radio'], [type='checkbox'])");
    const act = SHORTCUTS[event.key];
    if (!act || isTyping || event.ctrlKey || event.metaKey || event.altKey) return;
    event.preventDefault();
    act();
  });
}

async function start() {
  applyTheme();
  state.server = await ask("start", {});
  drawServer();
  prepareSwitch("output-switch", "output", OUTPUTS, redraw);
  prepareSwitch("theme-switch", "theme", THEMES, applyTheme);
  prepareSwitch("order-switch", "order", ORDERS, () => actions.showAnswers(0));
  byId("sandhi-shown").addEventListener("change", () => {
    choose("sandhi", byId("sandhi-shown").checked);
    drawAnswers(actions);
  });
  prepareLine(actions);
  prepareShortcuts();
  texts.useActions(actions);
  const given = texts.prepareTextRoom(actions);
  addEventListener("popstate", () => guarded(followAddress));
  await followAddress();
  if (given && !state.place) await actions.openText(given);
  document.documentElement.dataset.ready = "true";
}

guarded(start);
