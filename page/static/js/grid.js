// The summary as a grid: the letters of the line, and under them a box for each segment that stands in an answer.

import { headsOf } from "./aksharas.js";
import { blanksOf, lettersOf } from "./bookmark.js";
import { byId, fill, make } from "./dom.js";
import { columnsOf, rowsOf } from "./layout.js";
import { hueOf, phaseInWords } from "./phases.js";
import { showWord } from "./schemes.js";
import { setting } from "./settings.js";
import { state } from "./state.js";

const HEADS = 1; // rows over the boxes
const REM = 16; // pixels
const COLUMN = { least: 1.2 * REM, most: 2.6 * REM }; // as the style has it
const SIGN = { devanagari: 0.85 * REM, iast: 0.6 * REM, slp1: 0.62 * REM }; // what a sign takes on average

/** Draws the grid of the reading. `actions` are `keep(box)`, `reject(box)`, `showAnalyses(box)`, `undo()`. */
export function drawGrid(actions) {
  const { boxes, line, choices } = state.reading;
  const letters = lettersOf(line);
  const blanks = blanksOf(line);
  const rows = rowsOf(boxes);
  const grid = byId("grid");
  const isFocused = grid.contains(document.activeElement);
  const kept = keptSegments(choices);
  const column = columnWidth(letters.length);
  grid.style.setProperty("--letters", letters.length);
  grid.style.setProperty("--rows", Math.max(0, ...rows) + 1 + HEADS);
  fill(
    grid,
    blanks.map((at) => place(make("div", { class: "blank", "aria-hidden": "true" }), at, at + 1, "1 / -1")),
    headsOf(setting("output"), letters, blanks).map(({ text, from, to }) => {
      return place(make("div", { class: "letter sanskrit", "aria-hidden": "true" }, text), from, to, HEADS);
    }),
    boxes.map((box, number) => {
      const { start, end } = columnsOf(box);
      return place(boxElement(box, number, { kept, column }, actions), start, end, rows[number] + 1 + HEADS);
    })
  );
  prepareKeys(grid, actions, isFocused);
}

function place(element, from, to, row) {
  element.style.gridColumn = `${from + 1} / ${to + 1}`;
  element.style.gridRow = String(row);
  return element;
}

function keptSegments(choices) {
  const { phases } = state.server;
  const kept = choices.filter((choice) => choice.is_kept);
  return new Set(kept.map(({ at, lead, phase, form }) => [at, lead, phases[phase], form].join()));
}

// The width of the grid's frame is watched and not asked for while the page is drawn, which would lay it out twice.
let frameWidth = 0;
new ResizeObserver(([frame]) => {
  frameWidth = frame.contentRect.width;
}).observe(byId("grid-frame"));

/** How many pixels a column has, about. */
function columnWidth(letters) {
  const width = (frameWidth || document.querySelector("main").clientWidth) / letters;
  return Math.min(COLUMN.most, Math.max(COLUMN.least, width));
}

function boxElement(box, number, { kept, column }, actions) {
  const form = showWord(setting("output"), box.form);
  const isKept = box.ways.some(({ at, lead, phase, form: slp1 }) => kept.has([at, lead, phase, slp1].join()));
  const { start, end } = columnsOf(box);
  const signs = [...form.normalize("NFD").replace(/\p{M}/gu, "")].length;
  const said = describe(box, form, isKept);
  const classes = [
    "box", `hue-${hueOf(box.phase, state.server.phases)}`,
    isKept && "kept", box.isCertain && "certain", box.end === null && "open",
    signs * SIGN[setting("output")] > (end - start) * column - REM / 2 && "tight", end - start === 1 && "single",
  ].filter(Boolean).join(" ");
  return make("div", { class: classes, data: { number, start, end, form: box.form, phase: box.phase } },
    make("button", {
      type: "button", class: "keep", "aria-label": said, title: said, "aria-pressed": String(isKept), tabindex: -1,
      on: { click: () => actions.keep(box) },
    },
      make("span", { class: "form sanskrit" }, form),
      make("span", { class: "phase" }, box.phase),
      box.isCertain ? make("span", { class: "mark-certain" }, "✓") : null
    ),
    make("button", {
      type: "button", class: "reject", "aria-label": `Reject ${form}, ${box.phase}`, title: `Reject ${form}`, tabindex: -1,
      on: { click: () => actions.reject(box) },
    }, "×")
  );
}

function describe(box, form, isKept) {
  const told = [`Keep ${form}, ${phaseInWords(box.phase)}`];
  if (box.ways.length > 1) told.push(`entered in ${box.ways.length} ways`);
  if (isKept) told.push("kept");
  else if (box.isCertain) told.push("in every answer");
  return told.join(", ");
}

/** The boxes of a phase that the reading has, in words, for the legend. */
export function drawLegend() {
  const { phases } = state.server;
  const seen = new Set(state.reading.boxes.map((box) => box.phase));
  const entries = phases.filter((phase) => seen.has(phase)).map((phase) => {
    return make("li", { class: `hue-${hueOf(phase, phases)}` },
      make("span", { class: "swatch", "aria-hidden": "true" }), make("b", {}, phase), ` ${phaseInWords(phase)}`);
  });
  const certain = state.reading.boxes.some((box) => box.isCertain)
    ? make("li", { class: "certain-entry" }, make("b", {}, "✓"), " in every answer") : null;
  fill(byId("legend"), make("ul", { "aria-label": "Kinds of segments" }, entries, certain));
}

// Keys. One box at a time can be reached by Tab; the arrow keys go on from it.

/** Goes to the grid, where it has a box. */
export function focusGrid() {
  byId("grid").querySelector(".keep[tabindex='0']")?.focus();
}

function prepareKeys(grid, actions, isFocused) {
  const elements = [...grid.querySelectorAll(".box")];
  if (elements.length === 0) return;
  const { line } = state.reading;
  const old = grid.dataset.line === line ? Number(grid.dataset.here ?? 0) : 0;
  Object.assign(grid.dataset, { line, here: old });
  const here = elements[Math.min(old, elements.length - 1)];
  here.querySelector(".keep").tabIndex = 0;
  here.querySelector(".reject").tabIndex = 0;
  if (isFocused) here.querySelector(".keep").focus({ preventScroll: true });
  grid.onkeydown = (event) => onKey(event, elements, actions);
  grid.onfocusin = (event) => goTo(event.target.closest(".box"), elements);
  grid.oncontextmenu = (event) => {
    const element = event.target.closest(".box");
    if (!element) return;
    event.preventDefault();
    actions.showAnalyses(boxOf(element));
  };
}

function boxOf(element) {
  return state.reading.boxes[Number(element.dataset.number)];
}

function goTo(element, elements) {
  if (!element) return;
  for (const other of elements) {
    for (const button of other.children) button.tabIndex = other === element ? 0 : -1;
  }
  byId("grid").dataset.here = elements.indexOf(element);
}

function onKey(event, elements, actions) {
  const element = event.target.closest(".box");
  if (!element || event.ctrlKey || event.metaKey || event.altKey) return;
  const box = boxOf(element);
  const act = {
    ArrowLeft: () => step(element, elements, -1),
    ArrowRight: () => step(element, elements, 1),
    ArrowUp: () => stepRow(element, elements, -1),
    ArrowDown: () => stepRow(element, elements, 1),
    Home: () => focusBox(elements[0], elements),
    End: () => focusBox(elements.at(-1), elements),
    Delete: () => actions.reject(box),
    Backspace: () => actions.reject(box),
    r: () => actions.reject(box),
    a: () => actions.showAnalyses(box),
    u: () => actions.undo(),
  }[event.key];
  if (!act) return;
  event.preventDefault();
  act();
}

function focusBox(element, elements) {
  if (!element) return;
  goTo(element, elements);
  element.querySelector(".keep").focus();
}

function step(element, elements, by) {
  focusBox(elements[elements.indexOf(element) + by], elements);
}

/** The box in the next row with a box whose middle is nearest. */
function stepRow(element, elements, by) {
  const [row, middle] = [Number(element.style.gridRowStart), middleOf(element)];
  const rows = elements.map((other) => Number(other.style.gridRowStart)).filter((other) => (other - row) * by > 0);
  const next = by > 0 ? Math.min(...rows) : Math.max(...rows);
  const there = elements.filter((other) => Number(other.style.gridRowStart) === next);
  there.sort((one, other) => Math.abs(middleOf(one) - middle) - Math.abs(middleOf(other) - middle));
  focusBox(there[0], elements);
}

function middleOf(element) {
  return (Number(element.dataset.start) + Number(element.dataset.end)) / 2;
}
