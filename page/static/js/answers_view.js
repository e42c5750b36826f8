// The answers: forms with the sandhi between them, compounds with hyphens, analyses at a click.

import { analysesTable } from "./analyses_view.js";
import { blanksOf } from "./bookmark.js";
import { byId, fill, make, show } from "./dom.js";
import { hueOf, isJoined, phaseInWords } from "./phases.js";
import { SHOWN, askForAnalyses, blockShown } from "./reader.js";
import { showWord } from "./schemes.js";
import { setting } from "./settings.js";
import { state } from "./state.js";
import { ruleInWords } from "./which_way.js";

const BLOCK = 1000; // answers that the server sorts and counts at once

export function drawAnswers(actions) {
  const { answers } = state.reading;
  show(byId("answers-section"), answers.length > 0);
  const blanks = blanksOf(state.reading.line);
  fill(byId("answers"), answers.map((answer) => answerElement(answer, blanks, actions)));
  byId("answers").classList.toggle("with-sandhi", setting("sandhi"));
  byId("sandhi-shown").checked = setting("sandhi");
  drawOrderNote();
  drawPager(actions);
}

function answerElement(answer, blanks, actions) {
  const frame = make("div", { class: "analyses-frame" });
  const words = answer.steps.flatMap((step, number) => {
    const next = answer.steps[number + 1];
    const isHyphened = next && isOneWord(step, next, blanks);
    const unit = make("span", { class: "unit" },
      formElement(step, () => toggleAnalyses(frame, [step], actions)),
      isHyphened ? make("span", { class: "hyphen" }, "-") : null,
      step.rule ? ruleElement(step.rule) : null);
    return isHyphened || !next ? [unit, make("wbr")] : [unit, " "];
  });
  const all = make("button", {
    type: "button", class: "quiet all-analyses", "aria-label": `All analyses of answer ${answer.number}`,
    on: { click: () => toggleAnalyses(frame, answer.steps, actions) },
  }, "analyses");
  return make("li", { value: answer.number, class: "answer" }, make("p", { class: "words sanskrit" }, words), all, frame);
}

function formElement(step, onClick) {
  const form = showWord(setting("output"), step.form);
  const title = phaseInWords(step.phase);
  return make("button", {
    type: "button", class: `form hue-${hueOf(step.phase, state.server.phases)}`, title,
    "aria-label": `Analyses of ${form}, ${title}`, data: { phase: step.phase }, on: { click: onClick },
  }, form);
}

/** Whether two forms make a compound, or a preverb and its verb: no blank of the line is where they meet. */
function isOneWord(step, next, blanks) {
  const from = step.at + step.taken;
  const isCut = blanks.some((blank) => from <= blank && blank <= step.writtenTo);
  return !isCut && isJoined(step.phase, next.phase);
}

/** The rule by which a form met the next one, or by which the line ends. */
function ruleElement({ u, v, w }) {
  return make("span", { class: "rule" }, ruleInWords(`${u}|${v}>${w}`, setting("output")));
}

async function toggleAnalyses(frame, segments, actions) {
  const key = segments.map(({ at, lead, phase, form }) => [at, lead, phase, form].join()).join(";");
  if (frame.dataset.key === key) {
    delete frame.dataset.key;
    return fill(frame);
  }
  frame.dataset.key = key;
  await actions.guarded(async () => {
    const answer = await askForAnalyses(segments);
    if (frame.dataset.key === key) fill(frame, answer.refused ? null : analysesTable(segments, answer));
  });
}

function drawOrderNote() {
  const note = byId("order-note");
  const { printed, count } = blockShown();
  const isSorted = setting("order") === "words";
  show(note, isSorted && (state.reading.hasMore || printed > 0));
  note.textContent = printed > 0
    ? `Sorted are the answers ${(printed + 1).toLocaleString("en")} to ${(printed + count).toLocaleString("en")}.`
    : `Sorted are the first ${BLOCK.toLocaleString("en")} answers.`;
}

function drawPager(actions) {
  const { printed, count, next } = blockShown();
  const { begin } = state;
  const shown = state.reading.answers.length;
  const isAtFirst = begin === 0 && printed === 0;
  const hasNext = begin + shown < count || next !== "";
  show(byId("pager"), !isAtFirst || hasNext);
  const first = printed + begin + 1;
  const told = (number) => number.toLocaleString("en");
  const range = shown > 1 ? `${told(first)} to ${told(first + shown - 1)}` : told(first);
  const button = (words, isOn, onClick) => make("button", { type: "button", disabled: !isOn, on: { click: onClick } }, words);
  fill(byId("pager"),
    button("First", !isAtFirst, () => actions.showAnswers(0, state.reading.bookmark)),
    button("Back", begin > 0, () => actions.showAnswers(Math.max(0, begin - SHOWN))),
    make("span", { role: "status" }, range),
    button("On", hasNext, () => {
      if (begin + shown < count) actions.showAnswers(begin + SHOWN);
      else actions.showAnswers(0, next);
    }));
}
