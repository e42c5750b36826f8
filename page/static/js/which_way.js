// The question which way of entering a form is meant, where one box stands for several.

import { byId, fill, make } from "./dom.js";
import { showWord } from "./schemes.js";
import { setting } from "./settings.js";

/** Asks which of a box's ways is meant. Gives its segment, or null where the reader went away. */
export function askWhichWay(box) {
  const output = setting("output");
  const form = showWord(output, box.form);
  const dialog = byId("which-way");
  byId("which-way-text").textContent = `${form} is entered in ${box.ways.length} ways. Which one is kept?`;
  return new Promise((resolve) => {
    const answer = (segment) => {
      dialog.close();
      resolve(segment);
    };
    fill(
      byId("which-way-choices"),
      box.ways.map((way) => make("button", { type: "button", on: { click: () => answer(way) } }, wayInWords(way, output))),
      make("button", { type: "button", class: "quiet", on: { click: () => answer(null) } }, "Keep none")
    );
    dialog.addEventListener("close", () => resolve(null), { once: true });
    dialog.showModal();
  });
}

/** How a form is entered, by the rules before it. */
export function wayInWords(way, output) {
  if (way.lead === 0) return way.at === 0 ? "at the beginning of the line" : "after a form that ends unchanged";
  const rules = way.rules.filter(Boolean).map((rule) => ruleInWords(rule, output));
  return `its beginning merged with the form before: ${rules.join("; ") || "by a rule"}`;
}

/** A rule `u|v>w` as it is read: u + v → w. */
export function ruleInWords(rule, output) {
  const [, u, v, w] = /^([^|]*)\|([^>]*)>(.*)$/.exec(rule);
  const written = (word) => showWord(output, word);
  return v ? `${written(u)} + ${written(v)} → ${written(w)}` : `${written(u)} → ${written(w)} at the end`;
}
