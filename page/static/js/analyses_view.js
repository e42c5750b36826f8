// Analyses in words: stem, tag, and where the lexicon's folder has them, root and gloss.

import { make } from "./dom.js";
import { hueOf, phaseInWords } from "./phases.js";
import { showWord } from "./schemes.js";
import { setting } from "./settings.js";
import { state } from "./state.js";
import { tagInShort, tagInWords } from "./tags.js";

const HEADS = ["Form", "Stem", "Analysis", "Abbreviated", "Meaning"];

/** The analyses of segments as a table, a group of rows for each segment. */
export function analysesTable(segments, { analyses, stems }) {
  const groups = segments.map((segment, number) => segmentRows(segment, analyses[number], stems));
  return make("table", { class: "analyses", role: "table" },
    make("caption", { class: "unseen" }, "Analyses"),
    make("thead", { class: "unseen" }, row(HEADS.map((head) => make("th", { scope: "col" }, head)))),
    groups);
}

function segmentRows(segment, analyses, stems) {
  const output = setting("output");
  const hue = hueOf(segment.phase, state.server.phases);
  const size = Math.max(1, analyses.length);
  const head = make("th", { scope: "rowgroup", role: "rowheader", rowspan: size, class: `hue-${hue}` },
    make("span", { class: "form sanskrit" }, showWord(output, segment.form)),
    make("span", { class: "phase" }, segment.phase));
  if (analyses.length === 0) return make("tbody", {}, row([head, make("td", { colspan: 4, role: "cell" }, "no analyses")]));
  const rows = analyses.map(([stem, tag], number) => row([
    number === 0 ? head : null,
    cell(output === "devanagari" ? "sanskrit" : "sanskrit stem", showWord(output, stem)),
    cell("tag", tagInWords(tag)),
    cell("short", tagInShort(tag)),
    cell("meaning", meaningOf(stems[stem], output)),
  ]));
  return make("tbody", { "aria-label": phaseInWords(segment.phase), role: "rowgroup", class: `hue-${hue}` }, rows);
}

// Roles are said, since rows that wrap where the page is narrow are no longer taken for those of a table.
function row(cells) {
  return make("tr", { role: "row" }, cells);
}

function cell(kind, text) {
  return make("td", { class: kind, role: "cell" }, text);
}

/** Root and gloss of a stem. A root is told as `ROOT WHICH STEM`, and the root itself is in SLP1. */
function meaningOf(stem, output) {
  if (!stem) return "";
  const roots = stem.roots.map((told) => {
    const [root, ...which] = told.split(" ");
    return `√${showWord(output, root)}${which.length > 0 ? ` (${which.join(" ")})` : ""}`;
  });
  return [...roots, ...stem.glosses].join("; ");
}
