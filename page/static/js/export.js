// Finished lines as TSV: the line, its reading, and its analyses.

import { blanksOf } from "./bookmark.js";
import { isJoined } from "./phases.js";
import { showWord } from "./schemes.js";

/** A row for each finished entry, in their order, in the letters of the answers. */
export function tsvOf(entries, output) {
  const rows = entries.map(({ note }) => {
    const line = note.bookmark.split(";")[1];
    const written = line.split("_").map((word) => showWord(output, word)).join(" ");
    return [written, readingOf(note.segments, line, output), analysesOf(note.segments, output)].join("\t");
  });
  return `${["line", "reading", "analyses"].join("\t")}\n${rows.map((row) => `${row}\n`).join("")}`;
}

/** The forms of a reading, with hyphens in compounds. */
export function readingOf(segments, line, output) {
  const blanks = blanksOf(line);
  return segments.map((segment, number) => {
    const form = showWord(output, segment.form);
    const next = segments[number + 1];
    if (!next) return form;
    const isCut = blanks.some((blank) => segment.at + segment.taken <= blank && blank <= next.at);
    return form + (!isCut && isJoined(segment.phase, next.phase) ? "-" : " ");
  }).join("");
}

function analysesOf(segments, output) {
  return segments.map(({ form, tags }) => {
    const told = tags.map(([stem, tag]) => `${showWord(output, stem)} ${tag}`).join(" / ");
    return `${showWord(output, form)}: ${told}`;
  }).join("; ");
}
