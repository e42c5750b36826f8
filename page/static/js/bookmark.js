// Bookmarks: the text of a line with a reader's choices, `1;LINE;CHOICES;PRINTED;KEYS`, as the program prints and reads it.

/** A bookmark's line and its choices as texts, oldest first. */
export function parts(bookmark) {
  const [, line, choices] = bookmark.split(";");
  return { line, choices: choices ? choices.split(",") : [] };
}

/** A bookmark before its first answer. A text that is no bookmark stays as it is, so that the program refuses it. */
export function atFirst(bookmark) {
  const { line, choices } = parts(bookmark);
  return bookmark.startsWith("1;") && line ? withChoices(line, choices) : bookmark;
}

/** The bookmark of a line and choices before its first answer. */
export function withChoices(line, choices) {
  return `1;${line};${choices.join(",")};0;`;
}

/** The text of a choice. */
export function choiceText(isKept, segment, phases) {
  return `${isKept ? "+" : "-"}${segment.at}.${segment.lead}.${phases.indexOf(segment.phase)}.${segment.form}`;
}

/** The bookmark with these segments kept or rejected besides. */
export function choosing(bookmark, isKept, segments, phases) {
  const { line, choices } = parts(bookmark);
  const added = segments.map((segment) => choiceText(isKept, segment, phases));
  return withChoices(line, [...choices, ...added]);
}

/** The bookmark without some of its choices, by their numbers from 0. */
export function withoutChoices(bookmark, numbers) {
  const { line, choices } = parts(bookmark);
  return withChoices(line, choices.filter((_, number) => !numbers.includes(number)));
}

/** The places of the blanks of a line: how many letters come before each. */
export function blanksOf(line) {
  const blanks = [];
  let letters = 0;
  for (const sign of line) {
    if (sign === "_") blanks.push(letters);
    else letters += 1;
  }
  return blanks;
}

export function lettersOf(line) {
  return line.replaceAll("_", "");
}
