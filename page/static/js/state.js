// What the page knows, and the address that leads back to it.

/** The one state of a tab. Views draw it; only `reader.js` and `text_room.js` change it. */
export const state = {
  server: null, // what the server told at the start
  twin: 0, // 1 where the lexicon for texts without sandhi between words is used
  typed: "", // the line as it was typed
  scheme: "devanagari",
  isGuessed: true, // whether the scheme was guessed, and not chosen
  mayCut: false, // whether the line was read across a danda, and could be cut there
  parts: [], // the parts of the verse, where it was cut: `{ slp1, from, to, changes }`
  part: 0,
  changes: [], // what cleaning changed in the line that is read
  reading: null, // the server's answer
  begin: 0, // the first answer that is shown
  stretch: null,
  place: null, // where the line stands in a text: `{ text, line, part }`
};

/** The address of a reading: the lexicon, the bookmark, and the place in a text. */
export function addressOf({ server, twin, reading, place }) {
  const fields = new URLSearchParams({ lexicon: server.lexicon });
  if (twin) fields.set("twin", "1");
  if (reading) fields.set("mark", reading.bookmark);
  if (place) {
    fields.set("text", place.text);
    fields.set("line", place.line);
    fields.set("part", place.part);
  }
  return `#${fields}`;
}

/** What an address says, or null where it says nothing. */
export function readAddress(hash) {
  const fields = new URLSearchParams(hash.replace(/^#/, ""));
  if (!fields.get("mark") && !fields.get("text")) return null;
  const text = fields.get("text");
  return {
    lexicon: fields.get("lexicon"),
    twin: fields.get("twin") === "1" ? 1 : 0,
    mark: fields.get("mark"),
    place: text ? { text, line: Number(fields.get("line")), part: Number(fields.get("part")) } : null,
  };
}
