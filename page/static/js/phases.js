// Phases: their names in words, and the hue of each.
//
// There are eight hues, which colour-blind people can tell apart (those of Okabe and Ito). Phases of one family share a
// hue; the letters of the phase, which stand in each box, tell the rest.

const FAMILIES = {
  noun: ["noun", "stem"],
  member: ["iic", "thing", "ifc", "priv"],
  pronoun: ["pron", "ipr"],
  preverb: ["pv"],
  verb: ["verb"],
  absolute: ["absy"],
  participle: ["part", "pstem"],
  particle: ["ind", "encl", "proh"],
};
const HUES = Object.keys(FAMILIES);
const FAMILY = new Map(Object.entries(FAMILIES).flatMap(([family, names]) => names.map((name) => [name, family])));

const WORDS = {
  ind: "indeclinable", encl: "enclitic", proh: "mā, prohibitive or enclitic", pron: "pronoun", ipr: "interrogative",
  noun: "noun, adjective or numeral",
  stem: "noun form that is a first member too", thing: "bare stem of a thing, in compounds only",
  iic: "first member of a compound", ifc: "last member of a compound", pv: "preverb",
  priv: "prefix a-, an-, not or without",
  verb: "finite verb, infinitive or absolutive", absy: "absolutive in -ya", part: "participle or gerundive",
  pstem: "participle that is a first member too",
};

// In a compound one of these comes before one of those; with a blank between them they are two words.
const BEFORE_MEMBER = new Set(["iic", "thing", "stem", "pstem", "priv"]);
const MEMBER = new Set(["iic", "thing", "stem", "pstem", "ifc", "noun", "part"]);
const PREVERB = new Set(["pv"]);
const AFTER_PREVERB = new Set(["pv", "verb", "absy", "part", "pstem"]);

/** The hue of a phase. One of no known family has a hue by its number. */
export function hueOf(phase, phases) {
  return FAMILY.get(phase) ?? HUES[Math.max(0, phases.indexOf(phase)) % HUES.length];
}

/** A phase in words, where it is known. */
export function phaseInWords(phase) {
  return WORDS[phase] ?? phase;
}

/** Whether a segment and the next one make a compound, or a preverb and its verb, where no blank is between them. */
export function isJoined(phase, next) {
  if (PREVERB.has(phase)) return AFTER_PREVERB.has(next);
  return (BEFORE_MEMBER.has(phase) && MEMBER.has(next)) || ((phase === "iic" || phase === "priv") && PREVERB.has(next));
}
