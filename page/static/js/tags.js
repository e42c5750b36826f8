// Tags in words: `m.sg.nom` is "masculine, singular, nominative".

const WORDS = {
  m: "masculine", f: "feminine", n: "neuter",
  sg: "singular", du: "dual", pl: "plural",
  nom: "nominative", acc: "accusative", ins: "instrumental", dat: "dative", abl: "ablative", gen: "genitive",
  loc: "locative", voc: "vocative",
  pr: "present", impf: "imperfect", imp: "imperative", opt: "optative", fut: "future", perf: "perfect", aor: "aorist",
  ac: "active", md: "middle", ps: "passive",
  1: "first person", 2: "second person", 3: "third person",
  iic: "first member of a compound", pv: "preverb", ind: "indeclinable",
};

/** A tag in words. A part that is not known stays as it is. */
export function tagInWords(tag) {
  return tag.split(".").map((part) => WORDS[part] ?? part).join(", ");
}

/** A tag as it is abbreviated in print. */
export function tagInShort(tag) {
  return tag.split(".").map((part) => `${part}.`).join(" ");
}
