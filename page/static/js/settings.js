// What the reader chose last, kept by the browser: letters of the answers, the scheme, the order, light or dark.

const KEY = "sandhi-page";
const DEFAULTS = { output: "iast", scheme: "devanagari", order: "program", theme: "auto", sandhi: true };
const ALLOWED = {
  output: ["devanagari", "iast", "slp1"],
  scheme: ["devanagari", "iast", "slp1", "hk", "velthuis", "wx"],
  order: ["program", "words"],
  theme: ["auto", "light", "dark"],
  sandhi: [true, false],
};

const settings = { ...DEFAULTS, ...kept() };

function kept() {
  try {
    const found = JSON.parse(localStorage.getItem(KEY) ?? "{}");
    return Object.fromEntries(Object.entries(ALLOWED).flatMap(([name, values]) => {
      return values.includes(found[name]) ? [[name, found[name]]] : [];
    }));
  } catch {
    return {};
  }
}

export function setting(name) {
  return settings[name];
}

export function choose(name, value) {
  if (!ALLOWED[name].includes(value)) return;
  settings[name] = value;
  try {
    localStorage.setItem(KEY, JSON.stringify(settings));
  } catch {
    // A browser that keeps nothing still shows the page.
  }
}
