// ---------- Elements; every text gets into them as a text, never as HTML ----------

const $ = id => document.getElementById(id);
const all = selector => [...document.querySelectorAll(selector)];
const valueOf = id => $(id).value;
const listOf = id => valueOf(id).trim().split(/\s*;\s*/).join(";");
let language = "en";
const locale = () => language === "de" ? "de-DE" : "en-GB";
// A text of the table, in the form that fits the number `n`, with its values.
function formOf(key, n) {
  const forms = TEXTS[key][language === "de" ? 1 : 0].split("|");
  return forms[n === 1 ? 0 : forms.length - 1];
}
const text = (key, values = {}) => formOf(key, values.n).replace(/\{([a-z]+)\}/g, (_, name) => values[name]);
// The same with values that are shown apart from the text around them.
function phrase(key, values) {
  return formOf(key, values.n).split(/\{([a-z]+)\}/).map((one, at) => at % 2 === 0 ? one
    : values[one] instanceof Node ? values[one] : shown(values[one]));
}
// el("p.soft", { click: .. }, ..): an element with its classes, attributes, listeners and what is inside.
function el(names, attributes = {}, ...inside) {
  const [name, ...classes] = names.split(".");
  const made = document.createElement(name);
  if (classes.length) made.className = classes.join(" ");
  for (const [key, value] of Object.entries(attributes)) {
    if (typeof value === "function") made.addEventListener(key, value);
    else if (value !== false && (value ?? null) !== null) made.setAttribute(key, value === true ? "" : value);
  }
  made.append(...inside.flat(2).filter(one => one !== null && one !== undefined && one !== ""));
  return made;
}
const button = (key, click, classes = "") => el("button" + classes, { type: "button", click }, text(key));
// A text from elsewhere: its direction is its own, and what would not be seen in it is.
const shown = value => el("bdi", { dir: "auto" }, seenParts(String(value)).map((part, at) =>
  at % 2 ? el("span.unseen", {}, part) : part));
// What the treasury says, in the language of the page where it is known there, and otherwise in its own.
const patternOf = ([form, wanted]) => {
  const parts = form.split("{}").map(part => part.replace(/[.*+?^${}()|[\]\\]/g, "\\$&"));
  return { form: new RegExp("^" + parts.join("(.+?)") + "$", "su"), wanted };
};
const GERMAN = SAID.map(patternOf), OWN_WORDS = REWORDED.map(patternOf);
// The parts of a text by the first pattern that it has: those of the pattern, and between them those of the text.
function rewritten(patterns, line) {
  for (const { form, wanted } of patterns) {
    const found = form.exec(line);
    if (found) return wanted.split("{}").flatMap((part, at) => at ? [found[at], part] : [part]);
  }
  return null;
}
function said(line) {
  const own = rewritten(OWN_WORDS, line)?.join("") ?? line;
  if (language !== "de") return shown(own);
  const parts = rewritten(GERMAN, own);
  return parts ? el("span", {}, parts.map((part, at) => at % 2 ? shown(part) : part))
    : el("span", { lang: "en" }, shown(own));
}
const facts = rows => el("dl.facts", {}, rows.filter(Boolean).map(([name, value]) =>
  [el("dt", {}, name), el("dd", {}, value instanceof Node ? value : shown(value))]));
const panel = (kind, ...inside) => el("div.panel." + kind, { tabindex: "-1" }, ...inside);
const buttons = (...inside) => el("div.buttons", {}, ...inside);
const headRow = (keys, amountKeys, also, last = []) => el("thead", {}, el("tr", {},
  keys.map(key => el("th", { scope: "col" }, text(key))),
  amountKeys.map(key => el("th.amount", { scope: "col" }, text(key))), also ? el("td") : null,
  last.map(key => el("th", { scope: "col" }, text(key)))));
const named = (key, ...inside) => el("td", { "data-name": text(key) }, ...inside);
