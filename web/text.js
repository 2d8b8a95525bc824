// Sentences from the table of the reader's language, with their values put in.

import { MESSAGES as ENGLISH } from "./messages.js";
import { MESSAGES as GERMAN } from "./messages.de.js";

const PLACE = "robequarry-language";

// The tables, one for each language. A page that was written with a table of its own has that one only.
export const TABLES = [ENGLISH, GERMAN].filter((table, i, all) => all.findIndex(({ lang }) => lang === table.lang) === i);

// The language of the page's address, or that was chosen by hand, else the first of the browser's for which there is a table.
function chosen() {
  const wanted = [location.hash.slice(1), kept(), ...navigator.languages].filter(Boolean);
  for (const lang of wanted) {
    const found = TABLES.find((table) => lang === table.lang || lang.startsWith(`${table.lang}-`));
    if (found) return found;
  }
  return TABLES[0];
}

function kept() {
  try {
    return localStorage.getItem(PLACE);
  } catch {
    return null;
  }
}

// Where the browser keeps nothing, the page's address has it.
export function keepLanguage(lang) {
  try {
    localStorage.setItem(PLACE, lang);
    location.hash = "";
  } catch {
    location.hash = lang;
  }
}

export const MESSAGES = chosen();

const rules = new Intl.PluralRules(MESSAGES.lang);

// The text of a key. `{name}` in it stands for the value of that name.
export function text(key, values = {}) {
  const found = MESSAGES[key];
  if (found === undefined) throw new Error(key);
  return found.replace(/\{(\w+)\}/g, (_, name) => String(values[name]));
}

// A count of things: `cell.zero` for none, else the form that the language has for the number.
export function count(n, thing) {
  const form = n === 0 ? "zero" : rules.select(n);
  const number = new Intl.NumberFormat(MESSAGES.lang).format(n);
  return text(`${thing}.${form}` in MESSAGES ? `${thing}.${form}` : `${thing}.other`, { n: number });
}

// A cell or a corner.
export const at = ([col, row]) => text("pair", { col, row });

// The name of a block that ships with the page, in the reader's language; other names are the reader's own.
export const blockName = (name) => MESSAGES[`block.${name}`] ?? name;

// Puts the reader's language where the file has the first table's: into elements, and into attributes of them.
export function translate(root) {
  root.documentElement.lang = MESSAGES.lang;
  root.documentElement.dir = MESSAGES.dir;
  for (const element of root.querySelectorAll("[data-text]")) element.textContent = text(element.dataset.text);
  for (const element of root.querySelectorAll("[data-texts]")) {
    for (const pair of element.dataset.texts.split(" ")) {
      const [name, key] = pair.split("=");
      element.setAttribute(name, text(key));
    }
  }
}
