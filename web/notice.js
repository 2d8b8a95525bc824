// What the page has to tell besides: over its head, until it is put away. Each kind is told once, and a new one of it takes its place.

import { button, by } from "./dom.js";
import { text } from "./text.js";

// A notice of a kind. `choices` are buttons: their words and what they do.
export function tell(kind, words, choices = [], alarm = true) {
  unsay(kind);
  const row = document.createElement("div");
  row.dataset.kind = kind;
  row.className = alarm ? "alarm" : "";
  const said = document.createElement("p");
  said.textContent = words;
  const close = { words: text("notice.close"), work: () => {} };
  row.append(said, ...[...choices, close].map((choice) => made(choice, kind)));
  by("notices").append(row);
}

function made({ words, work }, kind) {
  const button_ = button([words]);
  button_.addEventListener("click", () => (unsay(kind), work()));
  return button_;
}

export function unsay(kind) {
  for (const row of by("notices").querySelectorAll(`[data-kind="${kind}"]`)) row.remove();
}
