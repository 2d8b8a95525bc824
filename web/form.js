// What only a printed page has: a form with name, date, units, outline, legend, library and a line to sign.

import { by, write } from "./dom.js";
import { ON_CHART, signs } from "./signs.js";
import { at, text } from "./text.js";
import { PARTIES, told } from "./units.js";

export function showForm(page, drawing) {
  const { state, panel, practising } = page.app;
  const { at: place, file } = state;
  const outline = file ? text("form.file", { at: place, file }) : text("form.outline", { at: place });
  const what = panel === "speeds" ? text("form.speed", { n: state.layer }) : practising ? text("form.practice") : outline;
  // Where there is no name, the line is left to be filled in by hand.
  write(by("form-name"), panel === "speeds" || practising ? "" : drawing.name);
  write(by("form-what"), what);
  write(by("form-date"), today());
  write(by("form-party"), text(`party.${PARTIES[state.party]}`));
  write(by("form-units"), told(page.units));
  write(by("letters-print"), outlineWords(drawing));
  const list = by("form-signs");
  if (list.children.length === 0) signs(list, ON_CHART);
}

// The day here, as year, month and day, which every country reads alike.
function today() {
  const now = new Date();
  const two = (n) => String(n).padStart(2, "0");
  return `${now.getFullYear()}-${two(now.getMonth() + 1)}-${two(now.getDate())}`;
}

// The start and the letters.
function outlineWords({ start, letters }) {
  if (!letters) return text("outline.none");
  return text("outline.print", { start: at(start), letters: letters.join("") });
}
