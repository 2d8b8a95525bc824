// A drawing: an outline as it was read, or as the border of marked cells. It never changes, so what is found of it stays true of it.

import { borderOrFaults, enclosed, isSimple } from "./border.js";
import { Cells } from "./chart.js";

export const BLANK = ofCells(new Cells());

// Cells that have no single border have no letters.
export function ofCells(cells, name = "") {
  return { name, cells, ...(cells.empty ? { letters: null, faults: [] } : borderOrFaults(cells)) };
}

// An outline that is no simple walk has no cells. Its cells are found when they are asked for: a file may have many outlines.
export function ofOutline({ name = "", start, letters }) {
  let found;
  return {
    name,
    start,
    letters,
    faults: [],
    get cells() {
      if (found === undefined) found = isSimple(start, letters) ? enclosed(start, letters) : null;
      return found;
    },
  };
}

// The same drawing under another name.
export const named = (drawing, name) => (drawing.name === name ? drawing : { ...drawing, name });

// With cells marked or not; the same drawing if nothing changes. A change to an outline without cells begins a new block.
export function marked(drawing, cells, mark) {
  const base = drawing.cells ?? new Cells();
  const next = base.with(cells, mark);
  return next === base ? drawing : ofCells(next, drawing.name);
}
