// The cells of what a tool draws.

import { onChart } from "./chart.js";
import { part } from "./border.js";

// The cells from one to another, both among them. Each shares a side with the next, so that a line is a block by itself.
export function line([c0, r0], [c1, r1]) {
  const [wide, high] = [Math.abs(c1 - c0), Math.abs(r1 - r0)];
  const [dc, dr] = [Math.sign(c1 - c0), Math.sign(r1 - r0)];
  const cells = [[c0, r0]];
  for (let [i, j] = [0, 0]; i + j < wide + high; ) {
    if ((2 * i + 1) * high < (2 * j + 1) * wide) i++;
    else j++;
    cells.push([c0 + dc * i, r0 + dr * j]);
  }
  return cells;
}

export function rectangle([c0, r0], [c1, r1]) {
  const [left, right, bottom, top] = [Math.min(c0, c1), Math.max(c0, c1), Math.min(r0, r1), Math.max(r0, r1)];
  const cells = [];
  for (let row = bottom; row <= top; row++) {
    for (let col = left; col <= right; col++) cells.push([col, row]);
  }
  return cells;
}

// What filling at a cell changes: a closed part that is not marked, or, to erase, a part that is. None if there is nothing to fill.
export function filling(cells, at, mark) {
  if (!onChart(...at) || cells.has(...at) === mark) return [];
  const { cells: found, open } = part(cells, at);
  return mark && open ? [] : found;
}
