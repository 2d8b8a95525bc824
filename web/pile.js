// Example blocks for sixteen speeds: the layers of an egg, which no section dents; or the same with one layer too small.

import { LAYERS } from "./app.js";
import { Cells } from "./chart.js";
import { ofCells } from "./drawing.js";

const MIDDLE = [120, 90];
const HALF = [60, 38];

// The cells of an ellipse whose halves are those of the egg, times a factor.
function ellipse(square) {
  const cells = [];
  for (let col = -HALF[0]; col <= HALF[0]; col++) {
    for (let row = -HALF[1]; row <= HALF[1]; row++) {
      if ((col / HALF[0]) ** 2 + (row / HALF[1]) ** 2 <= square) cells.push([MIDDLE[0] + col, MIDDLE[1] + row]);
    }
  }
  return ofCells(Cells.of(cells));
}

export function examplePile(dented) {
  return Array.from({ length: LAYERS }, (_, layer) => {
    const square = 1 - ((layer - 7.5) / 9) ** 2;
    return ellipse(dented && layer === 9 ? square * 0.6 : square);
  });
}
