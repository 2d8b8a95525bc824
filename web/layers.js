// Dents of the sections through sixteen speeds, and the cells that every repair has. The library judges what comes of it.
//
// A set of cells is closed if no section at a column, at a row or at a speed lacks a cell of its hull. What closed sets have in common is
// closed, so there is a least closed set round any cells: the hull of each section, taken again until nothing changes. It is part of every
// repair. It is a repair itself, and then the smallest, if each of its speeds is one block; docs/DECISIONS.md has a pile that has none.

import { Cells, SIDE } from "./chart.js";

// The least and the greatest of a hull at each place, from those of its points: whole numbers only. Null where there is none.
function hull(least, most) {
  const first = least.findIndex((n) => n !== null);
  if (first < 0) return null;
  return { first, low: chain(least, (n) => n, Math.ceil), high: chain(most, (n) => -n, Math.floor) };
}

// One side of the hull: the chain of points that turns one way, and its whole numbers at the places between.
function chain(points, sign, round) {
  const kept = [];
  points.forEach((n, i) => {
    if (n === null) return;
    const point = [i, sign(n)];
    while (kept.length > 1 && above(kept[kept.length - 2], kept[kept.length - 1], point)) kept.pop();
    kept.push(point);
  });
  const found = Array(points.length).fill(null);
  kept.forEach(([i, n], k) => {
    found[i] = sign(n);
    const [j, m] = kept[k + 1] ?? [i, n];
    for (let x = i + 1; x < j; x++) found[x] = round(sign((n * (j - x) + m * (x - i)) / (j - i)));
  });
  return found;
}

// Whether the point between two others lies on their line or above it.
const above = ([ax, ay], [bx, by], [cx, cy]) => (by - ay) * (cx - ax) >= (cy - ay) * (bx - ax);

// How a kind of section runs: how many places it has along, the layer and the first cell of a place, and the way from a cell to the next. A
// speed is a section too, with rows along and columns across.
const WAYS = {
  column: { along: ({ length }) => length, layer: (_, place) => place, from: (section) => section, step: SIDE },
  row: { along: ({ length }) => length, layer: (_, place) => place, from: (section) => section * SIDE, step: 1 },
  layer: { along: () => SIDE, layer: (section) => section, from: (_, place) => place * SIDE, step: 1 },
};

// Calls `lacks` with the layer, the index and the place across of every cell that a section lacks.
function search(marks, kind, section, lacks) {
  const { along, layer, from, step } = WAYS[kind];
  const length = along(marks);
  const [least, most] = [Array(length).fill(null), Array(length).fill(null)];
  for (let place = 0; place < length; place++) {
    const found = marks[layer(section, place)];
    const base = from(section, place);
    for (let n = 0; n < SIDE; n++) {
      if (!found[base + n * step]) continue;
      least[place] ??= n;
      most[place] = n;
    }
  }
  const sides = hull(least, most);
  if (!sides) return;
  for (let place = sides.first; place < length && sides.low[place] !== null; place++) {
    const found = marks[layer(section, place)];
    const base = from(section, place);
    for (let n = sides.low[place]; n <= sides.high[place]; n++) {
      if (!found[base + n * step]) lacks(layer(section, place), base + n * step, n);
    }
  }
}

const marksOf = (layers) => layers.map(({ cells }) => cells?.marks ?? new Uint8Array(SIDE * SIDE));

// Every dented section: its kind and place, and what it lacks as [speed, row or column]. For each speed the cells that it lacks, and in
// how many sections.
export function dents(layers) {
  const marks = marksOf(layers);
  const lacking = layers.map(() => ({ marks: new Uint8Array(SIDE * SIDE), sections: 0 }));
  const sections = [];
  for (const kind of ["column", "row"]) {
    for (let place = 0; place < SIDE; place++) {
      const gone = [];
      search(marks, kind, place, (layer, i, n) => {
        gone.push([layer, n]);
        lacking[layer].marks[i] = 1;
      });
      if (gone.length === 0) continue;
      sections.push({ piece: kind === "column" ? 0 : 1, place, gone });
      for (const layer of new Set(gone.map(([layer]) => layer))) lacking[layer].sections++;
    }
  }
  return { sections, lacking: lacking.map(({ marks: found, sections: n }) => ({ cells: new Cells(found), sections: n })) };
}

// The least set round the layers that lacks no cell in any section, as sets of cells.
export function closure(layers) {
  const marks = marksOf(layers).map((found) => found.slice());
  for (let changed = true; changed; ) {
    changed = false;
    const fill = (layer, i) => {
      marks[layer][i] = 1;
      changed = true;
    };
    for (let layer = 0; layer < marks.length; layer++) search(marks, "layer", layer, fill);
    for (const kind of ["column", "row"]) for (let place = 0; place < SIDE; place++) search(marks, kind, place, fill);
  }
  return marks.map((found) => new Cells(found));
}
