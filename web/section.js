// A section through the sixteen layers, and the cells that are missing from it.

import { element, polyline } from "./svg.js";
import { text } from "./text.js";

// Marked cells of the section at a column or a row: [layer, row or column].
export function sectionOf(layers, { piece, place }) {
  const found = [];
  layers.forEach(({ cells }, layer) => {
    for (let n = 0; n < 255; n++) if (cells?.has(...(piece === 0 ? [place, n] : [n, place]))) found.push([layer, n]);
  });
  return found;
}

// Above 0 if x is right of the way from p to q.
const right = (p, q, x) => (q[1] - p[1]) * (x[0] - p[0]) - (q[0] - p[0]) * (x[1] - p[1]);

// One side of a hull, clockwise.
function chain(points) {
  const kept = [];
  for (const point of points) {
    while (kept.length > 1 && right(kept[kept.length - 2], kept[kept.length - 1], point) <= 0) kept.pop();
    kept.push(point);
  }
  return kept.slice(0, -1);
}

// Cells in the hull of the marked ones that are not marked. The page walks round the hull; the library says which cells are in it.
export function missingFrom(engine, marks) {
  const sorted = [...marks].sort((a, b) => a[0] - b[0] || a[1] - b[1]);
  const corners = sorted.length > 1 ? [...chain(sorted), ...chain([...sorted].reverse())] : sorted;
  const [anchor] = corners;
  const edges = corners.length < 2 ? [] : corners.map(([x, y], i) => {
    const [nx, ny] = corners[(i + 1) % corners.length];
    return { dx: nx - x, dy: ny - y };
  });
  const marked = new Set(marks.map((cell) => cell.join()));
  const [low, high] = [Math.min(...marks.map(([, n]) => n)), Math.max(...marks.map(([, n]) => n))];
  const found = [];
  for (let col = sorted[0][0]; col <= sorted[sorted.length - 1][0]; col++) {
    for (let row = low; row <= high; row++) {
      if (marked.has(`${col},${row}`)) continue;
      if (engine.looseQuery({ anchor: { col: anchor[0], row: anchor[1] }, edges, cell: { col, row } }).inside) found.push([col, row]);
    }
  }
  return found;
}

const LEFT = 46;
const WIDTH = 340;
const HEIGHT = 92;

// The section as a picture: speeds along, and the axis of that name up.
export function drawSection(svg, marks, missing, upward) {
  const [low, high] = [Math.min(...marks.map(([, n]) => n)) - 1, Math.max(...marks.map(([, n]) => n)) + 2];
  const [wide, tall] = [(WIDTH - LEFT - 4) / 16, HEIGHT / (high - low)];
  const tile = (name) => ([layer, n]) => {
    const place = { x: LEFT + layer * wide, y: (high - n - 1) * tall, width: wide, height: tall };
    return element("rect", { class: name, ...place, "data-cell": `${layer} ${n}` });
  };
  svg.setAttribute("viewBox", `0 0 ${WIDTH} ${HEIGHT + 34}`);
  const number = (_, n) => element("text", { class: "middle", x: LEFT + (n + 0.5) * wide, y: HEIGHT + 14 }, String(n));
  const ends = [low + 1, high - 2].map((n) => element("text", { class: "right", x: LEFT - 4, y: (high - n - 0.5) * tall + 4 }, String(n)));
  svg.replaceChildren(
    element("rect", { class: "field", x: LEFT, width: wide * 16, height: HEIGHT }),
    ...marks.map(tile("cells")),
    ...missing.map(tile("gone")),
    element("path", { class: "side", d: polyline([[LEFT, 0], [LEFT, HEIGHT], [LEFT + wide * 16, HEIGHT]]) }),
    ...Array.from({ length: 16 }, number),
    ...ends,
    element("text", { class: "middle axis", x: LEFT + wide * 8, y: HEIGHT + 31 }, text("section.speed")),
    element("text", { class: "middle axis", transform: `translate(10 ${HEIGHT / 2}) rotate(-90)` }, upward),
  );
}
