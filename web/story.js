// What the picture of a judged outline shows: the pieces from W on, and the library's reply on them.

import { walk } from "./border.js";
import { STEPS } from "./chart.js";

// The two letters of pieces 1 to 4, the earlier first.
export const LETTERS = [[0, 1], [3, 0], [2, 3], [1, 2]];

// From a corner of pieces 1 to 4, past their first letter, to the cell at the same point of the piece's word.
const TO_CELL = [[0, -1], [-1, -1], [-1, 0], [0, 0]];

const first = (corners, order) => corners.reduce((best, _, i) => (order(corners[i], corners[best]) < 0 ? i : best), 0);

// The clockwise form begun at W, with a way to find the letters as sent on it.
export function clockwiseForm(start, letters) {
  const count = letters.length;
  const sent = walk(start, letters).slice(0, count);
  const west = first(sent, (a, b) => a[0] - b[0] || a[1] - b[1]);
  const clockwise = letters[west] === 1;
  const turned = clockwise ? letters : [...letters].reverse().map((letter) => letter ^ 2);
  const from = clockwise ? west : (count - west) % count;
  const border = [...turned.slice(from), ...turned.slice(0, from)];
  const onBorder = (place) => ((clockwise ? place : count - 1 - place) + count - from) % count;
  return { clockwise, corners: walk(sent[west], border).slice(0, count), onBorder };
}

// Everything to draw of a drawing and its answer: cells, pieces, edges and marks.
export function story(drawing, answer) {
  if (!drawing.letters) return { cells: drawing.cells };
  const number = answer.kind === "taken" ? 0 : answer.reply.refusal.number;
  if (number !== 0 && number !== 8 && number !== 9) return walkOnly(drawing, answer.reply.refusal);
  const told = inPieces(drawing);
  if (number === 0) return { ...told, edges: answer.hull };
  const missing = { ...told, missing: answer.added, band: answer.hull, triangle: answer.witness };
  return number === 8 ? { ...missing, ...backStep(told, answer.reply.refusal) } : { ...missing, ...dent(told, answer.reply.refusal) };
}

// The border with W, N, E and S and the four pieces between them.
function inPieces({ start, letters, cells }) {
  const { corners, onBorder } = clockwiseForm(start, letters);
  const count = corners.length;
  const cut = [
    0,
    first(corners, (a, b) => b[1] - a[1] || a[0] - b[0]),
    first(corners, (a, b) => b[0] - a[0] || b[1] - a[1]),
    first(corners, (a, b) => a[1] - b[1] || b[0] - a[0]),
  ];
  const part = (from, length) => Array.from({ length: length + 1 }, (_, i) => corners[(from + i) % count]);
  const pieces = cut.map((from, k) => part(from, (cut[(k + 1) % 4] + count - from) % count));
  return { cells, start, names: cut.map((i, k) => ["WNES"[k], corners[i]]), pieces, cut, part, onBorder, count };
}

// The border up to the back-step is in pieces, the rest is not.
function backStep({ pieces, cut, part, onBorder, count }, { place, piece }) {
  const at = onBorder(place);
  const from = cut[piece - 1];
  const kept = [...pieces.slice(0, piece - 1), part(from, (at + count - from) % count)];
  return { pieces: kept, walk: part(at, count - at), step: part(at, 1) };
}

function dent({ part, onBorder }, { place, piece, length, cell }) {
  const [dc, dr] = TO_CELL[piece - 1];
  return { factor: part(onBorder(place), length).map(([col, row]) => [col + dc, row + dr]), named: [cell.col, cell.row] };
}

// Of an outline that is refused before it has pieces: its walk, and the spot.
function walkOnly({ start, letters, cells }, { number, place }) {
  const corners = walk(start, letters);
  const upTo = corners.slice(0, place + 1);
  const from = upTo[upTo.length - 1];
  if (number === 3) return { start, walk: upTo, spot: from };
  if (number === 4 || number === 6) {
    const [dc, dr] = STEPS[letters[place]];
    return { start, walk: upTo, step: [from, [from[0] + dc, from[1] + dr]] };
  }
  if (number === 5) return { start, walk: corners, gap: [corners[corners.length - 1], start] };
  return { start, walk: corners, cells };
}
