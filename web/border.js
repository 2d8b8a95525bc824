// From cells to a border and from a border to cells. Nothing here is proved; the library judges every outline.

import { Cells, SIDE, STEPS } from "./chart.js";

// Cells with one more on each side, so that every cell of the chart has neighbours.
const WIDE = SIDE + 2;
const BESIDE = [1, WIDE, -1, -WIDE];
const wide = (col, row) => (row + 1) * WIDE + col + 1;
const cellOf = (i) => [(i % WIDE) - 1, Math.floor(i / WIDE) - 1];

function widened(cells) {
  const marks = new Uint8Array(WIDE * WIDE);
  for (let row = 0; row < SIDE; row++) marks.set(cells.marks.subarray(row * SIDE, row * SIDE + SIDE), wide(0, row));
  return marks;
}

// The border of a set, or why it has no single one that meets no corner twice: cells that meet at a corner alone, several parts, holes.
export function borderOrFaults(cells) {
  const marks = widened(cells);
  const corner = firstPinch(cells, marks);
  if (corner === null) {
    const found = border(cells);
    // One walk round the set comes along every side that it has, or there is another border.
    if (found.letters.length === sides(cells, marks)) return { ...found, faults: [] };
  }
  return { letters: null, faults: faults(marks, corner) };
}

// How many sides of cells lie between the set and the rest: two for each run in a row, and those above and below.
function sides(cells, marks) {
  let count = 2 * cells.runs().length;
  for (let i = WIDE; i < marks.length; i++) count += marks[i] ^ marks[i - WIDE];
  return count;
}

function faults(marks, corner) {
  const found = corner ? [{ kind: "corner", at: corner }] : [];
  const parts = regions(marks, 1);
  if (parts.length > 1) found.push({ kind: "parts", count: parts.length, cell: cellOf(parts[1]) });
  // The first of the others is the one round everything.
  const [, ...holes] = regions(marks, 0);
  if (holes.length > 0) found.push({ kind: "hole", count: holes.length, cell: cellOf(holes[0]) });
  return found;
}

// A corner at which two marked cells meet that share no side there: a run of a row begins where one of the row below it has ended.
function firstPinch(cells, marks) {
  for (const [row, first, last] of cells.runs()) {
    const above = (col) => marks[wide(col, row + 1)] === 1;
    if (above(first - 1) && !above(first)) return [first, row + 1];
    if (above(last + 1) && !above(last)) return [last + 1, row + 1];
  }
  return null;
}

// The lowest cell of each part of a kind: two cells are in one part if a way of shared sides leads from one to the other.
function regions(marks, kind) {
  const left = marks.slice();
  const found = [];
  for (let i = left.indexOf(kind); i >= 0; i = left.indexOf(kind, i + 1)) {
    found.push(i);
    spread(left, i);
  }
  return found;
}

// Takes a part out: its cells are 2 from then on. Returns them.
function spread(left, from) {
  const kind = left[from];
  const part = new Int32Array(left.length);
  let count = 1;
  part[0] = from;
  left[from] = 2;
  for (let k = 0; k < count; k++) {
    for (const step of BESIDE) {
      const next = part[k] + step;
      if (left[next] !== kind) continue;
      left[next] = 2;
      part[count++] = next;
    }
  }
  return part.subarray(0, count);
}

// The part that a cell is in, of marked or of other cells; whether it comes to the chart's edge.
export function part(cells, [col, row]) {
  const found = Array.from(spread(widened(cells), wide(col, row)), cellOf);
  const open = found.some(([c, r]) => c < 0 || r < 0 || c >= SIDE || r >= SIDE);
  return { cells: found, open };
}

// The border round the part with W, the lowest corner of the leftmost column: clockwise from there.
function border(cells) {
  let start = null;
  for (const [row, first] of cells.runs()) if (start === null || first < start[0]) start = [first, row];
  const letters = [1];
  let at = [start[0], start[1] + 1];
  while (at[0] !== start[0] || at[1] !== start[1]) {
    const letter = turn(cells, at, letters[letters.length - 1]);
    letters.push(letter);
    at = [at[0] + STEPS[letter][0], at[1] + STEPS[letter][1]];
  }
  return { start, letters };
}

// The cells on the left and on the right of a letter that leaves a corner, from that corner.
const AHEAD = [
  [[0, 0], [0, -1]],
  [[-1, 0], [0, 0]],
  [[-1, -1], [-1, 0]],
  [[0, -1], [-1, -1]],
];

// The letter that leaves a corner, reached by a letter with the set on its right.
function turn(cells, [col, row], letter) {
  const [[lc, lr], [rc, rr]] = AHEAD[letter];
  if (!cells.has(col + rc, row + rr)) return (letter + 3) % 4;
  return cells.has(col + lc, row + lr) ? (letter + 1) % 4 : letter;
}

// The corners of a walk, one more than letters, up to the first that is off the chart and the first byte that is no letter.
export function walk(start, letters) {
  const corners = [start];
  let [col, row] = start;
  for (const letter of letters) {
    if (letter > 3 || col < 0 || col > SIDE || row < 0 || row > SIDE) break;
    col += STEPS[letter][0];
    row += STEPS[letter][1];
    corners.push([col, row]);
  }
  return corners;
}

// Whether a walk is closed, stays on the chart and meets no corner twice.
export function isSimple(start, letters) {
  const corners = walk(start, letters);
  const last = corners[corners.length - 1];
  if (letters.length < 4 || corners.length !== letters.length + 1) return false;
  if (last[0] !== start[0] || last[1] !== start[1]) return false;
  const met = new Set(corners.slice(1).map(([col, row]) => row * (SIDE + 1) + col));
  return met.size === letters.length;
}

// The cells that a simple walk goes round: in each row, those with an odd count of its sides on their left.
export function enclosed(start, letters) {
  const marks = new Uint8Array(SIDE * SIDE);
  let [col, row] = start;
  for (const letter of letters) {
    const below = letter === 1 ? row : letter === 3 ? row - 1 : -1;
    if (below >= 0 && col < SIDE) marks[below * SIDE + col] ^= 1;
    col += STEPS[letter][0];
    row += STEPS[letter][1];
  }
  for (let line = 0; line < marks.length; line += SIDE) {
    for (let i = line + 1; i < line + SIDE; i++) marks[i] ^= marks[i - 1];
  }
  return new Cells(marks);
}
