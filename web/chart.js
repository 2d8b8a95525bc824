// Sets of cells on the chart. A set never changes: a change makes a new one.

export const SIDE = 255;

// Right, up, left, down.
export const STEPS = [[1, 0], [0, 1], [-1, 0], [0, -1]];

export const onChart = (col, row) => col >= 0 && col < SIDE && row >= 0 && row < SIDE;

export class Cells {
  constructor(marks = new Uint8Array(SIDE * SIDE)) {
    this.marks = marks;
  }

  static of(list) {
    return new Cells().with(list, true);
  }

  has(col, row) {
    return onChart(col, row) && this.marks[row * SIDE + col] === 1;
  }

  // With some cells put in or taken out; those off the chart are left out. The same set if nothing changes.
  with(cells, mark) {
    const changes = cells.filter(([col, row]) => onChart(col, row) && this.has(col, row) !== mark);
    if (changes.length === 0) return this;
    const marks = this.marks.slice();
    for (const [col, row] of changes) marks[row * SIDE + col] = mark ? 1 : 0;
    return new Cells(marks);
  }

  minus(other) {
    const marks = this.marks.slice();
    for (let i = 0; i < marks.length; i++) if (other.marks[i]) marks[i] = 0;
    return new Cells(marks);
  }

  equals(other) {
    return this.marks.every((mark, i) => mark === other.marks[i]);
  }

  // From the lowest row up, each row from the left.
  *each() {
    for (let i = this.marks.indexOf(1); i >= 0; i = this.marks.indexOf(1, i + 1)) yield [i % SIDE, Math.floor(i / SIDE)];
  }

  get count() {
    return this.runs().reduce((sum, [, first, last]) => sum + last - first + 1, 0);
  }

  // The columns and the rows between which the cells lie.
  bounds() {
    const runs = this.runs();
    const found = { left: SIDE, right: 0, bottom: runs[0][0], top: runs[runs.length - 1][0] };
    for (const [, first, last] of runs) [found.left, found.right] = [Math.min(found.left, first), Math.max(found.right, last)];
    return found;
  }

  get empty() {
    return !this.marks.includes(1);
  }

  // Runs of marked cells in rows: [row, first column, last column].
  runs() {
    this.found ??= [...this.eachRun()];
    return this.found;
  }

  *eachRun() {
    const { marks } = this;
    for (let i = marks.indexOf(1); i >= 0; ) {
      const row = Math.floor(i / SIDE);
      const gap = marks.indexOf(0, i);
      const end = Math.min(gap < 0 ? marks.length : gap, (row + 1) * SIDE);
      yield [row, i - row * SIDE, end - 1 - row * SIDE];
      i = marks.indexOf(1, end);
    }
  }
}
