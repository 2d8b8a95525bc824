// The window on the chart: which part of it is shown, and how large.

import { SIDE } from "./chart.js";
import { valueAt } from "./units.js";

// Room above the chart, and for the numbers and names of the axes, in pixels: without units, and with them.
export const ABOVE = 8;
const LEFT = [52, 100];
const BELOW = [42, 58];

const LEAST = 1.2;
const MOST = 800;

// How far the window may leave the chart, in cells.
const MARGIN = 3;

export class View {
  constructor(svg) {
    this.svg = svg;
    this.party = 0;
    this.units = null;
    this.scale = 26;
    this.left = -1;
    this.bottom = -1;
    this.measure();
  }

  // Takes the size and the place of the element; to be called when they have changed. A look at every stroke would lay out the page.
  measure() {
    // The picture begins behind the element's own line.
    const { left, top } = this.svg.getBoundingClientRect();
    this.box = { left: left + this.svg.clientLeft, top: top + this.svg.clientTop };
    this.wide = this.svg.clientWidth;
    this.high = this.svg.clientHeight;
    const has = (axis) => (this.units && valueAt(this.units[axis], 0) ? 1 : 0);
    this.before = LEFT[has("row")];
    this.below = BELOW[has("column")];
    this.width = Math.max(60, this.wide - this.before - 8);
    this.height = Math.max(60, this.high - this.below - ABOVE);
  }

  // Takes the party and the units of the axes.
  measures(party, units) {
    if (party === this.party && units === this.units) return;
    Object.assign(this, { party, units });
    this.measure();
  }

  // What part is shown, for a reload.
  kept() {
    return [this.scale, this.left, this.bottom];
  }

  restore(kept) {
    if (!Array.isArray(kept) || kept.length !== 3 || !kept.every(Number.isFinite) || !(kept[0] >= LEAST && kept[0] <= MOST)) return false;
    [this.scale, this.left, this.bottom] = kept;
    this.clamp();
    return true;
  }

  x(col) {
    return this.before + (col - this.left) * this.scale;
  }

  y(row) {
    return ABOVE + this.height - (row - this.bottom) * this.scale;
  }

  // The point of the chart under a point of the screen, in columns and rows of corners.
  point(clientX, clientY) {
    const { box } = this;
    const col = (clientX - box.left - this.before) / this.scale + this.left;
    const row = (ABOVE + this.height - (clientY - box.top)) / this.scale + this.bottom;
    return [col, row];
  }

  // Zooms by a factor; the point of the chart stays where it is.
  zoom(factor, [col, row] = this.middle) {
    const scale = Math.min(MOST, Math.max(LEAST, this.scale * factor));
    this.left = col - ((col - this.left) * this.scale) / scale;
    this.bottom = row - ((row - this.bottom) * this.scale) / scale;
    this.scale = scale;
    this.clamp();
  }

  get middle() {
    return [this.left + this.width / this.scale / 2, this.bottom + this.height / this.scale / 2];
  }

  // Moves by pixels.
  move(dx, dy) {
    this.left -= dx / this.scale;
    this.bottom += dy / this.scale;
    this.clamp();
  }

  clamp() {
    // A window larger than the chart has the chart in its middle.
    const bound = (low, span) => (span > SIDE + 2 * MARGIN ? (SIDE - span) / 2 : Math.min(Math.max(low, -MARGIN), SIDE + MARGIN - span));
    this.left = bound(this.left, this.width / this.scale);
    this.bottom = bound(this.bottom, this.height / this.scale);
  }

  // Shows these corners, with room round them.
  fit(corners) {
    const wider = (k) => ([low, high], corner) => [Math.min(low, corner[k]), Math.max(high, corner[k])];
    const ends = (k) => corners.reduce(wider(k), [Infinity, -Infinity]);
    const [[left, right], [bottom, top]] = [ends(0), ends(1)];
    const scale = Math.min(this.width / (right - left + 2 * MARGIN), this.height / (top - bottom + 2 * MARGIN));
    this.scale = Math.min(40, Math.max(LEAST, scale));
    this.left = (left + right) / 2 - this.width / this.scale / 2;
    this.bottom = (bottom + top) / 2 - this.height / this.scale / 2;
    this.clamp();
  }

  // Moves the window as little as is needed to show a cell.
  reveal([col, row]) {
    this.left = Math.min(this.left, col - 1);
    this.bottom = Math.min(this.bottom, row - 1);
    this.left = Math.max(this.left, col + 2 - this.width / this.scale);
    this.bottom = Math.max(this.bottom, row + 2 - this.height / this.scale);
  }
}
