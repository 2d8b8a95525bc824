// The picture of the chart. Geometry is written in columns and rows, under one transformation; marks of a fixed size in pixels.

import { SIDE } from "./chart.js";
import { cellsPath, element, polyline, put } from "./svg.js";
import { text } from "./text.js";
import { axisName, valueAt } from "./units.js";
import { ABOVE } from "./view.js";

// Paths in columns and rows, from the bottom up. What is drawn about cell centres is moved by half a cell.
const PATHS = [
  "ghost", "cells", "missing", "over", "grid", "side", "strip", "strip-line", "walk", "piece p1", "piece p2", "piece p3", "piece p4",
  "lack", "other", "band", "edges", "inner", "triangle", "factor", "chord", "gap", "section-line",
];

// Where W, N, E and S are named, in pixels from their corner.
const BESIDE = { W: [-17, 5], N: [0, -11], E: [17, 5], S: [0, 22] };

export class Picture {
  constructor(view) {
    this.view = view;
    this.clip = element("rect", { y: ABOVE });
    this.hatchings = [hatching("hatching"), hatching("backward")];
    this.plot = element("g", { class: "plot" });
    this.off = element("rect", { class: "off" });
    this.plot.append(this.off, element("rect", { class: "field", width: SIDE, height: SIDE }));
    this.paths = new Map(PATHS.map((name) => [name, element("path", { class: name })]));
    this.plot.append(...this.paths.values());
    this.marks = element("g");
    this.axes = element("g", { "aria-hidden": "true" });
    const inside = element("g", { "clip-path": "url(#window)", "aria-hidden": "true" });
    inside.append(this.plot, this.marks);
    view.svg.replaceChildren(definitions(this.clip, this.hatchings), inside, this.axes);
  }

  // Draws a story, the faults of a set that is not sent, what a panel adds, and the cursor.
  draw(story, faults, more, cursor) {
    this.window();
    const lines = this.lines(story, more);
    for (const [name, path] of this.paths) if (name !== "grid" && name !== "side") put(path, "d", lines[name] ?? "");
    this.marks.replaceChildren(...this.signs(story, faults, more), this.cursor(cursor));
  }

  // The parts that depend on the window alone.
  window() {
    const { view } = this;
    const state = [view.scale, view.left, view.bottom, view.wide, view.high, view.party].join();
    if (state === this.state && view.units === this.units) return;
    Object.assign(this, { state, units: view.units });
    put(this.clip, "x", String(view.before));
    for (const [key, value] of [["width", view.width], ["height", view.height]]) {
      put(this.clip, key, String(value));
      put(this.off, key, String(value / view.scale));
    }
    put(this.off, "x", String(view.left));
    put(this.off, "y", String(view.bottom));
    put(view.svg, "viewBox", `0 0 ${view.wide} ${view.high}`);
    put(this.plot, "transform", `translate(${view.x(0)} ${view.y(0)}) scale(${view.scale} ${-view.scale})`);
    this.hatchings.forEach((made, i) => put(made, "patternTransform", `rotate(${45 - 90 * i}) scale(${1 / view.scale})`));
    // Lines are thinner where cells are small.
    view.svg.style.setProperty("--thin", String(Math.min(1, Math.max(0.4, view.scale / 9))));
    put(this.paths.get("grid"), "d", this.grid());
    put(this.paths.get("side"), "d", `M0 0H${SIDE}V${SIDE}H0z`);
    this.axes.replaceChildren(...this.labels());
  }

  grid() {
    const { view } = this;
    const step = [1, 5, 10, 50].find((n) => n * view.scale >= 6) ?? 50;
    const seen = (low, span) => [Math.max(0, Math.floor(low / step) * step), Math.min(SIDE, low + span)];
    const [left, right] = seen(view.left, view.width / view.scale);
    const [bottom, top] = seen(view.bottom, view.height / view.scale);
    let path = "";
    for (let n = left; n <= right; n += step) path += `M${n} ${bottom}V${top}`;
    for (let n = bottom; n <= top; n += step) path += `M${left} ${n}H${right}`;
    return path;
  }

  // The paths of a story are made once for each way to show it.
  lines(story, more) {
    const way = `${Boolean(more.why)} ${Boolean(more.plain)}`;
    story.lines ??= {};
    story.lines[way] ??= this.storyLines(story, more);
    return { ...story.lines[way], ...more.paths };
  }

  storyLines(story, more) {
    const lines = { cells: story.cells ? cellsPath(story.cells) : "" };
    if (story.missing) lines.missing = cellsPath(story.missing);
    if (story.walk) lines.walk = polyline(story.walk);
    // Beside other blocks the border is one plain line.
    if (more.plain) lines.walk = (story.pieces ?? []).map((corners) => polyline(corners)).join("");
    else (story.pieces ?? []).forEach((corners, k) => (lines[`piece p${k + 1}`] = polyline(corners)));
    if (story.edges) lines.edges = polyline(story.edges, 0.5);
    if (story.band && more.why) lines.band = polyline(story.band, 0.5);
    if (story.triangle && more.why) lines.triangle = `${polyline(story.triangle.cells, 0.5)}z`;
    if (story.factor) {
      lines.factor = polyline(story.factor, 0.5);
      if (!more.why) lines.chord = polyline([story.factor[0], story.factor[story.factor.length - 1]], 0.5);
    }
    if (story.gap) lines.gap = polyline(story.gap);
    return lines;
  }

  corner([col, row]) {
    return [this.view.x(col), this.view.y(row)];
  }

  centre([col, row]) {
    return [this.view.x(col + 0.5), this.view.y(row + 0.5)];
  }

  signs(story, faults, more) {
    const marks = [];
    if (story.start && !more.plain) marks.push(square(this.corner(story.start)));
    if (story.edges) marks.push(...this.anchor(story.edges));
    const points = story.factor && !more.why && this.view.scale > 7 ? story.factor : [];
    marks.push(...points.map((cell) => circle("point", this.centre(cell), 3.5)));
    if (story.triangle && more.why) marks.push(...story.triangle.cells.map((cell) => this.ring("witness", cell)));
    const lowest = story.named ?? (more.why && story.triangle?.missing);
    if (lowest) marks.push(...this.named(lowest));
    if (story.step) marks.push(...step(this.corner(story.step[0]), this.corner(story.step[1])));
    if (story.spot) marks.push(cross(this.corner(story.spot), 7));
    if (story.gap) marks.push(cross(this.corner(story.gap[0]), 7));
    for (const [name, at] of more.plain ? [] : (story.names ?? [])) {
      const [x, y] = this.corner(at);
      marks.push(element("text", { class: "name", x: x + BESIDE[name][0], y: y + BESIDE[name][1] }, text(`corner.${name}`)));
    }
    for (const fault of faults) marks.push(...this.fault(fault));
    if (more.ticks) marks.push(element("path", { class: "dents", d: more.ticks.map((tick) => this.tick(tick)).join("") }));
    for (const { name, at, r } of more.points ?? []) marks.push(circle(name, this.corner(at), r));
    return marks;
  }

  // A tick at the lower or at the left side of the window, beside a column or a row.
  tick({ piece, place }) {
    const { view } = this;
    const wide = Math.max(1, view.scale);
    if (piece === 0) return `M${view.x(place)} ${ABOVE + view.height}h${wide}v-6h${-wide}z`;
    return `M${view.before} ${view.y(place)}v${-wide}h6v${wide}z`;
  }

  anchor(edges) {
    const arrows = edges.slice(1).map((to, i) => arrow(this.centre(edges[i]), this.centre(to), 0.62, 6)).join("");
    const at = this.centre(edges[0]);
    const ring = circle("anchor", at, 6);
    ring.dataset.cell = edges[0].join(" ");
    return [element("path", { class: "arrow", d: arrows }), ring, circle("start", at, 2)];
  }

  ring(name, cell) {
    const made = circle(name, this.centre(cell), Math.max(6, this.view.scale * 0.36));
    made.dataset.cell = cell.join(" ");
    return made;
  }

  named(cell) {
    const ring = circle("named", this.centre(cell), Math.max(7, this.view.scale / 2));
    ring.dataset.cell = cell.join(" ");
    return [ring, cross(this.centre(cell), Math.max(4, Math.min(14, this.view.scale * 0.22)))];
  }

  // A ring round a corner, or round a cell of a further part or of a hole.
  fault({ kind, at, cell }) {
    const [x, y] = kind === "corner" ? this.corner(at) : this.centre(cell);
    const r = kind === "corner" ? 10 : Math.max(7, this.view.scale / 2);
    const ring = circle("named", [x, y], r);
    ring.dataset.fault = kind;
    return [ring, element("text", { class: "label", x, y: y - r - 6 }, text(`fault.${kind}`))];
  }

  // A dashed square within the cell's sides.
  cursor([col, row]) {
    const inset = Math.min(5, this.view.scale / 6);
    const side = this.view.scale - 2 * inset;
    return element("rect", { class: "cursor", x: this.view.x(col) + inset, y: this.view.y(row + 1) + inset, width: side, height: side });
  }

  // Numbers of columns and rows, their values in units beside them, and the names of the axes.
  labels() {
    const { view } = this;
    const step = [1, 2, 5, 10, 20, 50].find((n) => n * view.scale >= 28) ?? 100;
    const bottom = ABOVE + view.height;
    const shown = (n, low, pixels) => n + 0.5 >= low && n + 0.5 <= low + pixels / view.scale;
    const made = [];
    const label = (words, place) => made.push(element("text", place, words));
    const value = (axis, n) => (view.units ? valueAt(view.units[axis], n) : "");
    // Values are longer than numbers of cells, so a column may have none.
    const apart = Math.max(1, Math.ceil((8 * Math.max(...[0, SIDE - 1].map((n) => value("column", n).length))) / (step * view.scale)));
    for (let n = 0; n < SIDE; n += step) {
      if (shown(n, view.left, view.width)) {
        label(String(n), { class: "middle", x: view.x(n + 0.5), y: bottom + 16 });
        if ((n / step) % apart === 0) label(value("column", n), { class: "middle unit", x: view.x(n + 0.5), y: bottom + 31 });
      }
      if (shown(n, view.bottom, view.height)) {
        label(String(n), { class: "right", x: view.before - 6, y: view.y(n + 0.5) + 4 });
        label(value("row", n), { class: "right unit", x: view.before - 36, y: view.y(n + 0.5) + 4 });
      }
    }
    const turn = `translate(16 ${ABOVE + view.height / 2}) rotate(-90)`;
    const name = (axis) => (view.units ? axisName(view.party, axis, view.units[axis]) : "");
    label(name("column"), { class: "axis middle", x: view.before + view.width / 2, y: bottom + view.below - 7 });
    label(name("row"), { class: "axis middle", transform: turn });
    return made;
  }
}

function definitions(clip, hatchings) {
  const made = element("defs");
  const window = element("clipPath", { id: "window" });
  window.append(clip);
  made.append(window, ...hatchings);
  return made;
}

// Lines six pixels apart; the window turns and scales them.
function hatching(id) {
  const made = element("pattern", { id, width: 6, height: 6, patternUnits: "userSpaceOnUse" });
  made.append(element("path", { class: `hatch ${id}`, d: "M0 0V6" }));
  return made;
}

export const circle = (name, [cx, cy], r) => element("circle", { class: name, cx, cy, r });

const square = ([x, y]) => element("rect", { class: "start", x: x - 4.5, y: y - 4.5, width: 9, height: 9 });

const cross = ([x, y], half) => {
  const [left, right, top, bottom] = [x - half, x + half, y - half, y + half];
  return element("path", { class: "cross", d: `M${left} ${top}L${right} ${bottom}M${left} ${bottom}L${right} ${top}` });
};

// A step as an arrow that is long enough to be seen.
function step(from, to) {
  const more = Math.max(1, 18 / Math.hypot(to[0] - from[0], to[1] - from[1]));
  const end = [from[0] + (to[0] - from[0]) * more, from[1] + (to[1] - from[1]) * more];
  return [element("path", { class: "fault", d: polyline([from, end]) }), element("path", { class: "head", d: arrow(from, end, 1, 11) })];
}

// The head of an arrow as a path; none on a way that is too short for it.
function arrow(from, to, part, size) {
  const [dx, dy] = [to[0] - from[0], to[1] - from[1]];
  const length = Math.hypot(dx, dy);
  if (length < 18) return "";
  const [ux, uy] = [dx / length, dy / length];
  const tip = [from[0] + dx * part + (ux * size) / 2, from[1] + dy * part + (uy * size) / 2];
  const base = [tip[0] - ux * 1.5 * size, tip[1] - uy * 1.5 * size];
  const wing = 0.7 * size;
  return `${polyline([tip, [base[0] - uy * wing, base[1] + ux * wing], [base[0] + uy * wing, base[1] - ux * wing]])}z`;
}
