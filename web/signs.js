// The signs of the chart with their words, as lists.

import { element } from "./svg.js";
import { text } from "./text.js";

const line = (name) => element("path", { class: name, d: "M2 10H38" });
const dot = (name, r) => element("circle", { class: name, cx: 20, cy: 10, r });
const tile = (name) => element("rect", { class: name, x: 12, y: 2, width: 16, height: 16 });
const hatched = (name, lines) => [tile(name), element("path", { class: `hatch ${lines}`, d: "M13 12L22 3M13 17L27 3M18 17L27 8" })];

const SIGNS = {
  cells: () => [tile("cells")],
  p1: () => [line("piece p1")],
  p2: () => [line("piece p2")],
  p3: () => [line("piece p3")],
  p4: () => [line("piece p4")],
  edges: () => [line("edges"), element("path", { class: "arrow", d: "M28 10L19 6V14z" })],
  anchor: () => [dot("anchor", 6), dot("start", 2)],
  start: () => [element("rect", { class: "start", x: 15.5, y: 5.5, width: 9, height: 9 })],
  missing: () => hatched("missing-tile", "hatching"),
  named: () => [dot("named", 8), element("path", { class: "cross", d: "M16 6L24 14M16 14L24 6" })],
  band: () => [line("band")],
  triangle: () => [element("path", { class: "triangle", d: "M8 17L32 17L20 3z" }), dot("witness", 3)],
  factor: () => [line("factor"), dot("point", 3.5)],
  chord: () => [line("chord")],
  fault: () => [line("fault"), element("path", { class: "head", d: "M40 10L26 2V18z" })],
  strip: () => [line("strip-line")],
  inner: () => [line("inner")],
  last: () => hatched("ghost-tile", "backward"),
  over: () => [tile("over")],
  inside: () => [tile("said-inside")],
  undecided: () => [tile("said-undecided")],
  outside: () => [tile("said-outside")],
};

export const ON_CHART = [
  "cells", "p1", "p2", "p3", "p4", "edges", "anchor", "start", "missing", "named", "band", "triangle", "factor", "chord", "fault",
];

// Fills a list with signs, each under its words.
export function signs(list, names) {
  list.classList.add("signs");
  list.replaceChildren(
    ...names.map((name) => {
      const row = document.createElement("li");
      const picture = element("svg", { viewBox: "0 0 40 20", "aria-hidden": "true" });
      picture.append(...SIGNS[name]());
      row.append(picture, document.createTextNode(text(`sign.${name}`)));
      return row;
    }),
  );
}
