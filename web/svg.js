// Pieces of pictures.

const SVG = "http://www.w3.org/2000/svg";

export function element(name, attributes = {}, words) {
  const made = document.createElementNS(SVG, name);
  for (const [key, value] of Object.entries(attributes)) made.setAttribute(key, value);
  if (words !== undefined) made.textContent = words;
  return made;
}

// Sets an attribute if it changes: most of a picture stays as it is from one change to the next.
export function put(made, key, value) {
  if (made.getAttribute(key) !== value) made.setAttribute(key, value);
}

// A path along points.
export const polyline = (points, shift = 0) => points.map(([x, y], i) => `${i === 0 ? "M" : "L"}${x + shift} ${y + shift}`).join("");

// A path round the runs of cells, each a rectangle `Mcol rowhWIDTHv1h-WIDTHz`.
export function cellsPath(cells) {
  cells.path ??= cells.runs().map(([row, first, last]) => `M${first} ${row}h${last - first + 1}v1h${first - last - 1}z`).join("");
  return cells.path;
}

// The square part of the chart that holds some sets of cells, as a view box; the whole chart if they are empty.
export function boxOf(sets) {
  let [left, right, bottom, top] = [255, 0, 255, 0];
  for (const cells of sets) {
    for (const [row, first, last] of cells?.runs() ?? []) {
      [left, right, bottom, top] = [Math.min(left, first), Math.max(right, last + 1), Math.min(bottom, row), Math.max(top, row + 1)];
    }
  }
  if (right === 0) return "0 0 255 255";
  const side = Math.max(right - left, top - bottom) + 4;
  return [(left + right - side) / 2, 255 - (bottom + top + side) / 2, side, side].join(" ");
}

// A picture of cells alone.
export function thumbnail(cells, box) {
  const made = element("svg", { viewBox: box, "aria-hidden": "true", class: "thumb" });
  const plot = element("g", { transform: "translate(0 255) scale(1 -1)" });
  plot.append(element("path", { class: "cells", d: cells ? cellsPath(cells) : "" }));
  made.append(plot);
  return made;
}
