// The strip along the edges of a hull in which a reading is undecided, as a picture. What a reading's answer is, the library says.

import { polyline } from "./svg.js";

// Side values nearer to zero than this are undecided.
const NEAR = 1 / 64;

// The edges with the cells where they start: [x, y, dx, dy].
const edgesOf = (hull) => hull.slice(1).map(([x, y], i) => [hull[i][0], hull[i][1], x - hull[i][0], y - hull[i][1]]);

const side = ([x, y, dx, dy], [px, py]) => dy * (px - x) - dx * (py - y);

// The part of a polygon in which the side value of an edge is at least a number.
function clip(polygon, edge, least) {
  const kept = [];
  polygon.forEach((point, i) => {
    const next = polygon[(i + 1) % polygon.length];
    const [a, b] = [side(edge, point) - least, side(edge, next) - least];
    if (a >= 0) kept.push(point);
    if (a >= 0 !== b >= 0) kept.push([0, 1].map((k) => point[k] + ((next[k] - point[k]) * a) / (a - b)));
  });
  return kept;
}

const bounds = (hull) => {
  const ends = (k) => [Math.min(...hull.map((corner) => corner[k])), Math.max(...hull.map((corner) => corner[k]))];
  const [[left, right], [bottom, top]] = [ends(0), ends(1)];
  return [[left, bottom], [right, bottom], [right, top], [left, top]];
};

// The strip as a path: what lies within all edges by more than minus a sixty-fourth, without what lies within them by a sixty-fourth.
export function stripPath(hull) {
  const edges = edgesOf(hull);
  const within = (least) => edges.reduce((polygon, edge) => clip(polygon, edge, least), bounds(hull));
  const ring = (polygon) => (polygon.length > 2 ? `${polyline(polygon, 0.5)}z` : "");
  return ring(within(-NEAR)) + ring(within(NEAR));
}

// How wide the strip is beside a point, in cells: that of the nearest edge. A single cell has none.
export function widthAt(hull, point) {
  let [nearest, width] = [Infinity, NEAR];
  for (const edge of edgesOf(hull)) {
    const length = Math.hypot(edge[2], edge[3]);
    const away = Math.abs(side(edge, point)) / length;
    if (away < nearest) [nearest, width] = [away, (2 * NEAR) / length];
  }
  return width;
}
