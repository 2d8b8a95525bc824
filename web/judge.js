// What the library says of a drawing. Every verdict that is shown comes from here.

import { enclosed } from "./border.js";

const known = new WeakMap();

// The corner cells of a hull, the anchor first and last.
export function hullOf({ anchor, edges }) {
  const corners = [[anchor.col, anchor.row]];
  for (const { dx, dy } of edges) {
    const [col, row] = corners[corners.length - 1];
    corners.push([col + dx, row + dy]);
  }
  return corners;
}

export const outlineOf = ({ start, letters }) => ({ start: { col: start[0], row: start[1] }, letters: Uint8Array.from(letters) });

// The answer to a drawing. A drawing never changes, so its answer is worked out once.
export function judge(engine, drawing) {
  if (!known.has(drawing)) known.set(drawing, answer(engine, drawing));
  return known.get(drawing);
}

function answer(engine, drawing) {
  if (drawing.faults.length > 0) return { kind: "unsent" };
  if (!drawing.letters) return { kind: "blank" };
  const outline = outlineOf(drawing);
  const reply = engine.test(outline);
  if (reply.taken) return { kind: "taken", reply, hull: hullOf(reply) };
  return { kind: "refused", reply, ...help(engine, drawing, outline, reply.refusal.number) };
}

// Of a block that lacks cells: the witness, the completion, its hull and the cells that it adds.
function help(engine, drawing, outline, number) {
  if (number !== 8 && number !== 9) return {};
  const { missing, cells } = engine.witness(outline);
  const { start, letters } = engine.complete(outline);
  const whole = enclosed([start.col, start.row], letters);
  return {
    witness: { missing: [missing.col, missing.row], cells: cells.map(({ col, row }) => [col, row]) },
    completion: { start: [start.col, start.row], letters: [...letters], cells: whole },
    added: whole.minus(drawing.cells),
    hull: hullOf(engine.test({ start, letters })),
  };
}

// A holder with the drawing at work at the knee's place 0, or none if it is not taken. There is one, which the next drawing takes over.
const work = { holder: null, drawing: null };

export function atWork(engine, drawing) {
  if (judge(engine, drawing).kind !== "taken") return null;
  if (work.drawing !== drawing) {
    work.holder ??= engine.holder();
    const { start, letters } = outlineOf(drawing);
    work.holder.begin(0, start);
    for (const letter of letters) work.holder.add(0, letter);
    work.holder.close(0, 0);
    work.drawing = drawing;
  }
  return work.holder;
}

// What the controller says of a cell, with this drawing at work: inside or outside, or nothing where it would not be.
export function saidAt(engine, drawing, [col, row]) {
  const { kind, reply } = judge(engine, drawing);
  if (kind !== "taken") return "nothing";
  return engine.looseQuery({ anchor: reply.anchor, edges: reply.edges, cell: { col, row } }).inside ? "inside" : "outside";
}
