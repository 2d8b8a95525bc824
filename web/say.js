// A verdict in words: what, what to do, its meaning, and the details.

import { walk } from "./border.js";
import { STEPS } from "./chart.js";
import { clockwiseForm, LETTERS } from "./story.js";
import { at, count, text } from "./text.js";

const direction = (letter) => text(letter > 3 ? "direction.none" : `direction.${letter}`);

const corner = (i) => text(`corner.${"WNES"[i]}`);

const piece = (n) => {
  const [earlier, later] = LETTERS[n - 1].map(direction);
  return text("piece", { n, from: corner(n - 1), to: corner(n % 4), earlier, later });
};

const letterAt = (letters, place) => text("letter", { letter: letters[place], direction: direction(letters[place]), place });

// The words for a drawing and its answer.
export function verdict(drawing, answer) {
  if (answer.kind === "blank") return { what: text("blank.what"), meaning: text("blank.meaning") };
  if (answer.kind === "unsent") return unsent(drawing.faults);
  if (answer.kind === "taken") return taken(answer.reply);
  return refused(drawing, answer);
}

function taken({ anchor, edges }) {
  const shown = edges.slice(0, 12).map(({ dx, dy }) => at([dx, dy])).join(" ");
  const key = edges.length === 0 ? "taken.alone" : edges.length > 12 ? "taken.more" : "taken.edges";
  const list = text(key, { shown, more: edges.length - 12 });
  return {
    what: text("taken.what", { edges: count(edges.length, "edge") }),
    meaning: text("taken.meaning"),
    advice: text("taken.advice"),
    where: `${text("taken.anchor", { anchor: at([anchor.col, anchor.row]) })} ${list}`,
  };
}

// What was at work before a refusal stays at work, and the words say so.
function refused(drawing, answer) {
  const { number } = answer.reply.refusal;
  const what = text("refused.what", { number, name: text(`refusal.${number}`) });
  const words = { what, meaning: text(`meaning.${number}`), ...(DETAILS[number]?.(drawing, answer) ?? {}) };
  return { ...words, meaning: `${words.meaning} ${text("refused.stays")}` };
}

const cornerAt = (start, letters, place) => {
  const corners = walk(start, letters);
  return corners[Math.min(place, corners.length - 1)];
};

// A letter of a piece, as the clockwise form has it.
function onForm({ start, letters }, place) {
  if (clockwiseForm(start, letters).clockwise) return letterAt(letters, place);
  const letter = letters[place];
  return text("letter.backward", { letter, direction: direction(letter), forward: direction(letter ^ 2), place });
}

const triangle = ({ cells, missing }) => {
  const [a, b, c] = cells.map(at);
  if (a === b || b === c || a === c) return text("witness.between", { a, b: a === b ? c : b, cell: at(missing) });
  return text("witness.triangle", { a, b, c, cell: at(missing) });
};

const fill = ({ added }) => text("advice.fill", { cells: count(added.count, "cell") });

const DETAILS = {
  1: ({ letters }) => ({
    where: text("where.1", { n: letters.length }),
    advice: text(letters.length > 612 ? "advice.smaller" : "advice.round"),
  }),
  2: ({ start }) => ({ where: text("where.2", { start: at(start) }), advice: text("advice.inside") }),
  3: ({ letters }, { reply: { refusal } }) => ({
    where: text("where.3", { byte: letters[refusal.place], place: refusal.place }),
    advice: text("advice.again"),
  }),
  4: ({ start, letters }, { reply: { refusal } }) => ({
    where: text("where.4", { letter: letterAt(letters, refusal.place), corner: at(cornerAt(start, letters, refusal.place)) }),
    advice: text("advice.inside"),
  }),
  5: ({ start, letters }) => ({
    where: text("where.5", { start: at(start), end: at(cornerAt(start, letters, letters.length)) }),
    advice: text("advice.close"),
  }),
  6: ({ start, letters }, { reply: { refusal } }) => {
    const [col, row] = cornerAt(start, letters, refusal.place);
    const [dc, dr] = STEPS[letters[refusal.place]];
    const where = text("where.6", { letter: letterAt(letters, refusal.place), corner: at([col + dc, row + dr]) });
    return { where, advice: text("advice.once") };
  },
  8: (drawing, answer) => {
    const { place, piece: n } = answer.reply.refusal;
    const letter = text("where.8", { letter: onForm(drawing, place), piece: piece(n) });
    return { where: `${letter} ${triangle(answer.witness)}`, advice: fill(answer) };
  },
  9: (drawing, answer) => {
    const { place, piece: n, length, cell } = answer.reply.refusal;
    const key = clockwiseForm(drawing.start, drawing.letters).clockwise ? "where.9" : "where.9.backward";
    const factor = text(key, { letters: count(length, "letters"), place, piece: piece(n) });
    return {
      meaning: text("meaning.9", { cell: at([cell.col, cell.row]) }),
      where: `${triangle(answer.witness)} ${factor}`,
      advice: fill(answer),
    };
  },
};

// The words for a set of cells that has no single border, so that nothing is sent: advice for each fault.
function unsent(faults) {
  const lines = faults.map(({ kind, at: corner, cell, count: n }) => {
    if (kind === "corner") return text("unsent.corner", { corner: at(corner) });
    return text(kind === "hole" && n > 1 ? "unsent.holes" : `unsent.${kind}`, { n, cell: at(cell) });
  });
  const advice = faults.map(({ kind }) => text(`advice.${kind}`)).join(" ");
  return { what: text("unsent.what"), meaning: text("unsent.meaning"), where: lines.join(" "), advice };
}
