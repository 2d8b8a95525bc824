// Files of outlines, in the forms that the program reads: text, fitting files, and images.

import { Cells, onChart } from "./chart.js";
import { decoded, escaped, isText, unescaped } from "./decode.js";
import { ofCells, ofOutline } from "./drawing.js";
import { IMAGE, ofImage } from "./image.js";
import { at, text } from "./text.js";
import { unitLines, unitsOf } from "./units.js";

const MARK = [0x4b, 0x4f];
const HEAD = 6;
const LARGEST = 65536;

// What is wrong with a file, as a sentence.
export class Fault extends Error {}

const fault = (key, values) => new Fault(text(`fault.${key}`, values));

// What a file has, one after the other: drawings, and units of a party. A fault is thrown where it stands.
export function* contents(engine, bytes, name) {
  if (/\.img$/i.test(name)) return yield* image(engine, bytes);
  const worded = isText(bytes);
  if (worded === null) throw fault("none");
  if (worded) yield* lines(decoded(bytes));
  else yield* records(engine, bytes);
}

// What is called an image has to be one.
function* image(engine, bytes) {
  if (bytes.length !== IMAGE) throw fault("size", { n: bytes.length, size: IMAGE });
  const found = ofImage(engine, bytes);
  if (found === null) throw fault("image");
  if (found.letters.length === 0) throw fault("place");
  yield { drawing: ofOutline(found), image: true };
}

// The outline of an image, or the outlines of a fitting file. Bytes as many as an image's that are neither are a damaged image, of which
// nothing is used.
function* records(engine, bytes) {
  if (ofImage(engine, bytes)) return yield* image(engine, bytes);
  if (bytes.length !== IMAGE || bytes[0] !== MARK[0] || bytes[1] !== MARK[1]) return yield* fittings(bytes);
  try {
    yield* [...fittings(bytes)];
  } catch (error) {
    throw error instanceof Fault ? fault("image") : error;
  }
}

function* fittings(bytes) {
  if (bytes.length > LARGEST) throw fault("25", { most: LARGEST });
  const marked = bytes[0] === MARK[0] && (bytes.length === 1 || bytes[1] === MARK[1]);
  if (!marked) throw fault("neither");
  for (let n = 0, position = 0; position < bytes.length; n++) {
    if (bytes[position] !== MARK[0] || bytes[position + 1] !== MARK[1]) throw fault("23", { n, position });
    const end = position + HEAD + (bytes[position + 4] | (bytes[position + 5] << 8));
    if (position + HEAD > bytes.length || end > bytes.length) throw fault("24", { n, position });
    const letters = bytes.slice(position + HEAD, end);
    yield { drawing: ofOutline({ start: [bytes[position + 2], bytes[position + 3]], letters }) };
    position = end;
  }
}

// The contents of a text: an outline a line, as in `0 1 101030323212  # a plus`; units in a comment.
export function* lines(words) {
  let line = 0;
  for (const found of words) {
    line++;
    const units = unitsOf(found);
    if (units) yield { units };
    const drawing = entry(found, line);
    if (drawing) yield { drawing };
  }
}

const WHITE = /^[ \t\f]+|[ \t\f]+$/g;

function entry(words, line) {
  const cut = words.includes("#") ? words.indexOf("#") : words.length;
  const fields = words.slice(0, cut).split(/[ \t\f]+/).filter((field) => field !== "");
  if (fields.length === 0) return null;
  if (fields.length === 1 || fields.length > 3) throw fault("line", { line });
  const [col, row, letters = ""] = fields;
  for (const number of [col, row]) if (!/^\d+$/.test(number) || Number(number) > 65535) throw fault("start", { line, number });
  const wrong = [...letters].find((letter) => !/^\d$/.test(letter));
  if (wrong !== undefined) throw fault("letter", { line, letter: wrong });
  const name = words.slice(cut + 1).replace(WHITE, "");
  if (letters === "" && CELLS.test(name)) return ofRuns(name) ?? ofOutline({ name, start: [Number(col), Number(row)], letters: [] });
  return ofOutline({ name: unescaped(name), start: [Number(col), Number(row)], letters: Uint8Array.from(letters, Number) });
}

// What is drawn and has no single border is an outline without letters whose name has its cells: `cells 3:4-6 4:4-9  # a name`.
const CELLS = /^cells((?: \d+:\d+-\d+)+)(?:[ \t\f]*#[ \t\f]*(.*))?$/;

function ofRuns(words) {
  const [, runs, name = ""] = CELLS.exec(words);
  const cells = [];
  for (const run of runs.trim().split(" ")) {
    const [row, first, last] = run.split(/[:-]/).map(Number);
    if (!onChart(first, row) || !onChart(last, row)) return null;
    for (let col = first; col <= last; col++) cells.push([col, row]);
  }
  return ofCells(Cells.of(cells), unescaped(name));
}

// Drawings as a fitting file, which has no names.
export function fittingFile(drawings) {
  const bytes = [];
  drawings.forEach(({ start, letters, cells }, n) => {
    if (!letters) throw fault(cells.empty ? "blank" : "unsent", { n });
    if (start.some((number) => number > 255)) throw fault("room", { n, start: at(start) });
    if (letters.length > 0xffff) throw fault("long", { n });
    bytes.push(...MARK, ...start, letters.length & 0xff, letters.length >> 8);
    for (const letter of letters) bytes.push(letter);
  });
  if (bytes.length > LARGEST) throw fault("25", { most: LARGEST });
  return Uint8Array.from(bytes);
}

// Drawings as text, with their names, after the units of both parties.
export function textFile(drawings, units) {
  const rows = drawings.map((drawing, n) => {
    const [outline, name] = worded(drawing, n);
    return outline.trimEnd() + (name ? `  # ${name}` : "");
  });
  return new TextEncoder().encode([...unitLines(units), ...rows].map((row) => `${row}\n`).join(""));
}

function worded({ name, start, letters, cells }, n) {
  const kept = escaped(name.replace(WHITE, ""));
  if (letters) {
    if (letters.some((letter) => letter > 9)) throw fault("digit", { n });
    return [`${start[0]} ${start[1]} ${letters.join("")}`, kept];
  }
  const runs = cells.runs().map(([row, first, last]) => ` ${row}:${first}-${last}`);
  if (runs.length === 0) return ["0 0", kept];
  return ["0 0", `cells${runs.join("")}${kept ? `  # ${kept}` : ""}`];
}
